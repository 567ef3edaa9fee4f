//! The symbols of the proved library as function pointers, for the oracle and for bench/: something where the feature of
//! the symbol's group is on and the archive linked, nothing elsewhere.

macro_rules! linked {
    ($($feature:literal $name:ident = $symbol:ident($($type:ty),*) -> $result:ty;)*) => {
        $(
            #[cfg(feature = $feature)]
            pub const $name: Option<unsafe extern "C" fn($($type),*) -> $result> = {
                extern "C" {
                    fn $symbol($(_: $type),*) -> $result;
                }
                Some($symbol)
            };
            #[cfg(not(feature = $feature))]
            pub const $name: Option<unsafe extern "C" fn($($type),*) -> $result> = None;
        )*
    };
}

// The leaves.
linked! {
    "lib-sqrt-fma" SQRT = gatewren_sqrt(f64) -> f64;
    "lib-sqrt-fma" MUL_ADD = gatewren_mul_add(f64, f64, f64) -> f64;
    "lib-pow" POW = gatewren_pow_neg_3_2(f64) -> f64;
    "lib-series" ATAN = gatewren_atan(f64) -> f64;
    "lib-series" LN = gatewren_ln(f64) -> f64;
    "lib-series" LN_1P = gatewren_ln_1p(f64) -> f64;
}

// The entries: 0 with the value, its count, its road and its rescalings written, or a number for no.
linked! {
    "lib-rc-rf" RC = gatewren_rc(f64, f64, *mut f64, *mut u32, *mut u32, *mut u32) -> u32;
    "lib-rc-rf" RF = gatewren_rf(f64, f64, f64, *mut f64, *mut u32, *mut u32, *mut u32) -> u32;
    "lib-rd-rg" RD = gatewren_rd(f64, f64, f64, *mut f64, *mut u32, *mut u32, *mut u32) -> u32;
    "lib-rd-rg" RG = gatewren_rg(f64, f64, f64, *mut f64, *mut u32, *mut u32, *mut u32) -> u32;
    "lib-rj" RJ_POSITIVE = gatewren_rj_positive(f64, f64, f64, f64, *mut f64, *mut u32, *mut u32, *mut u32) -> u32;
    "lib-rj" RJ_NEGATIVE = gatewren_rj_negative(f64, f64, f64, f64, *mut f64, *mut u32, *mut u32, *mut u32) -> u32;
    "lib-cel" CEL = gatewren_cel(f64, f64, f64, f64, *mut f64, *mut u32, *mut u32, *mut u32) -> u32;
}

// Request 2026-14: the bench profile's, likewise.
linked! {
    "lib-profile" PROFILE_RC = gatewren_profile_rc(f64, f64, *mut f64, *mut u32, *mut u32, *mut u32) -> u32;
    "lib-profile" PROFILE_RF = gatewren_profile_rf(f64, f64, f64, *mut f64, *mut u32, *mut u32, *mut u32) -> u32;
    "lib-profile" PROFILE_RD = gatewren_profile_rd(f64, f64, f64, *mut f64, *mut u32, *mut u32, *mut u32) -> u32;
    "lib-profile" PROFILE_RG = gatewren_profile_rg(f64, f64, f64, *mut f64, *mut u32, *mut u32, *mut u32) -> u32;
    "lib-profile" PROFILE_RJ = gatewren_profile_rj(f64, f64, f64, f64, *mut f64, *mut u32, *mut u32, *mut u32) -> u32;
}

// Request 2026-01: likewise; a log's readings go as a pointer and a length.
linked! {
    "lib-swing" SWING = gatewren_swing(u64, u64, u64, *mut f64, *mut u32, *mut u32, *mut u32) -> u32;
    "lib-swing" STEPS = gatewren_steps(*mut u64, *const u16, usize) -> u32;
    "lib-drag" DRAG = gatewren_drag(u64, u64, u64, u64, u64, *mut u32, *mut u32, *mut u64, *mut f64) -> u32;
    "lib-drag" DECAY = gatewren_decay(u64, u64, *mut f64) -> u32;
}

// Decimals: a text's bytes and their length, and two places; a number, and room for its text.
linked! {
    "lib-decimals" READ_DECIMAL = gatewren_read_decimal(*const u8, usize, *mut f64, *mut usize) -> u32;
    "lib-decimals" WRITE_DECIMAL = gatewren_write_decimal(f64, *mut u8, usize) -> usize;
}

// Request 2026-03: bytes and their length, a place, and a job as five words.
linked! {
    "lib-lists" READ_JOB = gatewren_read_job(*const u8, usize, *mut usize, *mut [u64; 5]) -> u32;
    "lib-lists" WRITE_JOB = gatewren_write_job(*mut u8, usize, *mut usize, *const [u64; 5]) -> u32;
}

// Request 2026-11: a list's bytes and their length, the claims' words and their number, a tolerance, and a place for the row.
linked! {
    "lib-tables" CHECK_TABLE = gatewren_check_table(*const u8, usize, *const u64, usize, u64, *mut u64) -> u32;
}

// Request 2026-05: a report's words, a list's bytes and their length; and what stands in a report, by function.
linked! {
    "lib-report" REPORT_LIST = gatewren_report_list(*mut u64, *const u8, usize) -> u32;
    "lib-report" REPORT_JOIN = gatewren_report_join(*mut u64, *const u64) -> u32;
    "lib-report" REPORT_CALLS = gatewren_report_calls(*const u64, u32) -> u64;
    "lib-report" REPORT_REFUSED = gatewren_report_refused(*const u64, u32, u32) -> u64;
    "lib-report" REPORT_ROUNDS = gatewren_report_rounds(*const u64, u32) -> u64;
    "lib-report" REPORT_MOST = gatewren_report_most(*const u64, u32) -> u32;
    "lib-report" REPORT_SUM = gatewren_report_sum(*const u64, u32) -> f64;
}
