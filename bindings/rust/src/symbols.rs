//! The C interface, as include/gatewren.h has it.

use crate::table::Claim;
use crate::work_list::Job;

/// An entry: its own arguments, then the four places that it writes to unless it refuses.
macro_rules! entry {
    ($name:ident($($argument:ident: $type:ty),*)) => {
        pub fn $name($($argument: $type,)* value: &mut f64, rounds: &mut u32, road: &mut u32, rescalings: &mut u32) -> u32;
    };
}

extern "C" {
    entry!(gatewren_rc(x: f64, y: f64));
    entry!(gatewren_rf(x: f64, y: f64, z: f64));
    entry!(gatewren_rd(x: f64, y: f64, z: f64));
    entry!(gatewren_rg(x: f64, y: f64, z: f64));
    entry!(gatewren_rj_positive(x: f64, y: f64, z: f64, p: f64));
    entry!(gatewren_rj_negative(x: f64, y: f64, z: f64, p: f64));
    entry!(gatewren_cel(kc: f64, p: f64, a: f64, b: f64));
    entry!(gatewren_profile_rc(x: f64, y: f64));
    entry!(gatewren_profile_rf(x: f64, y: f64, z: f64));
    entry!(gatewren_profile_rd(x: f64, y: f64, z: f64));
    entry!(gatewren_profile_rg(x: f64, y: f64, z: f64));
    entry!(gatewren_profile_rj(x: f64, y: f64, z: f64, p: f64));
    entry!(gatewren_swing(length: u64, height: u64, gravity: u64));
    pub fn gatewren_steps(total: &mut u64, readings: *const u16, n: usize) -> u32;
    pub fn gatewren_drag(
        length: u64,
        height: u64,
        gravity: u64,
        time: u64,
        limit: u64,
        verdict: &mut u32,
        below: &mut u32,
        excess: &mut u64,
        period: &mut f64,
    ) -> u32;
    pub fn gatewren_decay(a: u64, b: u64, decrement: &mut f64) -> u32;
    pub fn gatewren_write_job(bytes: *mut u8, length: usize, place: &mut usize, job: &Job) -> u32;
    pub fn gatewren_read_job(bytes: *const u8, length: usize, place: &mut usize, job: &mut Job) -> u32;
    pub fn gatewren_report_list(report: *mut u64, list: *const u8, length: usize) -> u32;
    pub fn gatewren_report_join(report: *mut u64, other: *const u64) -> u32;
    pub fn gatewren_report_calls(report: *const u64, function: u32) -> u64;
    pub fn gatewren_report_refused(report: *const u64, function: u32, number: u32) -> u64;
    pub fn gatewren_report_rounds(report: *const u64, function: u32) -> u64;
    pub fn gatewren_report_most(report: *const u64, function: u32) -> u32;
    pub fn gatewren_report_sum(report: *const u64, function: u32) -> f64;
    pub fn gatewren_check_table(
        list: *const u8,
        length: usize,
        claims: *const Claim,
        words: usize,
        tolerance: u64,
        row: &mut u64,
    ) -> u32;
    pub fn gatewren_read_decimal(text: *const u8, length: usize, value: &mut f64, place: &mut usize) -> u32;
    pub fn gatewren_write_decimal(x: f64, text: *mut u8, length: usize) -> usize;
    pub fn gatewren_sqrt(x: f64) -> f64;
    pub fn gatewren_mul_add(a: f64, b: f64, c: f64) -> f64;
    pub fn gatewren_pow_neg_3_2(a: f64) -> f64;
    pub fn gatewren_atan(x: f64) -> f64;
    pub fn gatewren_ln(x: f64) -> f64;
    pub fn gatewren_ln_1p(x: f64) -> f64;
}
