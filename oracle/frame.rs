// The part of the crate's own lib.rs, carlson/mod.rs and bulirsch/mod.rs that the files need, for both builds. Each build has its
// own `limits`.

num_lazy::declare_nums! {@constant T}
num_lazy::declare_nums! {@special T}

/// Static error str, as in the crate's lib.rs.
pub type StrErr = &'static str;

#[allow(unused_macros)]
mod crate_util {
    include!(concat!(env!("OUT_DIR"), "/crate_util.rs"));
}

#[allow(unexpected_cfgs, clippy::all)]
pub mod carlson {
    mod elliprc {
        include!(concat!(env!("OUT_DIR"), "/elliprc.rs"));
    }
    mod elliprf {
        include!(concat!(env!("OUT_DIR"), "/elliprf.rs"));
    }
    mod elliprd {
        include!(concat!(env!("OUT_DIR"), "/elliprd.rs"));
    }
    mod elliprg {
        include!(concat!(env!("OUT_DIR"), "/elliprg.rs"));
    }
    mod elliprj {
        include!(concat!(env!("OUT_DIR"), "/elliprj.rs"));
    }
    pub use elliprc::{elliprc, elliprc_unchecked};
    pub use elliprd::{elliprd, elliprd_unchecked};
    pub use elliprf::{elliprf, elliprf_unchecked};
    pub use elliprg::elliprg;
    pub use elliprj::elliprj;
}

#[allow(unexpected_cfgs, clippy::all)]
pub mod bulirsch {
    mod cel {
        include!(concat!(env!("OUT_DIR"), "/cel.rs"));
    }
    // The text lacks these two. They never answer, so that p = 1 takes the general loop.
    mod cel1 {
        pub fn cel1_with_const<T, C>(_kc: T) -> Result<T, crate::StrErr> {
            Err("cel1: Not in the text.")
        }
    }
    mod cel2 {
        pub fn cel2_with_const<T, C>(_kc: T, _a: T, _b: T) -> Result<T, crate::StrErr> {
            Err("cel2: Not in the text.")
        }
    }
    mod constants {
        include!(concat!(env!("OUT_DIR"), "/constants.rs"));
    }
    pub(crate) use crate::limits::MAX_ITERATION;
    pub use cel::{cel, cel_with_const};
    pub use constants::BulirschConst;
}
