//! The crate's five Carlson files, `cel.rs`, `constants.rs`, `crate_util.rs` and `polyeval.rs` as they are, generic; used on plain
//! f64. RJ of this build does not end for every argument (document 01's no. 10), so ask `doc01` first.

include!("../../frame.rs");

/// The crate's own.
#[allow(unexpected_cfgs, dead_code)]
mod limits {
    include!(concat!(env!("OUT_DIR"), "/limits.rs"));
}

mod polyeval {
    include!(concat!(env!("OUT_DIR"), "/polyeval.rs"));
}
use polyeval::polyeval;
