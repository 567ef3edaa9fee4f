//! The bench profile: entries beside the others whose arguments may stand in any order and in any unit by powers of four. Every
//! argument must be zero or of size from 2^-64 to 2^64, or it is refused with
//! [`Refusal::OutsideProfile`](crate::Refusal::OutsideProfile); -0 is taken for +0.
//!
//! ```
//! use gatewren::{profile, Answer, Refusal};
//!
//! assert_eq!(profile::rf(1.0, 0.5, 0.25), profile::rf(0.25, 1.0, 0.5));
//! assert_eq!(profile::rf(1e300, 1.0, 1.0), Answer::Refused(Refusal::OutsideProfile));
//! ```

use crate::answer::Answer;
use crate::entries::{entry, told};
use crate::symbols;

entry! {
    /// RC(x, y).
    rc = gatewren_profile_rc(x: f64, y: f64)
}
entry! {
    /// RF(x, y, z), the same in any order.
    rf = gatewren_profile_rf(x: f64, y: f64, z: f64)
}
entry! {
    /// RD(x, y, z), the same with x and y exchanged.
    rd = gatewren_profile_rd(x: f64, y: f64, z: f64)
}
entry! {
    /// RG(x, y, z), the same in any order.
    rg = gatewren_profile_rg(x: f64, y: f64, z: f64)
}
entry! {
    /// RJ(x, y, z, p) for p above zero, the same in any order of x, y and z; p below zero is refused with
    /// [`Refusal::WrongSign`](crate::Refusal::WrongSign) where all are in size.
    rj = gatewren_profile_rj(x: f64, y: f64, z: f64, p: f64)
}
