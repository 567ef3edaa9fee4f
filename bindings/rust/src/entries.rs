//! The entries. Every argument is answered, whatever its bits.

use crate::answer::{Answer, Places};
use crate::symbols;

/// A call of the C interface with places of its own to write to.
pub(crate) fn told(call: impl FnOnce(&mut Places) -> u32) -> Answer {
    let mut places = Places::default();
    let number = call(&mut places);
    Answer::told(number, places)
}

// Each function reads numbers and writes at most through the four references, so that a call is safe.
macro_rules! entry {
    ($(#[$text:meta])* $name:ident = $symbol:ident($($argument:ident: $type:ty),*)) => {
        $(#[$text])*
        pub fn $name($($argument: $type),*) -> Answer {
            told(|p| unsafe {
                symbols::$symbol($($argument,)* &mut p.value, &mut p.rounds, &mut p.road, &mut p.rescalings)
            })
        }
    };
}
pub(crate) use entry;

entry! {
    /// RC(x, y); for y below zero its Cauchy principal value.
    rc = gatewren_rc(x: f64, y: f64)
}
entry! {
    /// RF(x, y, z).
    rf = gatewren_rf(x: f64, y: f64, z: f64)
}
entry! {
    /// RD(x, y, z).
    rd = gatewren_rd(x: f64, y: f64, z: f64)
}
entry! {
    /// RG(x, y, z).
    rg = gatewren_rg(x: f64, y: f64, z: f64)
}
entry! {
    /// RJ(x, y, z, p) for p above zero; p below zero is refused with [`Refusal::WrongSign`](crate::Refusal::WrongSign).
    rj_positive = gatewren_rj_positive(x: f64, y: f64, z: f64, p: f64)
}
entry! {
    /// RJ(x, y, z, p) for p below zero: its Cauchy principal value. p above zero is refused.
    rj_negative = gatewren_rj_negative(x: f64, y: f64, z: f64, p: f64)
}
entry! {
    /// Bulirsch's cel(kc, p, a, b); for p below zero its Cauchy principal value.
    cel = gatewren_cel(kc: f64, p: f64, a: f64, b: f64)
}
