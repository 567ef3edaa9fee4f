//! Document 02, 2026-09: the tolerance and the cap of cel's loop, in the place of the crate's.

use crate::bulirsch::BulirschConst;
use num_traits::Float;

/// The passes that cel may begin.
pub const MAX_ITERATION: i16 = 30;

/// Of the constants cel asks for `ca` alone, the tolerance.
pub struct Document02;

impl<T: Float> BulirschConst<T> for Document02 {
    const D: i32 = 16;
    const ND: usize = 14;
    fn ca() -> T {
        T::from(1.0 / 67_108_864.0).expect("2^-26 is a number of every type")
    }
    fn cb() -> T {
        unreachable!("cel does not ask for it")
    }
    fn lim_kc_p() -> T {
        unreachable!("cel does not ask for it")
    }
}
