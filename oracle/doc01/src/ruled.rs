//! The float type of this build: f64 with document 01's leaves. Sums, products, quotients, roots and fused
//! multiply-adds are IEEE 754's, as the processor and the standard library give them.

use crate::{hooks, power, rules, start};
use num_traits::{Float, NumCast, One, ToPrimitive, Zero};
use std::ops::{Add, Div, Mul, Neg, Sub};

#[derive(Clone, Copy, Debug, PartialEq, PartialOrd)]
pub struct Ruled(pub f64);

macro_rules! operator {
    ($($trait:ident $method:ident $sign:tt),*) => {
        $(impl $trait for Ruled {
            type Output = Ruled;
            fn $method(self, other: Ruled) -> Ruled {
                Ruled(self.0 $sign other.0)
            }
        })*
    };
}

operator!(Add add +, Sub sub -, Mul mul *, Div div /);

impl Neg for Ruled {
    type Output = Ruled;
    fn neg(self) -> Ruled {
        Ruled(-self.0)
    }
}

impl ToPrimitive for Ruled {
    fn to_f64(&self) -> Option<f64> {
        Some(self.0)
    }
}

impl NumCast for Ruled {
    fn from<N: ToPrimitive>(n: N) -> Option<Ruled> {
        n.to_f64().map(Ruled)
    }
}

impl Zero for Ruled {
    fn zero() -> Ruled {
        Ruled(0.0)
    }
    fn is_zero(&self) -> bool {
        self.0 == 0.0
    }
}

impl One for Ruled {
    fn one() -> Ruled {
        Ruled(1.0)
    }
}

impl Float for Ruled {
    fn nan() -> Ruled {
        Ruled(f64::NAN)
    }
    fn infinity() -> Ruled {
        Ruled(f64::INFINITY)
    }
    fn epsilon() -> Ruled {
        Ruled(f64::EPSILON)
    }
    fn max_value() -> Ruled {
        Ruled(f64::MAX)
    }
    fn min_positive_value() -> Ruled {
        Ruled(f64::MIN_POSITIVE)
    }
    fn is_nan(self) -> bool {
        self.0.is_nan()
    }
    fn is_finite(self) -> bool {
        self.0.is_finite()
    }
    fn is_infinite(self) -> bool {
        self.0.is_infinite()
    }
    fn abs(self) -> Ruled {
        Ruled(self.0.abs())
    }
    fn signum(self) -> Ruled {
        Ruled(self.0.signum())
    }
    /// A NaN is passed over if the other is a number; of equal zeros the first is taken (as in `min`).
    fn max(self, other: Ruled) -> Ruled {
        if self.0.is_nan() || self.0 < other.0 {
            other
        } else {
            self
        }
    }
    fn min(self, other: Ruled) -> Ruled {
        if self.0.is_nan() || other.0 < self.0 {
            other
        } else {
            self
        }
    }
    fn sqrt(self) -> Ruled {
        Ruled(self.0.sqrt())
    }
    fn mul_add(self, a: Ruled, b: Ruled) -> Ruled {
        Ruled(self.0.mul_add(a.0, b.0))
    }
    /// The Rust asks for two powers only.
    fn powf(self, n: Ruled) -> Ruled {
        if n.0 == -1.5 && hooks::is_theirs(hooks::Theirs::Power) {
            Ruled(self.0.powf(-1.5))
        } else if n.0 == -1.5 {
            Ruled(power::neg_three_halves(self.0))
        } else {
            assert_eq!(n.0, -0.125, "a power that document 01 does not name");
            Ruled(start::factor(self.0))
        }
    }
    fn atan(self) -> Ruled {
        hooks::series();
        Ruled(rules::atan(self.0))
    }
    fn ln(self) -> Ruled {
        hooks::series();
        Ruled(rules::ln(self.0))
    }
    fn ln_1p(self) -> Ruled {
        hooks::series();
        Ruled(rules::ln_1p(self.0))
    }
}

#[cfg(test)]
mod tests {
    use super::*;

    #[test]
    fn constants_and_limits_of_document_01() {
        assert_eq!(std::f64::consts::PI.to_bits(), 0x4009_21FB_5444_2D18);
        assert_eq!(std::f64::consts::FRAC_PI_2.to_bits(), 0x3FF9_21FB_5444_2D18);
        let limit = f64::MAX.sqrt().sqrt().sqrt();
        assert_eq!(limit.to_bits(), 0x47EF_FFFF_FFFF_FFFF);
        assert_eq!((1.0 / limit).to_bits(), 0x37F0_0000_0000_0001);
    }

    #[test]
    fn maximum_and_minimum() {
        let (nan, one, two) = (Ruled(f64::NAN), Ruled(1.0), Ruled(2.0));
        for (a, b) in [(nan, two), (two, nan), (one, two), (two, one)] {
            assert_eq!(a.max(b).0, 2.0);
        }
        for (a, b) in [(nan, one), (one, nan), (one, two), (two, one)] {
            assert_eq!(a.min(b).0, 1.0);
        }
        for (a, b) in [(0.0f64, -0.0f64), (-0.0, 0.0)] {
            assert_eq!(Ruled(a).max(Ruled(b)).0.to_bits(), a.to_bits());
            assert_eq!(Ruled(a).min(Ruled(b)).0.to_bits(), a.to_bits());
        }
        assert!(nan.max(nan).0.is_nan() && nan.min(nan).0.is_nan());
    }
}
