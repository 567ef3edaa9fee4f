//! Stands in for the crate `num_traits`: the traits and methods that the crate's files use, no more,
//! and their meaning on f64, which is the standard library's.

use std::ops::{Add, Div, Mul, Neg, Sub};

pub trait ToPrimitive {
    fn to_f64(&self) -> Option<f64>;
}

pub trait NumCast: Sized + ToPrimitive {
    fn from<N: ToPrimitive>(n: N) -> Option<Self>;
}

pub trait Zero {
    fn zero() -> Self;
    fn is_zero(&self) -> bool;
}

pub trait One {
    fn one() -> Self;
}

pub trait Field:
    Add<Output = Self> + Sub<Output = Self> + Mul<Output = Self> + Div<Output = Self> + Neg<Output = Self> + Sized
{
}

impl<T: Add<Output = T> + Sub<Output = T> + Mul<Output = T> + Div<Output = T> + Neg<Output = T>> Field for T {}

pub trait Float: NumCast + Zero + One + Field + Copy + PartialOrd {
    fn nan() -> Self;
    fn infinity() -> Self;
    fn epsilon() -> Self;
    fn max_value() -> Self;
    fn min_positive_value() -> Self;
    fn is_nan(self) -> bool;
    fn is_finite(self) -> bool;
    fn is_infinite(self) -> bool;
    fn abs(self) -> Self;
    fn signum(self) -> Self;
    fn max(self, other: Self) -> Self;
    fn min(self, other: Self) -> Self;
    fn sqrt(self) -> Self;
    fn mul_add(self, a: Self, b: Self) -> Self;
    fn powf(self, n: Self) -> Self;
    fn atan(self) -> Self;
    fn ln(self) -> Self;
    fn ln_1p(self) -> Self;
}

impl ToPrimitive for f32 {
    #[inline]
    fn to_f64(&self) -> Option<f64> {
        Some(*self as f64)
    }
}

impl ToPrimitive for f64 {
    #[inline]
    fn to_f64(&self) -> Option<f64> {
        Some(*self)
    }
}

impl NumCast for f64 {
    #[inline]
    fn from<N: ToPrimitive>(n: N) -> Option<f64> {
        n.to_f64()
    }
}

impl Zero for f64 {
    #[inline]
    fn zero() -> f64 {
        0.0
    }
    #[inline]
    fn is_zero(&self) -> bool {
        *self == 0.0
    }
}

impl One for f64 {
    #[inline]
    fn one() -> f64 {
        1.0
    }
}

/// Hands a method of the trait on to the method of the same name of f64.
macro_rules! forward {
    ($($name:ident($($arg:ident),*) -> $result:ty;)*) => {
        $(#[inline]
        fn $name(self $(, $arg: f64)*) -> $result {
            f64::$name(self $(, $arg)*)
        })*
    };
}

/// Hands a constant of the trait on to a constant of f64.
macro_rules! constant {
    ($($name:ident = $value:expr;)*) => {
        $(#[inline]
        fn $name() -> f64 {
            $value
        })*
    };
}

impl Float for f64 {
    constant! {
        nan = f64::NAN;
        infinity = f64::INFINITY;
        epsilon = f64::EPSILON;
        max_value = f64::MAX;
        min_positive_value = f64::MIN_POSITIVE;
    }
    forward! {
        is_nan() -> bool;
        is_finite() -> bool;
        is_infinite() -> bool;
        abs() -> f64;
        signum() -> f64;
        max(other) -> f64;
        min(other) -> f64;
        sqrt() -> f64;
        mul_add(a, b) -> f64;
        powf(n) -> f64;
        atan() -> f64;
        ln() -> f64;
        ln_1p() -> f64;
    }
}
