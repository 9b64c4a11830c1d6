//! The numbers that the modules work on, by Rust's own methods.

use std::fmt::Debug;
use std::ops::{Add, AddAssign, Div, DivAssign, Mul, MulAssign, Neg, Sub, SubAssign};

pub trait FloatT:
    'static
    + Copy
    + Debug
    + PartialOrd
    + Neg<Output = Self>
    + Add<Output = Self>
    + Sub<Output = Self>
    + Mul<Output = Self>
    + Div<Output = Self>
    + AddAssign
    + SubAssign
    + MulAssign
    + DivAssign
{
    fn of(x: f64) -> Self;
    fn zero() -> Self;
    fn one() -> Self;
    fn epsilon() -> Self;
    fn FRAC_1_SQRT_2() -> Self;
    fn abs(self) -> Self;
    fn sqrt(self) -> Self;
    fn recip(self) -> Self;
    fn signum(self) -> Self;
    fn sin(self) -> Self;
    fn cos(self) -> Self;
    fn atan2(self, other: Self) -> Self;
    fn is_zero(&self) -> bool;
    fn is_finite(self) -> bool;
    fn is_sign_negative(self) -> bool;
}

macro_rules! float {
    ($t:ident) => {
        impl FloatT for $t {
            fn of(x: f64) -> Self {
                x as $t
            }
            fn zero() -> Self {
                0.0
            }
            fn one() -> Self {
                1.0
            }
            fn epsilon() -> Self {
                $t::EPSILON
            }
            fn FRAC_1_SQRT_2() -> Self {
                std::$t::consts::FRAC_1_SQRT_2
            }
            fn abs(self) -> Self {
                $t::abs(self)
            }
            fn sqrt(self) -> Self {
                $t::sqrt(self)
            }
            fn recip(self) -> Self {
                $t::recip(self)
            }
            fn signum(self) -> Self {
                $t::signum(self)
            }
            fn sin(self) -> Self {
                $t::sin(self)
            }
            fn cos(self) -> Self {
                $t::cos(self)
            }
            fn atan2(self, other: Self) -> Self {
                $t::atan2(self, other)
            }
            fn is_zero(&self) -> bool {
                *self == 0.0
            }
            fn is_finite(self) -> bool {
                $t::is_finite(self)
            }
            fn is_sign_negative(self) -> bool {
                $t::is_sign_negative(self)
            }
        }
    };
}

float!(f32);
float!(f64);

/// A constant at the width in use.
pub trait AsFloatT<T> {
    fn as_T(&self) -> T;
}

impl<T: FloatT> AsFloatT<T> for f64 {
    fn as_T(&self) -> T {
        T::of(*self)
    }
}
