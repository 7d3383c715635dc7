//! Stands in for the crate `strict-num`: floats of a limited range.

use std::cell::Cell;
use std::ops::Mul;

thread_local! {
    static EVERY_SIZE: Cell<bool> = const { Cell::new(false) };
}

/// Whether `NonZeroPositiveF32` takes every float. A style is asked for texts of any size, while usvg makes none for a
/// text whose size is not finite or not above zero.
pub fn take_every_size(yes: bool) {
    EVERY_SIZE.set(yes);
}

/// A float that is finite and above zero.
#[derive(Clone, Copy, PartialEq, Debug)]
pub struct NonZeroPositiveF32(f32);

impl NonZeroPositiveF32 {
    pub fn new(number: f32) -> Option<Self> {
        let taken = EVERY_SIZE.get() || (number.is_finite() && number > 0.0);
        taken.then_some(Self(number))
    }

    pub fn get(&self) -> f32 {
        self.0
    }
}

/// A float that is finite and not below zero.
#[derive(Clone, Copy, PartialEq, Debug)]
pub struct PositiveF32(f32);

/// A float from 0 to 1.
#[derive(Clone, Copy, PartialEq, Debug)]
pub struct NormalizedF32(f32);

impl NormalizedF32 {
    pub const ONE: Self = Self(1.0);

    pub fn new(number: f32) -> Option<Self> {
        (0.0..=1.0).contains(&number).then_some(Self(number))
    }

    pub fn new_clamped(number: f32) -> Self {
        Self(number.clamp(0.0, 1.0))
    }

    pub fn new_u8(number: u8) -> Self {
        Self(number as f32 / 255.0)
    }

    pub fn get(&self) -> f32 {
        self.0
    }
}

impl Mul for NormalizedF32 {
    type Output = Self;

    fn mul(self, other: Self) -> Self {
        Self::new_clamped(self.0 * other.0)
    }
}

/// A comparison that is asked only where lines and groups are drawn, which no card is.
pub trait ApproxEqUlps {
    fn approx_eq_ulps(&self, other: &Self, ulps: i32) -> bool;
    fn approx_ne_ulps(&self, other: &Self, ulps: i32) -> bool;
}

impl ApproxEqUlps for f32 {
    fn approx_eq_ulps(&self, _: &f32, _: i32) -> bool {
        unreachable!("nothing is drawn")
    }

    fn approx_ne_ulps(&self, _: &f32, _: i32) -> bool {
        unreachable!("nothing is drawn")
    }
}
