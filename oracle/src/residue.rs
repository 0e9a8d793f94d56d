//! Residues modulo a prime, in the plainest way.

use crate::ring::{Field, PrimeCharacteristicRing};
use core::iter::{Product, Sum};
use core::ops::{Add, AddAssign, Div, DivAssign, Mul, MulAssign, Neg, Sub, SubAssign};

/// A residue modulo the prime `M`, kept below `M`.
#[derive(Clone, Copy, Debug, Default, Eq, PartialEq)]
pub struct Residue<const M: u32>(u32);

impl<const M: u32> Residue<M> {
    pub const fn new(number: u32) -> Self {
        Self(number % M)
    }

    pub const fn number(self) -> u32 {
        self.0
    }
}

impl<const M: u32> Add for Residue<M> {
    type Output = Self;

    fn add(self, other: Self) -> Self {
        Self(((u64::from(self.0) + u64::from(other.0)) % u64::from(M)) as u32)
    }
}

impl<const M: u32> Neg for Residue<M> {
    type Output = Self;

    fn neg(self) -> Self {
        Self((M - self.0) % M)
    }
}

impl<const M: u32> Sub for Residue<M> {
    type Output = Self;

    fn sub(self, other: Self) -> Self {
        self + -other
    }
}

impl<const M: u32> Mul for Residue<M> {
    type Output = Self;

    fn mul(self, other: Self) -> Self {
        Self((u64::from(self.0) * u64::from(other.0) % u64::from(M)) as u32)
    }
}

impl<const M: u32> Div for Residue<M> {
    type Output = Self;

    #[allow(clippy::suspicious_arithmetic_impl)]
    fn div(self, other: Self) -> Self {
        self * other.inverse()
    }
}

impl<const M: u32> AddAssign for Residue<M> {
    fn add_assign(&mut self, other: Self) {
        *self = *self + other;
    }
}

impl<const M: u32> SubAssign for Residue<M> {
    fn sub_assign(&mut self, other: Self) {
        *self = *self - other;
    }
}

impl<const M: u32> MulAssign for Residue<M> {
    fn mul_assign(&mut self, other: Self) {
        *self = *self * other;
    }
}

impl<const M: u32> DivAssign for Residue<M> {
    fn div_assign(&mut self, other: Self) {
        *self = *self / other;
    }
}

impl<const M: u32> Sum for Residue<M> {
    fn sum<I: Iterator<Item = Self>>(iter: I) -> Self {
        iter.fold(Self::ZERO, Add::add)
    }
}

impl<const M: u32> Product for Residue<M> {
    fn product<I: Iterator<Item = Self>>(iter: I) -> Self {
        iter.fold(Self::ONE, Mul::mul)
    }
}

impl<const M: u32> PrimeCharacteristicRing for Residue<M> {
    const ZERO: Self = Self::new(0);
    const ONE: Self = Self::new(1);
    const TWO: Self = Self::new(2);
}

impl<const M: u32> Field for Residue<M> {
    /// By the small theorem of Fermat, M being prime.
    fn try_inverse(&self) -> Option<Self> {
        (!self.is_zero()).then(|| self.exp_u64(u64::from(M) - 2))
    }
}
