// Extensions by X^D = W.

use crate::extension::{
    Binomial, BinomiallyExtendable, ExtField, ExtensionAlgebra, HasFrobenius,
};
use crate::ring::{Algebra, Dup, ExtensionField, Field, PrimeCharacteristicRing, field_to_array};
use core::array;
use core::iter::{Product, Sum};
use core::ops::{Add, AddAssign, Div, DivAssign, Mul, MulAssign, Neg, Sub, SubAssign};

upstream!("binomial_alias.rs");

impl<F: BinomiallyExtendable<D>, const D: usize> ExtensionField<F>
    for BinomialExtensionField<F, D>
{
    const DIMENSION: usize = D;

upstream!("binomial_basefield.rs");
}

upstream!("binomial_frobenius.rs");

impl<F, A, const D: usize> PrimeCharacteristicRing for BinomialExtensionField<F, D, A>
where
    F: BinomiallyExtendable<D>,
    A: ExtensionAlgebra<F, D, Binomial<F>> + Copy,
{
    const ZERO: Self = Self::new([A::ZERO; D]);
    const ONE: Self = Self::new(field_to_array(A::ONE));
    const TWO: Self = Self::new(field_to_array(A::TWO));

upstream!("binomial_square.rs");
}

upstream!("binomial_algebra.rs");

impl<F: BinomiallyExtendable<D>, const D: usize> Field for BinomialExtensionField<F, D> {
upstream!("binomial_try_inverse.rs");
}

upstream!("binomial_operators.rs");

upstream!("binomial_functions.rs");
