// The extension by X^5 = 1 - X^2.

use crate::extension::{
    ExtField, ExtensionAlgebra, HasFrobenius, QuinticTrinomial, QuinticTrinomialExtendable,
};
use crate::ring::{Algebra, ExtensionField, Field, PrimeCharacteristicRing, field_to_array};
use core::iter::{Product, Sum};
use core::ops::{Add, AddAssign, Div, DivAssign, Mul, MulAssign, Neg, Sub, SubAssign};

upstream!("trinomial_alias.rs");

impl<F: QuinticTrinomialExtendable> ExtensionField<F> for QuinticTrinomialExtensionField<F> {
    const DIMENSION: usize = 5;

upstream!("trinomial_basefield.rs");
}

upstream!("trinomial_frobenius.rs");

impl<F, A> PrimeCharacteristicRing for QuinticTrinomialExtensionField<F, A>
where
    F: QuinticTrinomialExtendable,
    A: ExtensionAlgebra<F, 5, QuinticTrinomial> + Copy,
{
    const ZERO: Self = Self::new([A::ZERO; 5]);
    const ONE: Self = Self::new(field_to_array(A::ONE));
    const TWO: Self = Self::new(field_to_array(A::TWO));

upstream!("trinomial_square.rs");
}

upstream!("trinomial_algebra.rs");

impl<F: QuinticTrinomialExtendable> Field for QuinticTrinomialExtensionField<F> {
upstream!("trinomial_try_inverse.rs");
}

upstream!("trinomial_operators.rs");

upstream!("trinomial_functions.rs");
