// The traits of rings and fields, cut down to what the extensions use.

use core::array;
use core::fmt::Debug;
use core::iter::{Product, Sum};
use core::mem::MaybeUninit;
use core::ops::{Add, AddAssign, Div, DivAssign, Mul, MulAssign, Neg, Sub, SubAssign};

upstream!("dup.rs");

// The number of binary digits of a number; upstream keeps it in a file of its own.
pub const fn bits_u64(n: u64) -> usize {
    (64 - n.leading_zeros()) as usize
}

pub trait PrimeCharacteristicRing:
    Sized
    + Default
    + Dup
    + Add<Output = Self>
    + AddAssign
    + Sub<Output = Self>
    + SubAssign
    + Neg<Output = Self>
    + Mul<Output = Self>
    + MulAssign
    + Sum
    + Product
    + Debug
{
    const ZERO: Self;
    const ONE: Self;
    const TWO: Self;

upstream!("double.rs");
upstream!("square.rs");
upstream!("exp_u64.rs");
upstream!("powers.rs");
upstream!("dot_product.rs");
upstream!("sum_array.rs");
}

pub trait Algebra<F>:
    PrimeCharacteristicRing
    + From<F>
    + Add<F, Output = Self>
    + AddAssign<F>
    + Sub<F, Output = Self>
    + SubAssign<F>
    + Mul<F, Output = Self>
    + MulAssign<F>
{
upstream!("quadratic_square.rs");
}

// Every ring is an algebra over itself.
impl<R: PrimeCharacteristicRing> Algebra<R> for R {}

pub trait Field:
    Algebra<Self> + 'static + Copy + Div<Self, Output = Self> + DivAssign + Eq
{
upstream!("is_zero.rs");

upstream!("inverse.rs");
}

pub trait ExtensionField<Base: Field>: Field + Algebra<Base> {
    const DIMENSION: usize;

    fn is_in_basefield(&self) -> bool;

    fn as_base(&self) -> Option<Base>;
}

upstream!("powers_struct.rs");

upstream!("field_to_array.rs");
