//! The calls that are compared, and what the Rust answers to them.

use crate::extension::{ExtField, HasFrobenius};
use crate::residue::Residue;
use crate::ring::Field;
use std::fmt;
use std::panic::{self, AssertUnwindSafe};

/// An element as the list of its numbers, lowest power first.
pub trait Numbers: Field {
    const SIZE: usize;
    /// One more than the largest number in a list.
    const LIMIT: u32;

    fn numbers(&self) -> Vec<u32>;

    /// The element of a list of `SIZE` numbers.
    fn from_numbers(numbers: &[u32]) -> Self;
}

impl<const M: u32> Numbers for Residue<M> {
    const SIZE: usize = 1;
    const LIMIT: u32 = M;

    fn numbers(&self) -> Vec<u32> {
        vec![self.number()]
    }

    fn from_numbers(numbers: &[u32]) -> Self {
        Self::new(numbers[0])
    }
}

impl<F: Numbers, const D: usize, Shape> Numbers for ExtField<F, D, Shape>
where
    Self: Field,
{
    const SIZE: usize = D * F::SIZE;
    const LIMIT: u32 = F::LIMIT;

    fn numbers(&self) -> Vec<u32> {
        self.value.iter().flat_map(Numbers::numbers).collect()
    }

    fn from_numbers(numbers: &[u32]) -> Self {
        Self::new(core::array::from_fn(|place| {
            F::from_numbers(&numbers[place * F::SIZE..(place + 1) * F::SIZE])
        }))
    }
}

/// A call on elements `E` over the layer `B` below.
#[derive(Clone, Copy)]
pub enum Call<E, B> {
    Sum(E, E),
    Difference(E, E),
    Negative(E),
    Multiply(E, E),
    Square(E),
    Scale(E, B),
    Power(E, u64),
    Frobenius(E, u64),
    Inverse(E),
    ConjugateInverse(E),
}

/// What the Rust answers.
#[derive(Clone, Copy, Debug, Eq, PartialEq)]
pub enum Answer<E> {
    Element(E),
    NoInverse,
    Panic,
}

impl<B: Numbers, E: Numbers + HasFrobenius<B>> Call<E, B> {
    pub fn ask(&self) -> Answer<E> {
        match panic::catch_unwind(AssertUnwindSafe(|| self.compute())) {
            Ok(Some(element)) => Answer::Element(element),
            Ok(None) => Answer::NoInverse,
            Err(_) => Answer::Panic,
        }
    }

    fn compute(&self) -> Option<E> {
        match *self {
            Self::Sum(a, b) => Some(a + b),
            Self::Difference(a, b) => Some(a - b),
            Self::Negative(a) => Some(-a),
            Self::Multiply(a, b) => Some(a * b),
            Self::Square(a) => Some(a.square()),
            Self::Scale(a, factor) => Some(a * factor),
            Self::Power(a, exponent) => Some(a.exp_u64(exponent)),
            // once, by the function for it
            Self::Frobenius(a, 1) => Some(a.frobenius()),
            Self::Frobenius(a, count) => Some(a.repeated_frobenius(count as usize)),
            Self::Inverse(a) => a.try_inverse(),
            Self::ConjugateInverse(a) => Some(a.pseudo_inv()),
        }
    }
}

impl<B: Numbers, E: Numbers> fmt::Display for Call<E, B> {
    fn fmt(&self, f: &mut fmt::Formatter<'_>) -> fmt::Result {
        match self {
            Self::Sum(a, b) => write!(f, "sum {} {}", list(a), list(b)),
            Self::Difference(a, b) => write!(f, "difference {} {}", list(a), list(b)),
            Self::Negative(a) => write!(f, "negative {}", list(a)),
            Self::Multiply(a, b) => write!(f, "multiply {} {}", list(a), list(b)),
            Self::Square(a) => write!(f, "square {}", list(a)),
            Self::Scale(a, factor) => write!(f, "scale {} {}", list(a), list(factor)),
            Self::Power(a, exponent) => write!(f, "power {} {exponent}", list(a)),
            Self::Frobenius(a, count) => write!(f, "frobenius {} {count}", list(a)),
            Self::Inverse(a) => write!(f, "inverse {}", list(a)),
            Self::ConjugateInverse(a) => write!(f, "conjugate_inverse {}", list(a)),
        }
    }
}

impl<E: Numbers> fmt::Display for Answer<E> {
    fn fmt(&self, f: &mut fmt::Formatter<'_>) -> fmt::Result {
        match self {
            Self::Element(element) => f.write_str(&list(element)),
            Self::NoInverse => f.write_str("refusal 4 (no inverse)"),
            Self::Panic => f.write_str("panic"),
        }
    }
}

/// `[c0,c1,...]`
fn list<E: Numbers>(element: &E) -> String {
    let numbers: Vec<String> = element.numbers().iter().map(u32::to_string).collect();
    format!("[{}]", numbers.join(","))
}
