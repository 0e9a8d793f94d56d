//! The calls that make up the list: at the corners of each system, and at elements drawn from a fixed seed.

use crate::calls::{Call, Numbers};
use crate::extension::HasFrobenius;

/// How many elements are drawn for a system.
const DRAWN: usize = 12;

/// The generator splitmix64, so that the list is the same every time.
pub struct Draw(u64);

impl Draw {
    pub fn new(seed: u64) -> Self {
        Self(seed)
    }

    fn next(&mut self) -> u64 {
        self.0 = self.0.wrapping_add(0x9e37_79b9_7f4a_7c15);
        let mixed = (self.0 ^ (self.0 >> 30)).wrapping_mul(0xbf58_476d_1ce4_e5b9);
        let mixed = (mixed ^ (mixed >> 27)).wrapping_mul(0x94d0_49bb_1331_11eb);
        mixed ^ (mixed >> 31)
    }

    fn element<E: Numbers>(&mut self) -> E {
        let numbers: Vec<u32> = (0..E::SIZE)
            .map(|_| (self.next() % u64::from(E::LIMIT)) as u32)
            .collect();
        E::from_numbers(&numbers)
    }
}

/// Zero, one, the element of largest coefficients, and those with a single coefficient, one or largest.
fn corners<E: Numbers>() -> Vec<E> {
    let largest = E::LIMIT - 1;
    let mut corners = vec![E::ZERO, E::ONE, E::from_numbers(&vec![largest; E::SIZE])];
    for place in 0..E::SIZE {
        for number in [1, largest] {
            let mut numbers = vec![0; E::SIZE];
            numbers[place] = number;
            corners.push(E::from_numbers(&numbers));
        }
    }
    corners.dedup();
    corners
}

/// The calls on one system; those that need conjugates only where it has them.
pub fn calls<B: Numbers, E: Numbers + HasFrobenius<B>>(
    draw: &mut Draw,
    has_conjugates: bool,
) -> Vec<Call<E, B>> {
    let corners: Vec<E> = corners();
    let drawn: Vec<E> = (0..DRAWN).map(|_| draw.element()).collect();
    let elements: Vec<E> = corners.iter().chain(&drawn).copied().collect();
    let degree = E::DIMENSION as u64;
    let counts = [0, 1, degree - 1, degree, degree + 1, 1 << 32, u64::MAX];

    let mut calls = Vec::new();
    for (place, &a) in elements.iter().enumerate() {
        calls.extend([Call::Negative(a), Call::Square(a), Call::Inverse(a)]);
        calls.extend(partners(&elements, place).into_iter().flat_map(|b| {
            [
                Call::Multiply(a, b),
                Call::Sum(a, b),
                Call::Difference(a, b),
            ]
        }));
        calls.push(Call::Scale(a, draw.element()));
        calls.push(Call::Scale(a, B::ZERO));
        calls.extend(counts.map(|exponent| Call::Power(a, exponent)));
        if has_conjugates {
            calls.push(Call::ConjugateInverse(a));
            calls.extend(counts.map(|count| Call::Frobenius(a, count)));
        }
    }
    calls
}

/// The element itself and two others, so that corners meet corners and drawn elements.
fn partners<E: Numbers>(elements: &[E], place: usize) -> [E; 3] {
    let after = |steps: usize| elements[(place + steps) % elements.len()];
    [after(0), after(1), after(elements.len() / 2)]
}
