//! Figures worked out by hand, and the places where the Rust panics.

use oracle::calls::{Answer, Call, Numbers};
use oracle::extension::HasFrobenius;
use oracle::ring::ExtensionField;
use oracle::systems::*;

fn inverse<B: Numbers, E: Numbers + HasFrobenius<B>>(numbers: &[u32]) -> Answer<E> {
    Call::<E, B>::Inverse(E::from_numbers(numbers)).ask()
}

fn conjugate_inverse<B: Numbers, E: Numbers + HasFrobenius<B>>(numbers: &[u32]) -> Answer<E> {
    Call::<E, B>::ConjugateInverse(E::from_numbers(numbers)).ask()
}

fn element<E: Numbers>(numbers: &[u32]) -> Answer<E> {
    Answer::Element(E::from_numbers(numbers))
}

#[test]
fn products() {
    let product = System1::from_numbers(&[1, 1, 0, 0]) * System1::from_numbers(&[1, 0, 0, 1]);
    assert_eq!(product.numbers(), [4, 1, 0, 1]);
    let product =
        System5::from_numbers(&[0, 0, 1, 0, 0, 0]) * System5::from_numbers(&[0, 0, 0, 0, 1, 0]);
    assert_eq!(product.numbers(), [0, 5, 0, 0, 0, 0]);
    let square = Call::<System3, KoalaBear>::Square(System3::from_numbers(&[0, 0, 0, 0, 1])).ask();
    assert_eq!(square, element(&[2_130_706_432, 0, 1, 1, 0]));
}

#[test]
fn inverses() {
    assert_eq!(
        inverse::<KoalaBear, System1>(&[0, 1, 0, 0]),
        element(&[0, 0, 0, 710_235_478])
    );
    let (even, odd) = (1_065_353_216, 1_065_353_217);
    assert_eq!(
        inverse::<KoalaBear, System2>(&[1, 1, 0, 0, 0, 0, 0, 0]),
        element(&[even, odd, even, odd, even, odd, even, odd])
    );
    assert_eq!(
        inverse::<Bit, System7>(&[0, 1, 0, 0, 0]),
        element(&[0, 1, 0, 0, 1])
    );
    assert_eq!(
        inverse::<Eleven, System8>(&[1, 1, 0, 0, 0]),
        element(&[4, 7, 4, 7, 4])
    );
    assert_eq!(inverse::<Eleven, System9>(&[2, 1]), element(&[8, 7]));
    assert_eq!(inverse::<Eleven, System9>(&[0, 0]), Answer::NoInverse);
}

// The conjugate inverse of zero is said to be zero: the trinomial's is, the binomial ones panic.
#[test]
fn conjugate_inverse_of_zero() {
    assert_eq!(
        conjugate_inverse::<KoalaBear, System3>(&[0; 5]),
        element(&[0; 5])
    );
    assert_eq!(
        conjugate_inverse::<KoalaBear, System1>(&[0; 4]),
        Answer::Panic
    );
    assert_eq!(conjugate_inverse::<Eleven, System8>(&[0; 5]), Answer::Panic);
}

// A nonzero element without inverse makes the Rust panic, since it inverts the norm, which is zero.
#[test]
fn inverse_of_a_zero_divisor() {
    assert_eq!(inverse::<Eleven, System9>(&[1, 1]), Answer::Panic);
}

#[test]
fn division_by_zero() {
    let divided = std::panic::catch_unwind(|| {
        System8::from_numbers(&[1, 0, 0, 0, 0]) / System8::from_numbers(&[0; 5])
    });
    assert!(divided.is_err());
}

#[test]
fn elements_of_the_layer_below() {
    let five = System8::from_numbers(&[5, 0, 0, 0, 0]);
    assert!(five.is_in_basefield());
    assert_eq!(five.as_base(), Some(Eleven::new(5)));
    let x = System8::from_numbers(&[0, 1, 0, 0, 0]);
    assert_eq!(x.as_base(), None);
    assert_eq!(x.frobenius().numbers(), [0, 4, 0, 0, 0]);
}
