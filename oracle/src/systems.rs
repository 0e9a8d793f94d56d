//! The nine systems: their constants, and their types.

use crate::binomial::{BinomialExtensionField, binomial_mul, binomial_square};
use crate::extension::{
    Binomial, BinomiallyExtendable, ExtensionAlgebra, QuinticTrinomial, QuinticTrinomialExtendable,
};
use crate::residue::Residue;
use crate::ring::PrimeCharacteristicRing;
use crate::trinomial::{QuinticTrinomialExtensionField, quintic_square, trinomial_quintic_mul};

pub type KoalaBear = Residue<2_130_706_433>;
pub type Mersenne31 = Residue<2_147_483_647>;
pub type BabyBear = Residue<2_013_265_921>;
pub type Eleven = Residue<11>;
pub type Bit = Residue<2>;
pub type Complex = BinomialExtensionField<Mersenne31, 2>;

pub type System1 = BinomialExtensionField<KoalaBear, 4>;
pub type System2 = BinomialExtensionField<KoalaBear, 8>;
pub type System3 = QuinticTrinomialExtensionField<KoalaBear>;
pub type System4 = Complex;
pub type System5 = BinomialExtensionField<Complex, 3>;
pub type System6 = BinomialExtensionField<BabyBear, 5>;
pub type System7 = QuinticTrinomialExtensionField<Bit>;
pub type System8 = BinomialExtensionField<Eleven, 5>;
pub type System9 = BinomialExtensionField<Eleven, 2>;

// A binomial extension of a base: its degree, the constant w and the root w^((q − 1)/D).
macro_rules! binomial {
    ($base:ty, $degree:literal, $w:expr, $root:expr) => {
        impl ExtensionAlgebra<Self, $degree, Binomial<Self>> for $base {
            fn ext_mul(a: &[Self; $degree], b: &[Self; $degree], res: &mut [Self; $degree]) {
                binomial_mul(a, b, res, <Self as BinomiallyExtendable<$degree>>::W);
            }

            fn ext_square(a: &[Self; $degree], res: &mut [Self; $degree]) {
                binomial_square(a, res, <Self as BinomiallyExtendable<$degree>>::W);
            }
        }

        impl BinomiallyExtendable<$degree> for $base {
            fn binomial_algebra_id() -> Vec<u8> {
                Vec::new()
            }

            const W: Self = $w;
            const DTH_ROOT: Self = $root;
            // not used
            const EXT_GENERATOR: [Self; $degree] =
                [<Self as PrimeCharacteristicRing>::ZERO; $degree];
        }
    };
}

binomial!(KoalaBear, 4, Residue::new(3), Residue::new(2_113_994_754));
binomial!(KoalaBear, 8, Residue::new(3), Residue::new(1_748_172_362));
binomial!(
    Mersenne31,
    2,
    Residue::new(2_147_483_646),
    Residue::new(2_147_483_646)
);
binomial!(
    Complex,
    3,
    Complex::new([Residue::new(0), Residue::new(5)]),
    Complex::new([Residue::new(634_005_911), Residue::new(0)])
);
binomial!(BabyBear, 5, Residue::new(31), Residue::new(645_581_151));
binomial!(Eleven, 5, Residue::new(2), Residue::new(4));
// There is no such root: Frobenius is not asked for here.
binomial!(Eleven, 2, Residue::new(1), Residue::new(1));

// A trinomial extension of a base: row k of the table is X^(kq) reduced.
macro_rules! trinomial {
    ($base:ty, $rows:expr) => {
        impl ExtensionAlgebra<Self, 5, QuinticTrinomial> for $base {
            fn ext_mul(a: &[Self; 5], b: &[Self; 5], res: &mut [Self; 5]) {
                trinomial_quintic_mul(a, b, res);
            }

            fn ext_square(a: &[Self; 5], res: &mut [Self; 5]) {
                quintic_square(a, res);
            }
        }

        impl QuinticTrinomialExtendable for $base {
            const FROBENIUS_COEFFS: [[Self; 5]; 4] = rows($rows);
            // not used
            const EXT_GENERATOR: [Self; 5] = [Self::ZERO; 5];
        }
    };
}

const fn rows<const M: u32>(numbers: [[u32; 5]; 4]) -> [[Residue<M>; 5]; 4] {
    let mut rows = [[Residue::new(0); 5]; 4];
    let mut place = 0;
    while place < 20 {
        rows[place / 5][place % 5] = Residue::new(numbers[place / 5][place % 5]);
        place += 1;
    }
    rows
}

trinomial!(
    KoalaBear,
    [
        [1576402667, 1173144480, 1567662457, 1206866823, 2428146],
        [1680345488, 1381986, 615237464, 1380104858, 295431824],
        [441230756, 323126830, 704986542, 1445620072, 503505220],
        [1364444097, 1144738982, 2008416047, 143367062, 1027410849],
    ]
);
// X^2, X^4, X^6 = X + X^3, X^8 = 1 + X^2 + X^3
trinomial!(
    Bit,
    [
        [0, 0, 1, 0, 0],
        [0, 0, 0, 0, 1],
        [0, 1, 0, 1, 0],
        [1, 0, 1, 1, 0],
    ]
);
