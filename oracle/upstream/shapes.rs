/// Sealed marker for the reducing polynomial shape of an extension field.
///
/// The three concrete shapes — [`Binomial`], [`CubicTrinomial`], and
/// [`QuinticTrinomial`] — correspond to the reducers
/// `X^D - W`, `X^3 - X - 1`, and `X^5 + X^2 - 1` respectively.
pub trait ExtensionShape: 'static + sealed::Sealed {}

mod sealed {
    pub trait Sealed {}
}

/// Marker for the binomial reducer `X^D - W` (degree-generic).
#[derive(Copy, Clone, Eq, PartialEq, Hash, Debug, PartialOrd, Ord)]
pub struct Binomial<F>(PhantomData<F>);

/// Marker for the trinomial reducer `X^3 - X - 1`.
#[derive(Copy, Clone, Eq, PartialEq, Hash, Debug, PartialOrd, Ord)]
pub struct CubicTrinomial;

/// Marker for the trinomial reducer `X^5 + X^2 - 1`.
#[derive(Copy, Clone, Eq, PartialEq, Hash, Debug, PartialOrd, Ord)]
pub struct QuinticTrinomial;

impl<F: Field> sealed::Sealed for Binomial<F> {}
impl sealed::Sealed for CubicTrinomial {}
impl sealed::Sealed for QuinticTrinomial {}

impl<F: Field> ExtensionShape for Binomial<F> {}
impl ExtensionShape for CubicTrinomial {}
impl ExtensionShape for QuinticTrinomial {}
