impl<F: Field, A: Algebra<F>, const D: usize, Shape: ExtensionShape> Default
    for ExtField<F, D, Shape, A>
{
    #[inline]
    fn default() -> Self {
        Self::new(core::array::from_fn(|_| A::ZERO))
    }
}

impl<F: Field, A: Algebra<F>, const D: usize, Shape: ExtensionShape> From<A>
    for ExtField<F, D, Shape, A>
{
    #[inline]
    fn from(x: A) -> Self {
        Self::new(crate::field_to_array(x))
    }
}

impl<F, A, const D: usize, Shape: ExtensionShape> From<[A; D]> for ExtField<F, D, Shape, A> {
    #[inline]
    fn from(x: [A; D]) -> Self {
        Self::new(x)
    }
}
