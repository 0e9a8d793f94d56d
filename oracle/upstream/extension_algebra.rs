/// Algebra over `F` that supports degree-`D` extension arithmetic with a given reducer `Shape`.
pub trait ExtensionAlgebra<F: Field, const D: usize, Shape: ExtensionShape>: Algebra<F> {
    /// Multiplication in the algebra extension ring.
    fn ext_mul(a: &[Self; D], b: &[Self; D], res: &mut [Self; D]);

    /// Squaring in the algebra extension ring.
    ///
    /// Override when a dedicated symmetry-exploiting kernel beats a general multiply.
    #[inline]
    fn ext_square(a: &[Self; D], res: &mut [Self; D]) {
        Self::ext_mul(a, a, res);
    }

    /// Coefficient-wise addition.
    #[inline]
    #[must_use]
    fn ext_add(a: &[Self; D], b: &[Self; D]) -> [Self; D] {
        vector_add(a, b)
    }

    /// Coefficient-wise subtraction.
    #[inline]
    #[must_use]
    fn ext_sub(a: &[Self; D], b: &[Self; D]) -> [Self; D] {
        vector_sub(a, b)
    }

    /// Multiply an extension element by a base-field scalar.
    #[inline]
    #[must_use]
    fn ext_base_mul(lhs: [Self; D], rhs: Self) -> [Self; D] {
        lhs.map(|x| x * rhs.dup())
    }
}
