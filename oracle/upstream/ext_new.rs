impl<F, const D: usize, Shape, A> ExtField<F, D, Shape, A> {
    /// Create an extension field element from an array of base/algebra elements.
    ///
    /// Any array is accepted. No reduction is required since each entry is
    /// already a valid element of the algebra over `F`.
    ///
    /// # Panics
    /// Panics (at compile time) if `D <= 1`. A degree-0 or degree-1 "extension"
    /// is degenerate — use `F` directly instead.
    #[inline]
    pub const fn new(value: [A; D]) -> Self {
        const { assert!(D > 1) }
        Self {
            value,
            _phantom: PhantomData,
        }
    }
}
