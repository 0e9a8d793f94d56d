/// Binomial extension field `F[X] / (X^D - W)`.
///
/// Type alias for the unified [`ExtField`] with `Shape = Binomial<F>`.
pub type BinomialExtensionField<F, const D: usize, A = F> = ExtField<F, D, Binomial<F>, A>;
