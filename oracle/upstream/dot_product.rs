    #[must_use]
    #[inline]
    fn dot_product<const N: usize>(u: &[Self; N], v: &[Self; N]) -> Self {
        // Materialise the `N` products first, so none of the multiplies waits on a sum.
        let products: [Self; N] = array::from_fn(|i| u[i].dup() * v[i].dup());

        // Balanced tree of depth log2(N) instead of a linear chain of N - 1 adds.
        Self::sum_array::<N>(&products)
    }
