    #[must_use]
    #[inline]
    fn quadratic_extension_square(a: &[Self; 2], w: F) -> [Self; 2] {
        let a1_w = a[1].dup() * w;
        [
            Self::dot_product(a, &[a[0].dup(), a1_w]),
            a[0].dup() * a[1].double(),
        ]
    }
