/// Multiply two elements in the quintic trinomial extension field (X^5 + X^2 - 1).
#[inline]
pub fn trinomial_quintic_mul<R: PrimeCharacteristicRing>(a: &[R; 5], b: &[R; 5], res: &mut [R; 5]) {
    // Compute convolution coefficients c_k = Σ_{i+j=k} a_i * b_j using dot products
    let c0 = a[0].dup() * b[0].dup();
    let c1 = R::dot_product::<2>(&[a[0].dup(), a[1].dup()], &[b[1].dup(), b[0].dup()]);
    let c2 = R::dot_product::<3>(
        &[a[0].dup(), a[1].dup(), a[2].dup()],
        &[b[2].dup(), b[1].dup(), b[0].dup()],
    );
    let c3 = R::dot_product::<4>(
        &[a[0].dup(), a[1].dup(), a[2].dup(), a[3].dup()],
        &[b[3].dup(), b[2].dup(), b[1].dup(), b[0].dup()],
    );
    let c4 = R::dot_product::<5>(
        a,
        &[b[4].dup(), b[3].dup(), b[2].dup(), b[1].dup(), b[0].dup()],
    );

    // High-degree coefficients
    let c5 = R::dot_product::<4>(
        &[a[1].dup(), a[2].dup(), a[3].dup(), a[4].dup()],
        &[b[4].dup(), b[3].dup(), b[2].dup(), b[1].dup()],
    );
    let c6 = R::dot_product::<3>(
        &[a[2].dup(), a[3].dup(), a[4].dup()],
        &[b[4].dup(), b[3].dup(), b[2].dup()],
    );
    let c7 = R::dot_product::<2>(&[a[3].dup(), a[4].dup()], &[b[4].dup(), b[3].dup()]);
    let c8 = a[4].dup() * b[4].dup();

    // Pre-compute c5 - c8 to save an operation
    let c5_minus_c8 = c5 - c8.dup();

    // Apply reduction: X^5 = 1 - X^2, X^6 = X - X^3, X^7 = X^2 - X^4, X^8 = X^3 + X^2 - 1
    res[0] = c0 + c5_minus_c8.dup();
    res[1] = c1 + c6.dup();
    res[2] = c2 - c5_minus_c8 + c7.dup();
    res[3] = c3 - c6 + c8;
    res[4] = c4 - c7;
}

/// Square an element in the quintic extension field.
#[inline]
pub fn quintic_square<R: PrimeCharacteristicRing>(a: &[R; 5], res: &mut [R; 5]) {
    // Precompute doubled coefficients for cross terms
    let a0_2 = a[0].double();
    let a1_2 = a[1].double();
    let a2_2 = a[2].double();
    let a3_2 = a[3].double();

    // Compute convolution coefficients using dot products
    // c0 = a0^2
    let c0 = a[0].square();
    // c1 = 2*a0*a1
    let c1 = a0_2.dup() * a[1].dup();
    // c2 = 2*a0*a2 + a1^2
    let c2 = R::dot_product::<2>(&[a0_2.dup(), a[1].dup()], &[a[2].dup(), a[1].dup()]);
    // c3 = 2*a0*a3 + 2*a1*a2
    let c3 = R::dot_product::<2>(&[a0_2.dup(), a1_2.dup()], &[a[3].dup(), a[2].dup()]);
    // c4 = 2*a0*a4 + 2*a1*a3 + a2^2
    let c4 = R::dot_product::<3>(
        &[a0_2, a1_2.dup(), a[2].dup()],
        &[a[4].dup(), a[3].dup(), a[2].dup()],
    );
    // c5 = 2*a1*a4 + 2*a2*a3
    let c5 = R::dot_product::<2>(&[a1_2, a2_2.dup()], &[a[4].dup(), a[3].dup()]);
    // c6 = 2*a2*a4 + a3^2
    let c6 = R::dot_product::<2>(&[a2_2, a[3].dup()], &[a[4].dup(), a[3].dup()]);
    // c7 = 2*a3*a4
    let c7 = a3_2 * a[4].dup();
    // c8 = a4^2
    let c8 = a[4].square();

    // Pre-compute c5 - c8 to save an operation
    let c5_minus_c8 = c5 - c8.dup();

    // Apply reduction: X^5 = 1 - X^2, X^6 = X - X^3, X^7 = X^2 - X^4, X^8 = X^3 + X^2 - 1
    res[0] = c0 + c5_minus_c8.dup();
    res[1] = c1 + c6.dup();
    res[2] = c2 - c5_minus_c8 + c7.dup();
    res[3] = c3 - c6 + c8;
    res[4] = c4 - c7;
}
