/// Extend a ring `R` element `x` to an array of length `D`
/// by filling zeros.
#[inline]
#[must_use]
pub const fn field_to_array<R: PrimeCharacteristicRing, const D: usize>(x: R) -> [R; D] {
    let mut arr = [const { MaybeUninit::uninit() }; D];
    arr[0] = MaybeUninit::new(x);
    let mut i = 1;
    while i < D {
        arr[i] = MaybeUninit::new(R::ZERO);
        i += 1;
    }
    // SAFETY: every element of `arr` has been initialized above, so reinterpreting
    // `[MaybeUninit<R>; D]` as `[R; D]` is sound.
    unsafe { core::mem::transmute_copy::<_, [R; D]>(&arr) }
}
