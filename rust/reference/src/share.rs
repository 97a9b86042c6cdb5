//! The share of excluded frames, in percent (K7). The drill prints it.

/// 100 × excluded frames / F, "to the nearest, an exact half to the even number" (K7).
///
/// # Panics
///
/// Where F is 0. An accepted start has F 1 at least.
pub fn share(excluded: u32, f: u32) -> u32 {
    // A half more, rounded down, is the nearest. An exact half becomes the whole number above it, and goes one back from an odd one.
    let (with_half, one) = (200 * excluded + f, 2 * f);
    let nearest = with_half / one;
    if with_half.is_multiple_of(one) {
        nearest & !1
    } else {
        nearest
    }
}
