//! The filters of luma by hand, with the processor's own operations up to SSE4.1: a second yardstick
//! beside plain Rust. Nothing of it is shipped.
#![allow(unsafe_op_in_unsafe_fn)]

use core::arch::x86_64::*;

#[inline(always)]
unsafe fn load<T>(from: *const T) -> __m128i {
    _mm_loadu_si128(from as *const __m128i)
}

#[inline(always)]
unsafe fn store<T>(to: *mut T, lanes: __m128i) {
    _mm_storeu_si128(to as *mut __m128i, lanes)
}

// Each pair of taps eight times, as bytes.
#[inline(always)]
unsafe fn pairs(taps: &[i16; 8]) -> [__m128i; 4] {
    std::array::from_fn(|p| {
        let (low, high) = (taps[2 * p] as u8, taps[2 * p + 1] as u8);
        _mm_set1_epi16(i16::from_le_bytes([low, high]))
    })
}

// Each pair of taps four times, in 16 bits.
#[inline(always)]
unsafe fn wide_pairs(taps: &[i16; 8]) -> [__m128i; 4] {
    std::array::from_fn(|p| {
        let (low, high) = (taps[2 * p] as u16, taps[2 * p + 1] as u16);
        _mm_set1_epi32((u32::from(high) << 16 | u32::from(low)) as i32)
    })
}

// The sums at every second sample of a row.
#[inline(always)]
unsafe fn sums(from: *const u8, taps: &[__m128i; 4]) -> __m128i {
    let first = _mm_maddubs_epi16(load(from), taps[0]);
    let second = _mm_maddubs_epi16(load(from.add(2)), taps[1]);
    let third = _mm_maddubs_epi16(load(from.add(4)), taps[2]);
    let last = _mm_maddubs_epi16(load(from.add(6)), taps[3]);
    _mm_add_epi16(_mm_add_epi16(first, second), _mm_add_epi16(third, last))
}

#[inline(always)]
unsafe fn rounded(sums: __m128i) -> __m128i {
    _mm_srai_epi16(_mm_add_epi16(sums, _mm_set1_epi16(32)), 6)
}

#[inline(never)]
pub fn rows<const N: usize>(taps: &[i16; 8], reference: &[u8], stride: usize, out: &mut [u8]) {
    assert!((N - 1) * stride + N + 7 <= reference.len() && N * N <= out.len());
    unsafe {
        let taps = pairs(taps);
        for y in 0..N {
            for x in (0..N).step_by(16) {
                let from = reference.as_ptr().add(y * stride + x);
                let even = rounded(sums(from, &taps));
                let odd = rounded(sums(from.add(1), &taps));
                let low = _mm_unpacklo_epi16(even, odd);
                let high = _mm_unpackhi_epi16(even, odd);
                store(out.as_mut_ptr().add(N * y + x), _mm_packus_epi16(low, high));
            }
        }
    }
}

#[inline(never)]
pub fn columns<const N: usize>(taps: &[i16; 8], reference: &[u8], stride: usize, out: &mut [u8]) {
    assert!((N + 6) * stride + N <= reference.len() && N * N <= out.len());
    unsafe {
        let taps = pairs(taps);
        for y in 0..N {
            for x in (0..N).step_by(16) {
                let from = reference.as_ptr().add(y * stride + x);
                let (mut low, mut high) = (_mm_setzero_si128(), _mm_setzero_si128());
                for p in 0..4 {
                    let first = load(from.add(2 * p * stride));
                    let second = load(from.add((2 * p + 1) * stride));
                    let (a, b) = (
                        _mm_unpacklo_epi8(first, second),
                        _mm_unpackhi_epi8(first, second),
                    );
                    low = _mm_add_epi16(low, _mm_maddubs_epi16(a, taps[p]));
                    high = _mm_add_epi16(high, _mm_maddubs_epi16(b, taps[p]));
                }
                let samples = _mm_packus_epi16(rounded(low), rounded(high));
                store(out.as_mut_ptr().add(N * y + x), samples);
            }
        }
    }
}

// Eight sums of both passes, in 16 bits.
#[inline(always)]
unsafe fn totals<const N: usize>(from: *const i16, taps: &[__m128i; 4]) -> __m128i {
    let (mut low, mut high) = (_mm_set1_epi32(2048), _mm_set1_epi32(2048));
    for p in 0..4 {
        let (first, second) = (load(from.add(2 * p * N)), load(from.add((2 * p + 1) * N)));
        let (a, b) = (
            _mm_unpacklo_epi16(first, second),
            _mm_unpackhi_epi16(first, second),
        );
        low = _mm_add_epi32(low, _mm_madd_epi16(a, taps[p]));
        high = _mm_add_epi32(high, _mm_madd_epi16(b, taps[p]));
    }
    _mm_packs_epi32(_mm_srai_epi32(low, 12), _mm_srai_epi32(high, 12))
}

#[inline(never)]
pub fn both<const N: usize, const ROWS: usize>(
    across: &[i16; 8],
    down: &[i16; 8],
    reference: &[u8],
    stride: usize,
    out: &mut [u8],
) {
    assert!((ROWS - 1) * stride + N + 7 <= reference.len() && N * N <= out.len());
    let mut between = [[0i16; N]; ROWS];
    unsafe {
        let taps = pairs(across);
        for y in 0..ROWS {
            for x in (0..N).step_by(16) {
                let from = reference.as_ptr().add(y * stride + x);
                let (even, odd) = (sums(from, &taps), sums(from.add(1), &taps));
                let to = between[y].as_mut_ptr().add(x);
                store(to, _mm_unpacklo_epi16(even, odd));
                store(to.add(8), _mm_unpackhi_epi16(even, odd));
            }
        }
        let taps = wide_pairs(down);
        for y in 0..N {
            for x in (0..N).step_by(16) {
                let from = between.as_ptr().cast::<i16>().add(N * y + x);
                let (first, second) = (totals::<N>(from, &taps), totals::<N>(from.add(8), &taps));
                let samples = _mm_packus_epi16(first, second);
                store(out.as_mut_ptr().add(N * y + x), samples);
            }
        }
    }
}
