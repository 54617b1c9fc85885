//! The full stage of motion search by hand, with the processor's own operations up to SSE4.1: a
//! second yardstick beside plain Rust. Nothing of it is shipped.

use super::SIDE;
use core::arch::x86_64::*;

#[inline(always)]
unsafe fn load(from: *const u8) -> __m128i {
    _mm_loadu_si128(from as *const __m128i)
}

// Place `dx` has the sums of a row of 8x8 blocks, two to a vector of four: those of strip c stand
// in bits 16 * c of each half.
type Sums = [[__m128i; 8]; 17];

// The sums of two blocks of 8x8 in rows of 16 for 17 displacements of a row. The source stays in
// registers.
#[inline(always)]
unsafe fn put_strip<const SHIFT: i32>(
    source: *const u8,
    window: *const u8,
    row: usize,
    sums: &mut Sums,
) {
    let lines: [__m128i; 8] = std::array::from_fn(|y| load(source.add(y * SIDE)));
    let mut from = window;
    for sums in sums.iter_mut() {
        let gap = |y: usize| _mm_sad_epu8(load(from.add(y * SIDE)), lines[y]);
        let first = _mm_add_epi64(_mm_add_epi64(gap(0), gap(1)), _mm_add_epi64(gap(2), gap(3)));
        let last = _mm_add_epi64(_mm_add_epi64(gap(4), gap(5)), _mm_add_epi64(gap(6), gap(7)));
        let sum = _mm_slli_epi64::<SHIFT>(_mm_add_epi64(first, last));
        sums[row] = match SHIFT {
            0 => sum,
            _ => _mm_or_si128(sums[row], sum),
        };
        from = from.add(1);
    }
}

struct Keys {
    eights: [__m128i; 16],
    sixteens: [__m128i; 4],
    thirty_twos: __m128i,
    whole: u32,
}

#[inline(always)]
unsafe fn lesser(before: __m128i, sums: __m128i, number: __m128i) -> __m128i {
    _mm_min_epu32(before, _mm_or_si128(_mm_slli_epi32::<9>(sums), number))
}

// Lanes of 16 bits are columns 0 2 4 6 1 3 5 7.
#[inline(always)]
unsafe fn keep_least(keys: &mut Keys, sums: &[__m128i; 8], number: u32) {
    let numbers = _mm_set1_epi32(number as i32);
    let low = _mm_set1_epi32(0xffff);
    let mut wide = [_mm_setzero_si128(); 4];
    for row in 0..8 {
        let even = _mm_and_si128(sums[row], low);
        let odd = _mm_srli_epi32::<16>(sums[row]);
        keys.eights[2 * row] = lesser(keys.eights[2 * row], even, numbers);
        keys.eights[2 * row + 1] = lesser(keys.eights[2 * row + 1], odd, numbers);
        let pairs = _mm_add_epi32(_mm_unpacklo_epi64(even, odd), _mm_unpackhi_epi64(even, odd));
        wide[row / 2] = _mm_add_epi32(wide[row / 2], pairs);
    }
    for k in 0..4 {
        keys.sixteens[k] = lesser(keys.sixteens[k], wide[k], numbers);
    }
    let upper = _mm_add_epi32(wide[0], wide[1]);
    let lower = _mm_add_epi32(wide[2], wide[3]);
    let four = _mm_add_epi32(
        _mm_unpacklo_epi64(upper, lower),
        _mm_unpackhi_epi64(upper, lower),
    );
    keys.thirty_twos = lesser(keys.thirty_twos, four, numbers);
    let two = _mm_add_epi32(four, _mm_shuffle_epi32::<0x4e>(four));
    let one = _mm_add_epi32(two, _mm_shuffle_epi32::<0xb1>(two));
    keys.whole = keys.whole.min((_mm_cvtsi128_si32(one) as u32) << 9 | number);
}

unsafe fn lanes(vector: __m128i) -> [u32; 4] {
    core::mem::transmute(vector)
}

// By rows: the columns come as the lanes have them.
unsafe fn put_keys(found: &Keys, keys: &mut [u32; 85]) {
    for row in 0..8 {
        let (even, odd) = (lanes(found.eights[2 * row]), lanes(found.eights[2 * row + 1]));
        let row = &mut keys[8 * row..8 * row + 8];
        row.copy_from_slice(&[
            even[0], even[2], odd[0], odd[2], even[1], even[3], odd[1], odd[3],
        ]);
    }
    for k in 0..4 {
        let four = lanes(found.sixteens[k]);
        keys[64 + 4 * k..68 + 4 * k].copy_from_slice(&[four[0], four[2], four[1], four[3]]);
    }
    keys[80..84].copy_from_slice(&lanes(found.thirty_twos));
    keys[84] = found.whole;
}

#[inline(never)]
pub fn full_keys(
    source: &[u8; SIDE * SIDE],
    window: &[u8; SIDE * SIDE],
    keys: &mut [u32; 85],
) {
    // a strip has 56 + 8 rows of 80 and 48 + 16 columns, and in the window 16 more of each
    unsafe {
        let mut found = Keys {
            eights: [_mm_set1_epi32(-1); 16],
            sixteens: [_mm_set1_epi32(-1); 4],
            thirty_twos: _mm_set1_epi32(-1),
            whole: u32::MAX,
        };
        let mut sums = [[_mm_setzero_si128(); 8]; 17];
        for dy in 0..17 {
            for row in 0..8 {
                let first = source.as_ptr().add(8 * row * SIDE);
                let second = window.as_ptr().add((8 * row + dy) * SIDE);
                put_strip::<0>(first, second, row, &mut sums);
                put_strip::<16>(first.add(16), second.add(16), row, &mut sums);
                put_strip::<32>(first.add(32), second.add(32), row, &mut sums);
                put_strip::<48>(first.add(48), second.add(48), row, &mut sums);
            }
            for dx in 0..17 {
                let place = 17 * dy + dx;
                let number = if place == 144 { 0 } else { place as u32 + 1 };
                keep_least(&mut found, &sums[dx], number);
            }
        }
        put_keys(&found, keys);
    }
}
