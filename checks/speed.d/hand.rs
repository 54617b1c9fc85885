//! The transforms of blocks of 8, 16 and 32 columns by hand, with the processor's own operations up to
//! SSE4.1: a second yardstick beside plain Rust. Nothing of it is shipped.
#![allow(unsafe_op_in_unsafe_fn)]

use crate::{FACTORS, LEVEL_SCALE, entry};
use core::arch::x86_64::*;

// T of size m
const fn t(m: usize, k: usize, n: usize) -> i16 {
    entry(k * 32 / m, n) as i16
}

#[repr(C, align(16))]
#[derive(Clone, Copy)]
struct V([i16; 8]);
impl V {
    #[inline(always)]
    fn ld(&self) -> __m128i {
        unsafe { _mm_load_si128(self as *const V as *const __m128i) }
    }
}
#[repr(C, align(16))]
#[derive(Clone, Copy)]
struct W([i32; 4]);
impl W {
    #[inline(always)]
    fn ld(&self) -> __m128i {
        unsafe { _mm_load_si128(self as *const W as *const __m128i) }
    }
}

// columns in lanes: coefficient pair (T_m[k0][o], T_m[k1][o]) broadcast; odd part of size m: k = 2*(2p)+1, 2*(2p+1)+1
const fn col_odd<const P: usize, const O: usize>(m: usize) -> [[V; P]; O] {
    let mut r = [[V([0; 8]); P]; O];
    let mut o = 0;
    while o < O {
        let mut p = 0;
        while p < P {
            let mut i = 0;
            while i < 4 {
                r[o][p].0[2 * i] = t(m, 4 * p + 1, o);
                r[o][p].0[2 * i + 1] = t(m, 4 * p + 3, o);
                i += 1;
            }
            p += 1;
        }
        o += 1;
    }
    r
}
static C32: [[V; 8]; 16] = col_odd(32);
static C16: [[V; 4]; 8] = col_odd(16);
static C8: [[V; 2]; 4] = col_odd(8);
static C4: [[V; 1]; 2] = col_odd(4);
static C2: [V; 2] = [
    V([64, 64, 64, 64, 64, 64, 64, 64]),
    V([64, -64, 64, -64, 64, -64, 64, -64]),
];

#[inline(always)]
unsafe fn sum<const P: usize>(x: &[__m128i; P], c: &[V; P]) -> __m128i {
    let mut s = _mm_madd_epi16(x[0], c[0].ld());
    let mut p = 1;
    while p < P {
        s = _mm_add_epi32(s, _mm_madd_epi16(x[p], c[p].ld()));
        p += 1;
    }
    s
}
// rows of coefficients in i16; vmax: rows v >= vmax are zero (multiple of 8 or N).
#[inline(always)]
unsafe fn ld4(src: *const i16) -> __m128i {
    _mm_loadl_epi64(src as *const __m128i)
}
#[inline(always)]
unsafe fn pr<const N: usize>(src: *const i16, a: usize, b: usize) -> __m128i {
    _mm_unpacklo_epi16(ld4(src.add(a * N)), ld4(src.add(b * N)))
}

#[inline(always)]
unsafe fn inv_col4<const N: usize>(src: *const i16, dst: *mut i16) {
    let z = _mm_setzero_si128();
    let rnd = _mm_set1_epi32(64);
    // e2 level
    let s = N / 4; // row step for size 4
    let x = pr::<N>(src, 0, 2 * s);
    let a0 = _mm_add_epi32(_mm_madd_epi16(x, C2[0].ld()), rnd);
    let a1 = _mm_add_epi32(_mm_madd_epi16(x, C2[1].ld()), rnd);
    let x4 = [pr::<N>(src, s, 3 * s)];
    let b0 = sum(&x4, &C4[0]);
    let b1 = sum(&x4, &C4[1]);
    let e4 = [
        _mm_add_epi32(a0, b0),
        _mm_add_epi32(a1, b1),
        _mm_sub_epi32(a1, b1),
        _mm_sub_epi32(a0, b0),
    ];
    let s = N / 8;
    let x8 = [pr::<N>(src, s, 3 * s), pr::<N>(src, 5 * s, 7 * s)];
    let mut e8 = [z; 8];
    for o in 0..4 {
        let v = sum(&x8, &C8[o]);
        e8[o] = _mm_add_epi32(e4[o], v);
        e8[7 - o] = _mm_sub_epi32(e4[o], v);
    }
    let out = |i: usize, v: __m128i| {
        let v = _mm_srai_epi32(v, 7);
        _mm_storel_epi64(dst.add(i * N) as *mut __m128i, _mm_packs_epi32(v, v));
    };
    if N == 8 {
        for o in 0..8 {
            out(o, e8[o]);
        }
        return;
    }
    let s = N / 16;
    let x16 = [
        pr::<N>(src, s, 3 * s),
        pr::<N>(src, 5 * s, 7 * s),
        pr::<N>(src, 9 * s, 11 * s),
        pr::<N>(src, 13 * s, 15 * s),
    ];
    let mut e16 = [z; 16];
    for o in 0..8 {
        let v = sum(&x16, &C16[o]);
        e16[o] = _mm_add_epi32(e8[o], v);
        e16[15 - o] = _mm_sub_epi32(e8[o], v);
    }
    if N == 16 {
        for o in 0..16 {
            out(o, e16[o]);
        }
        return;
    }
    let mut x32 = [z; 8];
    for p in 0..8 {
        x32[p] = pr::<N>(src, 4 * p + 1, 4 * p + 3);
    }
    for o in 0..16 {
        let v = sum(&x32, &C32[o]);
        out(o, _mm_add_epi32(e16[o], v));
        out(31 - o, _mm_sub_epi32(e16[o], v));
    }
}
// corner: only rows v < 8 nonzero, N = 32 or 16
#[inline(always)]
unsafe fn inv_col4_corner<const N: usize>(src: *const i16, dst: *mut i16) {
    let z = _mm_setzero_si128();
    let rnd = _mm_set1_epi32(64);
    let out = |i: usize, v: __m128i| {
        let v = _mm_srai_epi32(v, 7);
        _mm_storel_epi64(dst.add(i * N) as *mut __m128i, _mm_packs_epi32(v, v));
    };
    let a0 = _mm_add_epi32(
        _mm_madd_epi16(pr::<N>(src, 0, 0), V([64, 0, 64, 0, 64, 0, 64, 0]).ld()),
        rnd,
    );
    if N == 32 {
        let x8 = [_mm_unpacklo_epi16(ld4(src.add(4 * N)), z)];
        let x16 = [pr::<N>(src, 2, 6)];
        let x32 = [pr::<N>(src, 1, 3), pr::<N>(src, 5, 7)];
        let mut e8 = [z; 8];
        let mut e16 = [z; 16];
        for o in 0..4 {
            let v = _mm_madd_epi16(x8[0], C8[o][0].ld());
            e8[o] = _mm_add_epi32(a0, v);
            e8[7 - o] = _mm_sub_epi32(a0, v);
        }
        for o in 0..8 {
            let v = _mm_madd_epi16(x16[0], C16[o][0].ld());
            e16[o] = _mm_add_epi32(e8[o], v);
            e16[15 - o] = _mm_sub_epi32(e8[o], v);
        }
        for o in 0..16 {
            let v = _mm_add_epi32(
                _mm_madd_epi16(x32[0], C32[o][0].ld()),
                _mm_madd_epi16(x32[1], C32[o][1].ld()),
            );
            out(o, _mm_add_epi32(e16[o], v));
            out(31 - o, _mm_sub_epi32(e16[o], v));
        }
    } else {
        let x4 = _mm_unpacklo_epi16(ld4(src.add(4 * N)), z);
        let b0 = _mm_madd_epi16(x4, C4[0][0].ld());
        let b1 = _mm_madd_epi16(x4, C4[1][0].ld());
        let e4 = [
            _mm_add_epi32(a0, b0),
            _mm_add_epi32(a0, b1),
            _mm_sub_epi32(a0, b1),
            _mm_sub_epi32(a0, b0),
        ];
        let x8 = pr::<N>(src, 2, 6);
        let x16 = [pr::<N>(src, 1, 3), pr::<N>(src, 5, 7)];
        let mut e8 = [z; 8];
        for o in 0..4 {
            let v = _mm_madd_epi16(x8, C8[o][0].ld());
            e8[o] = _mm_add_epi32(e4[o], v);
            e8[7 - o] = _mm_sub_epi32(e4[o], v);
        }
        for o in 0..8 {
            let v = _mm_add_epi32(
                _mm_madd_epi16(x16[0], C16[o][0].ld()),
                _mm_madd_epi16(x16[1], C16[o][1].ld()),
            );
            out(o, _mm_add_epi32(e8[o], v));
            out(15 - o, _mm_sub_epi32(e8[o], v));
        }
    }
}
// rows: lanes are output columns x. R_m[p][g]: for lanes x=4g..4g+3: (T[k0][x], T[k1][x]), odd pairs k=4p+1,4p+3
const fn row_odd<const P: usize, const G: usize>(m: usize) -> [[V; G]; P] {
    let mut r = [[V([0; 8]); G]; P];
    let mut p = 0;
    while p < P {
        let mut x = 0;
        while x < 4 * G {
            r[p][x / 4].0[2 * (x % 4)] = t(m, 4 * p + 1, x);
            r[p][x / 4].0[2 * (x % 4) + 1] = t(m, 4 * p + 3, x);
            x += 1;
        }
        p += 1;
    }
    r
}
static R32: [[V; 4]; 8] = row_odd(32);
static R16: [[V; 2]; 4] = row_odd(16);
static R8: [[V; 1]; 2] = row_odd(8);
const fn row4() -> [V; 2] {
    // pairs (0,1),(2,3) of T4, 4 outputs
    let mut r = [V([0; 8]); 2];
    let mut p = 0;
    while p < 2 {
        let mut x = 0;
        while x < 4 {
            r[p].0[2 * x] = t(4, 2 * p, x);
            r[p].0[2 * x + 1] = t(4, 2 * p + 1, x);
            x += 1;
        }
        p += 1;
    }
    r
}
static R4: [V; 2] = row4();
const fn bm(a: usize, b: usize) -> [u8; 16] {
    let mut r = [0u8; 16];
    let mut i = 0;
    while i < 4 {
        r[4 * i] = 2 * a as u8;
        r[4 * i + 1] = 2 * a as u8 + 1;
        r[4 * i + 2] = 2 * b as u8;
        r[4 * i + 3] = 2 * b as u8 + 1;
        i += 1;
    }
    r
}
#[inline(always)]
unsafe fn bc<const A: usize, const B: usize>(v: __m128i) -> __m128i {
    let m: [u8; 16] = const { bm(A, B) };
    _mm_shuffle_epi8(v, _mm_loadu_si128(m.as_ptr() as *const __m128i))
}
#[inline(always)]
unsafe fn rev32(v: __m128i) -> __m128i {
    _mm_shuffle_epi32(v, 0b00_01_10_11)
}
#[inline(always)]
unsafe fn rev16(v: __m128i) -> __m128i {
    static M: V = V([
        0x0f0e, 0x0d0c, 0x0b0a, 0x0908, 0x0706, 0x0504, 0x0302, 0x0100,
    ]);
    _mm_shuffle_epi8(v, M.ld())
}
#[inline(always)]
unsafe fn inv_row<const N: usize, const C: bool>(src: *const i16, dst: *mut i16) {
    let rnd = _mm_set1_epi32(2048);
    let l = |i: usize| _mm_loadu_si128(src.add(8 * i) as *const __m128i);
    let sh = |a, b| _mm_packs_epi32(_mm_srai_epi32(a, 12), _mm_srai_epi32(b, 12));
    let m = |a: __m128i, b: &V| _mm_madd_epi16(a, b.ld());
    let st = |i: usize, v| _mm_storeu_si128(dst.add(8 * i) as *mut __m128i, v);
    if N == 8 {
        let v = l(0);
        let e = _mm_add_epi32(
            _mm_add_epi32(m(bc::<0, 2>(v), &R4[0]), rnd),
            m(bc::<4, 6>(v), &R4[1]),
        );
        let o = _mm_add_epi32(m(bc::<1, 3>(v), &R8[0][0]), m(bc::<5, 7>(v), &R8[1][0]));
        st(0, sh(_mm_add_epi32(e, o), rev32(_mm_sub_epi32(e, o))));
    } else if N == 16 {
        let v0 = l(0);
        let v1 = l(1);
        let mut e = _mm_add_epi32(m(bc::<0, 4>(v0), &R4[0]), rnd);
        if !C {
            e = _mm_add_epi32(e, m(bc::<0, 4>(v1), &R4[1]));
        }
        let mut eo = m(bc::<2, 6>(v0), &R8[0][0]);
        if !C {
            eo = _mm_add_epi32(eo, m(bc::<2, 6>(v1), &R8[1][0]));
        }
        let e0 = _mm_add_epi32(e, eo);
        let e1 = rev32(_mm_sub_epi32(e, eo));
        let b = bc::<1, 3>(v0);
        let mut o0 = m(b, &R16[0][0]);
        let mut o1 = m(b, &R16[0][1]);
        let b = bc::<5, 7>(v0);
        o0 = _mm_add_epi32(o0, m(b, &R16[1][0]));
        o1 = _mm_add_epi32(o1, m(b, &R16[1][1]));
        if !C {
            let b = bc::<1, 3>(v1);
            o0 = _mm_add_epi32(o0, m(b, &R16[2][0]));
            o1 = _mm_add_epi32(o1, m(b, &R16[2][1]));
            let b = bc::<5, 7>(v1);
            o0 = _mm_add_epi32(o0, m(b, &R16[3][0]));
            o1 = _mm_add_epi32(o1, m(b, &R16[3][1]));
        }
        st(0, sh(_mm_add_epi32(e0, o0), _mm_add_epi32(e1, o1)));
        st(1, rev16(sh(_mm_sub_epi32(e0, o0), _mm_sub_epi32(e1, o1))));
    } else {
        let v = if C {
            [l(0); 4]
        } else {
            [l(0), l(1), l(2), l(3)]
        };
        let (mut e, eo2);
        if C {
            let w = bc::<0, 4>(v[0]);
            static RC: V = V([64, 0, 64, 0, 64, 0, 64, 0]);
            e = _mm_add_epi32(m(w, &RC), rnd);
            eo2 = m(bc::<4, 4>(v[0]), &V([89, 0, 75, 0, 50, 0, 18, 0]));
        } else {
            let w0 = _mm_unpacklo_epi16(bc::<0, 4>(v[0]), bc::<0, 4>(v[1])); // c0 c8 c4 c12
            let w1 = _mm_unpacklo_epi16(bc::<0, 4>(v[2]), bc::<0, 4>(v[3]));
            e = _mm_add_epi32(m(_mm_shuffle_epi32(w0, 0), &R4[0]), rnd);
            e = _mm_add_epi32(e, m(_mm_shuffle_epi32(w1, 0), &R4[1]));
            eo2 = _mm_add_epi32(
                m(_mm_shuffle_epi32(w0, 0x55), &R8[0][0]),
                m(_mm_shuffle_epi32(w1, 0x55), &R8[1][0]),
            );
        }
        let ee0 = _mm_add_epi32(e, eo2);
        let ee1 = rev32(_mm_sub_epi32(e, eo2));
        let b = bc::<2, 6>(v[0]);
        let mut p0 = m(b, &R16[0][0]);
        let mut p1 = m(b, &R16[0][1]);
        let k = if C { 1 } else { 4 };
        for i in 1..k {
            let b = bc::<2, 6>(v[i]);
            p0 = _mm_add_epi32(p0, m(b, &R16[i][0]));
            p1 = _mm_add_epi32(p1, m(b, &R16[i][1]));
        }
        let e = [
            _mm_add_epi32(ee0, p0),
            _mm_add_epi32(ee1, p1),
            rev32(_mm_sub_epi32(ee1, p1)),
            rev32(_mm_sub_epi32(ee0, p0)),
        ];
        let b = bc::<1, 3>(v[0]);
        let b2 = bc::<5, 7>(v[0]);
        let mut o = [b; 4];
        for g in 0..4 {
            o[g] = _mm_add_epi32(m(b, &R32[0][g]), m(b2, &R32[1][g]));
        }
        for i in 1..k {
            let b = bc::<1, 3>(v[i]);
            let b2 = bc::<5, 7>(v[i]);
            for g in 0..4 {
                o[g] = _mm_add_epi32(
                    o[g],
                    _mm_add_epi32(m(b, &R32[2 * i][g]), m(b2, &R32[2 * i + 1][g])),
                );
            }
        }
        st(0, sh(_mm_add_epi32(e[0], o[0]), _mm_add_epi32(e[1], o[1])));
        st(1, sh(_mm_add_epi32(e[2], o[2]), _mm_add_epi32(e[3], o[3])));
        st(
            2,
            rev16(sh(_mm_sub_epi32(e[2], o[2]), _mm_sub_epi32(e[3], o[3]))),
        );
        st(
            3,
            rev16(sh(_mm_sub_epi32(e[0], o[0]), _mm_sub_epi32(e[1], o[1]))),
        );
    }
}
#[repr(C, align(16))]
struct B([i16; 1024]);
#[inline(always)]
unsafe fn inv_n<const N: usize, const SKIP: bool>(c: &[i32], out: &mut [i16]) {
    let mut a = core::mem::MaybeUninit::<B>::uninit();
    let a = a.as_mut_ptr() as *mut i16;
    let mut h = core::mem::MaybeUninit::<B>::uninit();
    let h = h.as_mut_ptr() as *mut i16;
    let (cp, op) = (c.as_ptr(), out.as_mut_ptr());
    assert!(c.len() >= N * N && out.len() >= N * N);
    let pk = |i: usize| {
        let lo = _mm_loadu_si128(cp.add(i) as *const __m128i);
        let hi = _mm_loadu_si128(cp.add(i + 4) as *const __m128i);
        _mm_packs_epi32(lo, hi)
    };
    if SKIP && N > 8 {
        // or of what lies outside the 8x8 corner
        let mut or = _mm_setzero_si128();
        for y in 0..8 {
            for x in (8..N).step_by(4) {
                or = _mm_or_si128(or, _mm_loadu_si128(cp.add(y * N + x) as *const __m128i));
            }
        }
        let mut i = 8 * N;
        if _mm_testz_si128(or, or) != 0 {
            let mut or2 = or;
            while i < N * N {
                or = _mm_or_si128(or, _mm_loadu_si128(cp.add(i) as *const __m128i));
                or2 = _mm_or_si128(or2, _mm_loadu_si128(cp.add(i + 4) as *const __m128i));
                i += 8;
            }
            or = _mm_or_si128(or, or2);
            if _mm_testz_si128(or, or) != 0 {
                for y in 0..8 {
                    _mm_store_si128(a.add(y * N) as *mut __m128i, pk(y * N));
                }
                for x in (0..8).step_by(4) {
                    inv_col4_corner::<N>(a.add(x), h.add(x));
                }
                for y in 0..N {
                    inv_row::<N, true>(h.add(y * N), op.add(y * N));
                }
                return;
            }
        }
    }
    let mut i = 0;
    while i < N * N {
        _mm_store_si128(a.add(i) as *mut __m128i, pk(i));
        i += 8;
    }
    for x in (0..N).step_by(4) {
        inv_col4::<N>(a.add(x), h.add(x));
    }
    for y in 0..N {
        inv_row::<N, false>(h.add(y * N), op.add(y * N));
    }
}
#[inline(never)]
pub fn inverse<const SKIP: bool>(c: &[i32], log2: u8, out: &mut [i16]) {
    unsafe {
        match log2 {
            3 => inv_n::<8, SKIP>(c, out),
            4 => inv_n::<16, SKIP>(c, out),
            _ => inv_n::<32, SKIP>(c, out),
        }
    }
}

// forward. F_m odd: inputs o[x], x<m/2 in adjacent pairs (2p,2p+1); lanes: outputs k=1,3,5.. : F[p][g] lanes j=4g..: (T[2j+1][2p], T[2j+1][2p+1])
const fn f_odd<const P: usize, const G: usize>(m: usize) -> [[V; G]; P] {
    let mut r = [[V([0; 8]); G]; P];
    let mut p = 0;
    while p < P {
        let mut j = 0;
        while j < 4 * G {
            r[p][j / 4].0[2 * (j % 4)] = t(m, 2 * j + 1, 2 * p);
            r[p][j / 4].0[2 * (j % 4) + 1] = t(m, 2 * j + 1, 2 * p + 1);
            j += 1;
        }
        p += 1;
    }
    r
}
static F32: [[V; 4]; 8] = f_odd(32);
static F16: [[V; 2]; 4] = f_odd(16);
static F8: [[V; 1]; 2] = f_odd(8);
const fn f4() -> [V; 2] {
    let mut r = [V([0; 8]); 2];
    let mut p = 0;
    while p < 2 {
        let mut j = 0;
        while j < 4 {
            r[p].0[2 * j] = t(4, j, 2 * p);
            r[p].0[2 * j + 1] = t(4, j, 2 * p + 1);
            j += 1;
        }
        p += 1;
    }
    r
}
static F4: [V; 2] = f4();
// 8 numbers in -> 8 outputs in i32 (two vectors: odd outputs 1,3,5,7 and even outputs 0,2,4,6)
#[inline(always)]
unsafe fn fwd8(v: __m128i) -> (__m128i, __m128i) {
    let r = rev16(v);
    let e = _mm_add_epi16(v, r);
    let o = _mm_sub_epi16(v, r);
    let m = |a: __m128i, b: &V| _mm_madd_epi16(a, b.ld());
    let ev = _mm_add_epi32(
        m(_mm_shuffle_epi32(e, 0), &F4[0]),
        m(_mm_shuffle_epi32(e, 0x55), &F4[1]),
    );
    let od = _mm_add_epi32(
        m(_mm_shuffle_epi32(o, 0), &F8[0][0]),
        m(_mm_shuffle_epi32(o, 0x55), &F8[1][0]),
    );
    (ev, od)
}
#[inline(always)]
unsafe fn fwd_row<const N: usize>(src: *const i16, dst: *mut i16) {
    let l = |i: usize| _mm_loadu_si128(src.add(8 * i) as *const __m128i);
    let sft = if N == 8 {
        2
    } else if N == 16 {
        3
    } else {
        4
    };
    let rnd = _mm_set1_epi32(1 << (sft - 1));
    let cnt = _mm_cvtsi32_si128(sft);
    let sh = |a, b| {
        _mm_packs_epi32(
            _mm_sra_epi32(_mm_add_epi32(a, rnd), cnt),
            _mm_sra_epi32(_mm_add_epi32(b, rnd), cnt),
        )
    };
    let m = |a: __m128i, b: &V| _mm_madd_epi16(a, b.ld());
    let st = |i: usize, v| _mm_storeu_si128(dst.add(8 * i) as *mut __m128i, v);
    let add = |a, b| _mm_add_epi32(a, b);
    let ilv = |e, o| {
        let z = sh(e, o);
        _mm_unpacklo_epi16(z, _mm_srli_si128(z, 8))
    };
    if N == 8 {
        let (e, o) = fwd8(l(0));
        st(0, ilv(e, o));
    } else if N == 16 {
        let (v0, r1) = (l(0), rev16(l(1)));
        let e = _mm_add_epi16(v0, r1);
        let o = _mm_sub_epi16(v0, r1);
        let (ee, eo) = fwd8(e);
        let e = ilv(ee, eo);
        let (mut o0, mut o1);
        let b = _mm_shuffle_epi32(o, 0);
        o0 = m(b, &F16[0][0]);
        o1 = m(b, &F16[0][1]);
        let b = _mm_shuffle_epi32(o, 0x55);
        o0 = add(o0, m(b, &F16[1][0]));
        o1 = add(o1, m(b, &F16[1][1]));
        let b = _mm_shuffle_epi32(o, 0xaa);
        o0 = add(o0, m(b, &F16[2][0]));
        o1 = add(o1, m(b, &F16[2][1]));
        let b = _mm_shuffle_epi32(o, 0xff);
        o0 = add(o0, m(b, &F16[3][0]));
        o1 = add(o1, m(b, &F16[3][1]));
        let o = sh(o0, o1);
        st(0, _mm_unpacklo_epi16(e, o));
        st(1, _mm_unpackhi_epi16(e, o));
    } else {
        let (v0, v1, r2, r3) = (l(0), l(1), rev16(l(2)), rev16(l(3)));
        let (e0, e1, q0, q1) = (
            _mm_add_epi16(v0, r3),
            _mm_add_epi16(v1, r2),
            _mm_sub_epi16(v0, r3),
            _mm_sub_epi16(v1, r2),
        );
        let r1 = rev16(e1);
        let ee = _mm_add_epi16(e0, r1);
        let eo = _mm_sub_epi16(e0, r1);
        let (eee, eeo) = fwd8(ee);
        let e = ilv(eee, eeo);
        let (mut o0, mut o1);
        let b = _mm_shuffle_epi32(eo, 0);
        o0 = m(b, &F16[0][0]);
        o1 = m(b, &F16[0][1]);
        let b = _mm_shuffle_epi32(eo, 0x55);
        o0 = add(o0, m(b, &F16[1][0]));
        o1 = add(o1, m(b, &F16[1][1]));
        let b = _mm_shuffle_epi32(eo, 0xaa);
        o0 = add(o0, m(b, &F16[2][0]));
        o1 = add(o1, m(b, &F16[2][1]));
        let b = _mm_shuffle_epi32(eo, 0xff);
        o0 = add(o0, m(b, &F16[3][0]));
        o1 = add(o1, m(b, &F16[3][1]));
        let o = sh(o0, o1);
        let (f0, f1) = (_mm_unpacklo_epi16(e, o), _mm_unpackhi_epi16(e, o));
        let b = [
            _mm_shuffle_epi32(q0, 0),
            _mm_shuffle_epi32(q0, 0x55),
            _mm_shuffle_epi32(q0, 0xaa),
            _mm_shuffle_epi32(q0, 0xff),
            _mm_shuffle_epi32(q1, 0),
            _mm_shuffle_epi32(q1, 0x55),
            _mm_shuffle_epi32(q1, 0xaa),
            _mm_shuffle_epi32(q1, 0xff),
        ];
        let mut o = [b[0]; 4];
        for g in 0..4 {
            o[g] = m(b[0], &F32[0][g]);
            for p in 1..8 {
                o[g] = add(o[g], m(b[p], &F32[p][g]));
            }
        }
        let (o0, o1) = (sh(o[0], o[1]), sh(o[2], o[3]));
        st(0, _mm_unpacklo_epi16(f0, o0));
        st(1, _mm_unpackhi_epi16(f0, o0));
        st(2, _mm_unpacklo_epi16(f1, o1));
        st(3, _mm_unpackhi_epi16(f1, o1));
    }
}
// second pass: pairs (y, N-1-y), coefficient (t,-t) for odd outputs; even outputs through i32
const fn g_odd<const P: usize, const O: usize>(m: usize) -> [[V; P]; O] {
    let mut r = [[V([0; 8]); P]; O];
    let mut j = 0;
    while j < O {
        let mut y = 0;
        while y < P {
            let mut i = 0;
            while i < 4 {
                r[j][y].0[2 * i] = t(m, 2 * j + 1, y);
                r[j][y].0[2 * i + 1] = -t(m, 2 * j + 1, y);
                i += 1;
            }
            y += 1;
        }
        j += 1;
    }
    r
}
static G32: [[V; 16]; 16] = g_odd(32);
static G16: [[V; 8]; 8] = g_odd(16);
static G8: [[V; 4]; 4] = g_odd(8);
const fn w_odd<const P: usize, const O: usize>(m: usize) -> [[W; P]; O] {
    let mut r = [[W([0; 4]); P]; O];
    let mut j = 0;
    while j < O {
        let mut y = 0;
        while y < P {
            r[j][y] = W([t(m, 2 * j + 1, y) as i32; 4]);
            y += 1;
        }
        j += 1;
    }
    r
}
static W16: [[W; 8]; 8] = w_odd(16);
static W8: [[W; 4]; 4] = w_odd(8);
static W4: [[W; 2]; 2] = w_odd(4);
#[inline(always)]
unsafe fn sumw<const P: usize>(x: &[__m128i; P], c: &[W; P]) -> __m128i {
    let mut s = _mm_mullo_epi32(x[0], c[0].ld());
    let mut p = 1;
    while p < P {
        s = _mm_add_epi32(s, _mm_mullo_epi32(x[p], c[p].ld()));
        p += 1;
    }
    s
}
#[inline(always)]
unsafe fn fwd_col4<const N: usize>(src: *const i16, dst: *mut i32) {
    let z = _mm_setzero_si128();
    let sft = if N == 8 {
        9
    } else if N == 16 {
        10
    } else {
        11
    };
    let rnd = _mm_set1_epi32(1 << (sft - 1));
    let cnt = _mm_cvtsi32_si128(sft);
    let out = |k: usize, v: __m128i| {
        _mm_storeu_si128(
            dst.add(k * N) as *mut __m128i,
            _mm_sra_epi32(_mm_add_epi32(v, rnd), cnt),
        )
    };
    let one = _mm_set1_epi16(1);
    let mut e = [z; 16];
    if N == 32 {
        let mut x = [z; 16];
        for y in 0..16 {
            x[y] = pr::<N>(src, y, 31 - y);
            e[y] = _mm_madd_epi16(x[y], one);
        }
        for j in 0..16 {
            out(2 * j + 1, sum(&x, &G32[j]));
        }
    }
    if N >= 16 {
        let mut e8 = [z; 8];
        if N == 32 {
            let mut o = [z; 8];
            for y in 0..8 {
                e8[y] = _mm_add_epi32(e[y], e[15 - y]);
                o[y] = _mm_sub_epi32(e[y], e[15 - y]);
            }
            for j in 0..8 {
                out(2 * (2 * j + 1), sumw(&o, &W16[j]));
            }
        } else {
            let mut x = [z; 8];
            for y in 0..8 {
                x[y] = pr::<N>(src, y, 15 - y);
                e8[y] = _mm_madd_epi16(x[y], one);
            }
            for j in 0..8 {
                out(2 * j + 1, sum(&x, &G16[j]));
            }
        }
        for y in 0..8 {
            e[y] = e8[y];
        }
    }
    let s = N / 8;
    let mut e4 = [z; 4];
    if N >= 16 {
        let mut o = [z; 4];
        for y in 0..4 {
            e4[y] = _mm_add_epi32(e[y], e[7 - y]);
            o[y] = _mm_sub_epi32(e[y], e[7 - y]);
        }
        for j in 0..4 {
            out(s * (2 * j + 1), sumw(&o, &W8[j]));
        }
    } else {
        let mut x = [z; 4];
        for y in 0..4 {
            x[y] = pr::<N>(src, y, 7 - y);
            e4[y] = _mm_madd_epi16(x[y], one);
        }
        for j in 0..4 {
            out(2 * j + 1, sum(&x, &G8[j]));
        }
    }
    let s = N / 4;
    let o = [_mm_sub_epi32(e4[0], e4[3]), _mm_sub_epi32(e4[1], e4[2])];
    let e2 = [_mm_add_epi32(e4[0], e4[3]), _mm_add_epi32(e4[1], e4[2])];
    out(s, sumw(&o, &W4[0]));
    out(3 * s, sumw(&o, &W4[1]));
    out(0, _mm_slli_epi32(_mm_add_epi32(e2[0], e2[1]), 6));
    out(2 * s, _mm_slli_epi32(_mm_sub_epi32(e2[0], e2[1]), 6));
}
#[inline(always)]
unsafe fn fwd_n<const N: usize>(r: &[i16], out: &mut [i32]) {
    let mut h = core::mem::MaybeUninit::<B>::uninit();
    let h = h.as_mut_ptr() as *mut i16;
    assert!(r.len() >= N * N && out.len() >= N * N);
    for y in 0..N {
        fwd_row::<N>(r.as_ptr().add(y * N), h.add(y * N));
    }
    for x in (0..N).step_by(4) {
        fwd_col4::<N>(h.add(x), out.as_mut_ptr().add(x));
    }
}
#[inline(never)]
pub fn forward(r: &[i16], log2: u8, out: &mut [i32]) {
    unsafe {
        match log2 {
            3 => fwd_n::<8>(r, out),
            4 => fwd_n::<16>(r, out),
            _ => fwd_n::<32>(r, out),
        }
    }
}

// Eights of levels. The factor 16 of scaling is left out, and so fewer bits are shifted away.
#[inline(never)]
pub fn scale(levels: &[i16], log2: u8, qp: u8, out: &mut [i32]) {
    assert!(levels.len() == out.len() && out.len() % 8 == 0);
    let shift = i32::from(log2) - 1;
    let factor = (LEVEL_SCALE[usize::from(qp % 6)] << (qp / 6)) as i16;
    unsafe {
        let factor = _mm_set1_epi16(factor);
        let half = _mm_set1_epi32(1 << (shift - 1));
        let shift = _mm_cvtsi32_si128(shift);
        let (least, most) = (_mm_set1_epi32(-32768), _mm_set1_epi32(32767));
        let base = out.as_mut_ptr();
        for i in (0..out.len()).step_by(8) {
            let level = _mm_loadu_si128(levels.as_ptr().add(i) as *const __m128i);
            let low = _mm_mullo_epi16(level, factor);
            let high = _mm_mulhi_epi16(level, factor);
            let put = |at: usize, product| {
                let value = _mm_sra_epi32(_mm_add_epi32(product, half), shift);
                let value = _mm_min_epi32(_mm_max_epi32(value, least), most);
                _mm_storeu_si128(base.add(at) as *mut __m128i, value);
            };
            put(i, _mm_unpacklo_epi16(low, high));
            put(i + 4, _mm_unpackhi_epi16(low, high));
        }
    }
}

// Eights of coefficients. The upper half of each is its sign, which has the weight 0.
#[inline(never)]
pub fn quantise(coefficients: &[i32], log2: u8, qp: u8, intra: bool, out: &mut [i16]) -> bool {
    assert!(coefficients.len() == out.len() && out.len() % 8 == 0);
    let shift = 21 + i32::from(qp) / 6 - i32::from(log2);
    let offset = if intra { 171 } else { 85 } << (shift - 9);
    unsafe {
        let factor = _mm_set1_epi32(FACTORS[usize::from(qp % 6)] as i32);
        let offset = _mm_set1_epi32(offset);
        let shift = _mm_cvtsi32_si128(shift);
        let mut all = _mm_setzero_si128();
        for i in (0..out.len()).step_by(8) {
            let four = |at: usize| {
                let number = _mm_loadu_si128(coefficients.as_ptr().add(at) as *const __m128i);
                let product = _mm_madd_epi16(number, factor);
                let size = _mm_add_epi32(_mm_abs_epi32(product), offset);
                _mm_sign_epi32(_mm_srl_epi32(size, shift), product)
            };
            let levels = _mm_packs_epi32(four(i), four(i + 4));
            _mm_storeu_si128(out.as_mut_ptr().add(i) as *mut __m128i, levels);
            all = _mm_or_si128(all, levels);
        }
        _mm_testz_si128(all, all) == 0
    }
}
