//! Pictures deblocked, as `crates/hv_deblock` does it, in plain Rust: the strength of an edge once
//! for each square, the decisions once for four lines, and one bounds check for each row.
use std::hint::black_box;

const CALLS: usize = 64;
const SIDE: usize = 256;
const SQUARES: usize = 32;
const SAMPLED: usize = 61;

// ---- how squares are coded

#[derive(Clone, Copy, PartialEq, Eq)]
struct Mv {
    x: i16,
    y: i16,
}

#[derive(Clone, Copy)]
#[allow(dead_code)]
enum Pred {
    Intra { mode: u8 },
    Inter { reference: u8, mv: Mv, flag: u8, mvd: Mv },
}

#[derive(Clone, Copy)]
struct SquareCoding {
    depth: u8,
    pred: Pred,
    has_levels: bool,
}

fn vectors_differ(a: Mv, b: Mv) -> bool {
    a.x.abs_diff(b.x) >= 4 || a.y.abs_diff(b.y) >= 4
}

fn strength(p: &SquareCoding, q: &SquareCoding) -> u8 {
    match (p.pred, q.pred) {
        (
            Pred::Inter { reference, mv, .. },
            Pred::Inter { reference: other, mv: other_mv, .. },
        ) => u8::from(
            p.has_levels || q.has_levels || reference != other || vectors_differ(mv, other_mv),
        ),
        _ => 2,
    }
}

fn is_transform_edge(place: usize, depth: u8) -> bool {
    match depth {
        0 | 1 => place % 4 == 0,
        2 => place % 2 == 0,
        _ => true,
    }
}

fn edge_strength<const TURNED: bool>(squares: &[SquareCoding], column: usize, row: usize) -> u8 {
    let at = |column: usize, row: usize| {
        if TURNED {
            &squares[column * SQUARES + row]
        } else {
            &squares[row * SQUARES + column]
        }
    };
    let behind = at(column, row);
    if is_transform_edge(column, behind.depth) {
        strength(at(column - 1, row), behind)
    } else {
        0
    }
}

// ---- thresholds

#[rustfmt::skip]
static TC: [u8; 54] = [
    0, 0, 0, 0, 0, 0, 0, 0, 0, 0, 0, 0, 0, 0, 0, 0, 0, 0, 1,
    1, 1, 1, 1, 1, 1, 1, 1, 2, 2, 2, 2, 3, 3, 3, 3, 4, 4, 4,
    5, 5, 6, 6, 7, 8, 9, 10, 11, 13, 14, 16, 18, 20, 22, 24,
];

#[rustfmt::skip]
static CHROMA: [u8; 14] = [29, 30, 31, 32, 33, 33, 34, 34, 35, 35, 36, 36, 37, 37];

fn chroma_qp(qp: u8) -> u8 {
    match qp {
        0..=29 => qp,
        30..=43 => CHROMA[usize::from(qp - 30)],
        _ => qp - 6,
    }
}

fn beta(qp: u8) -> i32 {
    match qp {
        0..=15 => 0,
        16..=28 => i32::from(qp) - 10,
        _ => 2 * i32::from(qp) - 38,
    }
}

fn tc(qp: u8, strength: u8) -> i32 {
    i32::from(TC[usize::from(qp + 2 * (strength - 1))])
}

// ---- lines: p3 to p0, and q0 to q3

type Line = [i32; 8];

fn curvature(a: i32, b: i32, c: i32) -> i32 {
    (a - 2 * b + c).abs()
}

fn is_flat(beta: i32, tc: i32, line: &Line, bend: i32) -> bool {
    2 * bend < beta >> 2
        && (line[0] - line[3]).abs() + (line[4] - line[7]).abs() < beta >> 3
        && (line[3] - line[4]).abs() < (5 * tc + 1) >> 1
}

#[inline(always)]
fn strong(tc: i32, line: &Line) -> Line {
    let [p3, p2, p1, p0, q0, q1, q2, q3] = *line;
    let cut = |old: i32, new: i32| new.clamp(old - 2 * tc, old + 2 * tc);
    [
        p3,
        cut(p2, (2 * p3 + 3 * p2 + p1 + p0 + q0 + 4) >> 3),
        cut(p1, (p2 + p1 + p0 + q0 + 2) >> 2),
        cut(p0, (p2 + 2 * p1 + 2 * p0 + 2 * q0 + q1 + 4) >> 3),
        cut(q0, (q2 + 2 * q1 + 2 * q0 + 2 * p0 + p1 + 4) >> 3),
        cut(q1, (q2 + q1 + q0 + p0 + 2) >> 2),
        cut(q2, (2 * q3 + 3 * q2 + q1 + q0 + p0 + 4) >> 3),
        q3,
    ]
}

#[inline(always)]
fn normal(tc: i32, smooth_p: bool, smooth_q: bool, line: &Line) -> Line {
    let [p3, p2, p1, p0, q0, q1, q2, q3] = *line;
    let step = (9 * (q0 - p0) - 3 * (q1 - p1) + 8) >> 4;
    if step.abs() >= 10 * tc {
        return *line;
    }
    let step = step.clamp(-tc, tc);
    let half = tc >> 1;
    let mut out = [p3, p2, p1, p0 + step, q0 - step, q1, q2, q3];
    if smooth_p {
        out[2] += ((((p2 + p0 + 1) >> 1) - p1 + step) >> 1).clamp(-half, half);
    }
    if smooth_q {
        out[5] += ((((q2 + q0 + 1) >> 1) - q1 - step) >> 1).clamp(-half, half);
    }
    out
}

#[inline(always)]
fn chroma(tc: i32, line: &Line) -> Line {
    let [p3, p2, p1, p0, q0, q1, q2, q3] = *line;
    let step = ((4 * (q0 - p0) + p1 - q1 + 4) >> 3).clamp(-tc, tc);
    [p3, p2, p1, p0 + step, q0 - step, q1, q2, q3]
}

fn byte(sample: i32) -> u8 {
    sample.clamp(0, 255) as u8
}

// ---- four lines of an edge

struct Plane {
    width: usize,
    height: usize,
    samples: Vec<u8>,
}

/// The four lines from row `top` on across the edge before column `column`.
#[inline(always)]
fn load<const TURNED: bool>(plane: &Plane, column: usize, top: usize) -> [Line; 4] {
    let mut lines = [[0; 8]; 4];
    if TURNED {
        for i in 0..8 {
            let at = (column - 4 + i) * plane.width + top;
            let row: &[u8; 4] = plane.samples[at..at + 4].try_into().unwrap();
            for y in 0..4 {
                lines[y][i] = i32::from(row[y]);
            }
        }
    } else {
        for y in 0..4 {
            let at = (top + y) * plane.width + column - 4;
            let row: &[u8; 8] = plane.samples[at..at + 8].try_into().unwrap();
            for i in 0..8 {
                lines[y][i] = i32::from(row[i]);
            }
        }
    }
    lines
}

#[inline(always)]
fn store<const TURNED: bool, const FROM: usize, const TO: usize>(
    plane: &mut Plane,
    column: usize,
    top: usize,
    lines: &[Line; 4],
) {
    if TURNED {
        for i in FROM..TO {
            let at = (column - 4 + i) * plane.width + top;
            let row: &mut [u8; 4] = (&mut plane.samples[at..at + 4]).try_into().unwrap();
            for y in 0..4 {
                row[y] = byte(lines[y][i]);
            }
        }
    } else {
        for y in 0..4 {
            let at = (top + y) * plane.width + column - 4;
            let row: &mut [u8; 8] = (&mut plane.samples[at..at + 8]).try_into().unwrap();
            for i in FROM..TO {
                row[i] = byte(lines[y][i]);
            }
        }
    }
}

#[inline(always)]
fn filter_luma<const TURNED: bool>(
    plane: &mut Plane,
    column: usize,
    top: usize,
    beta: i32,
    tc: i32,
) {
    let mut lines = load::<TURNED>(plane, column, top);
    let (first, last) = (&lines[0], &lines[3]);
    let first_p = curvature(first[1], first[2], first[3]);
    let first_q = curvature(first[6], first[5], first[4]);
    let last_p = curvature(last[1], last[2], last[3]);
    let last_q = curvature(last[6], last[5], last[4]);
    if first_p + first_q + last_p + last_q >= beta {
        return;
    }
    if is_flat(beta, tc, first, first_p + first_q) && is_flat(beta, tc, last, last_p + last_q) {
        for line in &mut lines {
            *line = strong(tc, line);
        }
        store::<TURNED, 1, 7>(plane, column, top, &lines);
    } else {
        let least = (beta + (beta >> 1)) >> 3;
        let smooth_p = first_p + last_p < least;
        let smooth_q = first_q + last_q < least;
        for line in &mut lines {
            *line = normal(tc, smooth_p, smooth_q, line);
        }
        store::<TURNED, 2, 6>(plane, column, top, &lines);
    }
}

// ---- a picture

#[inline(never)]
fn pass_luma<const TURNED: bool>(plane: &mut Plane, squares: &[SquareCoding], qp: u8) {
    let beta = beta(qp);
    if beta == 0 {
        return;
    }
    let tcs = [tc(qp, 1), tc(qp, 2)];
    let (columns, rows) = if TURNED {
        (plane.height, plane.width)
    } else {
        (plane.width, plane.height)
    };
    for column in 1..columns / 8 {
        for row in 0..rows / 8 {
            let strength = edge_strength::<TURNED>(squares, column, row);
            if strength > 0 {
                let tc = tcs[usize::from(strength - 1)];
                filter_luma::<TURNED>(plane, 8 * column, 8 * row, beta, tc);
                filter_luma::<TURNED>(plane, 8 * column, 8 * row + 4, beta, tc);
            }
        }
    }
}

#[inline(never)]
fn pass_chroma<const TURNED: bool>(plane: &mut Plane, squares: &[SquareCoding], qp: u8) {
    let tc = tc(chroma_qp(qp), 2);
    let (columns, rows) = if TURNED {
        (plane.height, plane.width)
    } else {
        (plane.width, plane.height)
    };
    for column in 1..columns.div_ceil(8) {
        for row in 0..rows / 4 {
            if edge_strength::<TURNED>(squares, 2 * column, row) == 2 {
                let mut lines = load::<TURNED>(plane, 8 * column, 4 * row);
                for line in &mut lines {
                    *line = chroma(tc, line);
                }
                store::<TURNED, 3, 5>(plane, 8 * column, 4 * row, &lines);
            }
        }
    }
}

fn deblock(planes: &mut [Plane; 3], squares: &[SquareCoding], qp: u8) {
    let [luma, cb, cr] = planes;
    pass_luma::<false>(luma, squares, qp);
    pass_luma::<true>(luma, squares, qp);
    for plane in [cb, cr] {
        pass_chroma::<false>(plane, squares, qp);
        pass_chroma::<true>(plane, squares, qp);
    }
}

// ---- what is run

struct Pictures {
    planes: [Plane; 3],
    original: [Vec<u8>; 3],
    squares: Vec<SquareCoding>,
    qp: u8,
}

/// A ramp with a step between any two squares, and noise.
fn samples_of(side: usize, seed: u32) -> Vec<u8> {
    let mut state = seed;
    let mut samples = vec![0; side * side];
    for y in 0..side {
        for x in 0..side {
            state = state.wrapping_mul(1664525).wrapping_add(1013904223);
            let square = (7 * (x / 8) + 5 * (y / 8)) % 9;
            let noise = (state >> 24) as usize % 3;
            samples[y * side + x] = (60 + (x + 2 * y) / 8 + square + noise) as u8;
        }
    }
    samples
}

fn squares_of(inter: bool) -> Vec<SquareCoding> {
    let mut state = 7u32;
    let mut squares = Vec::new();
    for _ in 0..SQUARES * SQUARES {
        state = state.wrapping_mul(1664525).wrapping_add(1013904223);
        let byte = (state >> 24) as u8;
        let pred = if !inter || byte < 32 {
            Pred::Intra { mode: byte % 35 }
        } else {
            let x = if byte < 128 { 5 } else { 12 };
            let still = Mv { x: 0, y: 0 };
            Pred::Inter { reference: 0, mv: Mv { x, y: 3 }, flag: 0, mvd: still }
        };
        squares.push(SquareCoding { depth: 3, pred, has_levels: byte % 8 == 0 });
    }
    squares
}

impl Pictures {
    fn new(inter: bool, qp: u8) -> Pictures {
        let original = [samples_of(SIDE, 1), samples_of(SIDE / 2, 2), samples_of(SIDE / 2, 3)];
        let planes = [SIDE, SIDE / 2, SIDE / 2].map(|side| Plane {
            width: black_box(side),
            height: black_box(side),
            samples: vec![0; side * side],
        });
        Pictures { planes, original, squares: squares_of(inter), qp: black_box(qp) }
    }

    #[inline(never)]
    fn restore(&mut self) {
        for (plane, original) in self.planes.iter_mut().zip(&self.original) {
            plane.samples.copy_from_slice(original);
        }
    }

    fn sum(&self) -> u64 {
        let planes = self.planes.iter();
        let each = planes.flat_map(|plane| plane.samples.iter().step_by(SAMPLED));
        each.map(|&sample| u64::from(sample)).sum()
    }
}

// Each with its name, whether units are inter, and the quantiser: none where nothing is filtered.
const KERNELS: [(&str, bool, Option<u8>); 5] = [
    ("deblock_22", false, Some(22)),
    ("deblock_37", false, Some(37)),
    ("deblock_inter_22", true, Some(22)),
    ("deblock_inter_37", true, Some(37)),
    ("deblock_restore", false, None),
];

/// Runs the kernel of this name, or all, and prints a line for each.
pub fn print_checksums(name: &str, rounds: usize) {
    for (known, inter, qp) in KERNELS {
        if name != "all" && name != known {
            continue;
        }
        let mut pictures = Pictures::new(inter, qp.unwrap_or(0));
        let mut sum = 0u64;
        for _ in 0..rounds {
            for _ in 0..CALLS {
                pictures.restore();
                if qp.is_some() {
                    deblock(&mut pictures.planes, &pictures.squares, pictures.qp);
                }
                sum = sum.wrapping_add(black_box(&pictures).sum());
            }
        }
        println!("{known} {sum}");
    }
}
