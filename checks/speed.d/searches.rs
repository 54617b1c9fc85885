//! Motion search of a picture in plain Rust, stage by stage as the proved program has it, and the
//! full stage by hand, with the processor's own operations. Nothing of it is shipped.
#![allow(unsafe_op_in_unsafe_fn)]

use crate::{decimate, sad_block, LUMA_TAPS};
use std::hint::black_box;

#[path = "hand_search.rs"]
mod hand_search;

const WIDTH: usize = 416;
const HEIGHT: usize = 240;

// ---- the pictures

fn lattice(column: u32, row: u32, seed: u32) -> u32 {
    let mut state = column
        .wrapping_mul(374761393)
        .wrapping_add(row.wrapping_mul(668265263))
        .wrapping_add(seed.wrapping_mul(974711));
    state = (state ^ (state >> 13)).wrapping_mul(1274126177);
    (state ^ (state >> 16)) >> 24
}

fn noise(x: u32, y: u32, scale: u32, seed: u32) -> u32 {
    let step = 1 << scale;
    let (column, row) = (x >> scale, y >> scale);
    let (across, down) = (x % step, y % step);
    let between = |row| {
        lattice(column, row, seed) * (step - across) + lattice(column + 1, row, seed) * across
    };
    (between(row) * (step - down) + between(row + 1) * down) >> scale >> scale
}

fn sample_of(x: u32, y: u32, seed: u32) -> u8 {
    let scales = [(6, 128), (5, 64), (4, 32), (3, 16), (2, 8), (0, 8)];
    let sum: u32 = scales
        .iter()
        .map(|&(scale, weight)| noise(x, y, scale, seed) * weight)
        .sum();
    (sum >> 8) as u8
}

fn first_picture() -> Vec<u8> {
    (0..WIDTH * HEIGHT)
        .map(|k| sample_of((k % WIDTH) as u32, (k / WIDTH) as u32, 1))
        .collect()
}

fn second_picture(first: &[u8]) -> Vec<u8> {
    let sample = |k: usize| {
        let square = k % WIDTH / 32 + k / WIDTH / 32;
        let at = k + 21 + square % 4 + WIDTH * (9 + square % 3);
        let next = at + square % 2 + WIDTH * (square / 2 % 2);
        let [first, second] = [at, next].map(|at| first.get(at).copied().unwrap_or(128));
        first / 2 + second / 2
    };
    (0..WIDTH * HEIGHT).map(sample).collect()
}

// ---- windows

#[derive(Clone, Copy)]
struct Grid<'a> {
    samples: &'a [u8],
    width: usize,
    height: usize,
}

#[inline(never)]
fn copy_window(grid: Grid, x: i64, y: i64, side: usize, out: &mut [u8]) {
    for (j, row) in out.chunks_exact_mut(side).enumerate() {
        let from = (y + j as i64).clamp(0, grid.height as i64 - 1) as usize;
        let from = &grid.samples[from * grid.width..(from + 1) * grid.width];
        for (i, sample) in row.iter_mut().enumerate() {
            *sample = from[(x + i as i64).clamp(0, grid.width as i64 - 1) as usize];
        }
    }
}

fn quarter_samples(grid: Grid) -> Vec<u8> {
    let columns = grid.width / 4;
    let mut samples = vec![0; columns * (grid.height / 4)];
    for (y, row) in samples.chunks_exact_mut(columns).enumerate() {
        let rows = &grid.samples[4 * y * grid.width..(4 * y + 4) * grid.width];
        decimate(rows, grid.width, row);
    }
    samples
}

// ---- the coarse stage

#[inline(never)]
fn coarse_sum<const N: usize>(source: &[u8], rows: usize, window: &[u8]) -> u32 {
    let mut sum = 0;
    for j in 0..rows {
        let first: &[u8; N] = source[16 * j..16 * j + N].try_into().unwrap();
        let second: &[u8; N] = window[48 * j..48 * j + N].try_into().unwrap();
        for i in 0..N {
            sum += (i32::from(first[i]) - i32::from(second[i])).unsigned_abs();
        }
    }
    sum
}

fn coarse_vector(input: Grid, reference: Grid, left: usize, top: usize) -> (i16, i16) {
    let columns = (input.width - left).min(16);
    let rows = (input.height - top).min(16);
    let mut source = [0; 256];
    for j in 0..rows {
        let from = (top + j) * input.width + left;
        source[16 * j..16 * j + columns].copy_from_slice(&input.samples[from..from + columns]);
    }
    let mut window = [0; 2304];
    copy_window(
        reference,
        left as i64 - 16,
        top as i64 - 16,
        48,
        &mut window,
    );
    let sum_at = |at: usize| match columns {
        16 => coarse_sum::<16>(&source, rows, &window[at..]),
        14 => coarse_sum::<14>(&source, rows, &window[at..]),
        12 => coarse_sum::<12>(&source, rows, &window[at..]),
        10 => coarse_sum::<10>(&source, rows, &window[at..]),
        8 => coarse_sum::<8>(&source, rows, &window[at..]),
        6 => coarse_sum::<6>(&source, rows, &window[at..]),
        4 => coarse_sum::<4>(&source, rows, &window[at..]),
        _ => coarse_sum::<2>(&source, rows, &window[at..]),
    };
    let mut best = (sum_at(48 * 16 + 16), 0, 0);
    for down in 0..33 {
        for right in 0..33 {
            let sum = sum_at(48 * down + right);
            if sum < best.0 {
                best = (sum, right as i16 - 16, down as i16 - 16);
            }
        }
    }
    (best.1, best.2)
}

// ---- the full stage

const NODES: usize = 85;
pub const SIDE: usize = 80;

// Rows of fixed length without a test of bounds: faster here than with it, and than rows in pairs.
#[inline(never)]
unsafe fn sad_8(source: *const u8, window: *const u8) -> u32 {
    let mut sum = 0;
    for y in 0..8 {
        let first = &*(source.add(y * SIDE) as *const [u8; 8]);
        let second = &*(window.add(y * SIDE) as *const [u8; 8]);
        for x in 0..8 {
            sum += (i32::from(first[x]) - i32::from(second[x])).unsigned_abs();
        }
    }
    sum
}

// Nodes by rows: 64 of 8x8, 16 of 16x16, 4 of 32x32 and that of 64x64.
fn put_larger(sums: &mut [u32; NODES]) {
    for (first, before, side) in [(64, 0, 8), (80, 64, 4), (84, 80, 2)] {
        for n in 0..side / 2 * (side / 2) {
            let at = before + 2 * (n / (side / 2)) * side + 2 * (n % (side / 2));
            sums[first + n] = sums[at] + sums[at + 1] + sums[at + side] + sums[at + side + 1];
        }
    }
}

#[inline(never)]
fn full_keys(source: &[u8; SIDE * SIDE], window: &[u8; SIDE * SIDE], keys: &mut [u32; NODES]) {
    *keys = [u32::MAX; NODES];
    for place in 0..289 {
        let (dx, dy) = (place % 17, place / 17);
        let number = if place == 144 { 0 } else { place as u32 + 1 };
        let mut sums = [0; NODES];
        for row in 0..8 {
            for column in 0..8 {
                let at = 8 * row * SIDE + 8 * column;
                // at most 72 + 16 rows of 80 and as many columns
                sums[8 * row + column] = unsafe {
                    sad_8(
                        source.as_ptr().add(at),
                        window.as_ptr().add(at + dy * SIDE + dx),
                    )
                };
            }
        }
        put_larger(&mut sums);
        for n in 0..NODES {
            keys[n] = keys[n].min(sums[n] * 512 + number);
        }
    }
}

// ---- fractions

// A block, nine samples before it and eight behind it at sixteen fractions: for each 81 rows of 96.
const COLUMNS: usize = 96;
const ROWS: usize = 81;
const AREA: usize = ROWS * COLUMNS;
const WINDOW: usize = 104;

#[inline(never)]
fn sums_along_rows(taps: &[i16; 8], window: &[u8], sums: &mut [i16]) {
    for (row, out) in window
        .chunks_exact(WINDOW)
        .zip(sums.chunks_exact_mut(COLUMNS))
    {
        let row: &[u8; WINDOW] = row.try_into().unwrap();
        let out: &mut [i16; COLUMNS] = out.try_into().unwrap();
        for x in 0..COLUMNS {
            let mut sum = 0;
            for k in 0..8 {
                sum += taps[k] * i16::from(row[x + k]);
            }
            out[x] = sum;
        }
    }
}

#[inline(never)]
fn samples_down_columns(taps: &[i16; 8], sums: &[i16], out: &mut [u8]) {
    for (y, out) in out.chunks_exact_mut(COLUMNS).enumerate() {
        let rows: &[i16; 8 * COLUMNS] = sums[y * COLUMNS..(y + 8) * COLUMNS].try_into().unwrap();
        let out: &mut [u8; COLUMNS] = out.try_into().unwrap();
        for x in 0..COLUMNS {
            let mut sum = 0;
            for k in 0..8 {
                sum += i32::from(taps[k]) * i32::from(rows[k * COLUMNS + x]);
            }
            out[x] = (((sum >> 6) + 32) >> 6).clamp(0, 255) as u8;
        }
    }
}

// The rows along which no fraction lies between: their sums are only rounded.
#[inline(never)]
fn rounded_sums(sums: &[i16], out: &mut [u8]) {
    for (sum, sample) in sums[3 * COLUMNS..].iter().zip(out) {
        *sample = ((sum + 32) >> 6).clamp(0, 255) as u8;
    }
}

// The samples at all fractions around a block that is moved by a vector in whole samples.
fn put_field(reference: Grid, left: i64, top: i64, field: &mut [u8]) {
    let mut window = [0; WINDOW * WINDOW];
    copy_window(reference, left - 12, top - 12, WINDOW, &mut window);
    let mut sums = [0; 88 * COLUMNS];
    for right in 0..4 {
        sums_along_rows(&LUMA_TAPS[right], &window, &mut sums);
        for below in 0..4 {
            let at = (4 * right + below) * AREA;
            let out = &mut field[at..at + AREA];
            match below {
                0 => rounded_sums(&sums, out),
                _ => samples_down_columns(&LUMA_TAPS[below], &sums, out),
            }
        }
    }
}

fn sad_of(first: &[u8], first_stride: usize, second: &[u8], stride: usize, side: usize) -> u32 {
    match side {
        8 => sad_block::<8>(first, first_stride, second, stride),
        16 => sad_block::<16>(first, first_stride, second, stride),
        32 => sad_block::<32>(first, first_stride, second, stride),
        _ => sad_block::<64>(first, first_stride, second, stride),
    }
}

// A vector around another one, place `t` of nine by rows.
fn candidate(centre: (i16, i16), step: i16, t: usize) -> (i16, i16) {
    let (right, down) = ((t % 3) as i16, (t / 3) as i16);
    (
        centre.0 + step * right - step,
        centre.1 + step * down - step,
    )
}

// A node of a block: its column and row there, its side, and the input from its first sample on.
struct Node<'a> {
    column: usize,
    row: usize,
    side: usize,
    source: &'a [u8],
    stride: usize,
}

// The score of a vector from the field, which begins nine samples before the vector `centre`.
fn sum_at(node: &Node, field: &[u8], centre: (i16, i16), mv: (i16, i16)) -> u32 {
    let column = ((mv.0 >> 2) - (centre.0 - 9)) as usize + node.column;
    let row = ((mv.1 >> 2) - (centre.1 - 9)) as usize + node.row;
    let fraction = 4 * (mv.0 & 3) as usize + (mv.1 & 3) as usize;
    let samples = &field[fraction * AREA + row * COLUMNS + column..];
    sad_of(node.source, node.stride, samples, COLUMNS, node.side)
}

// The best of a vector and the eight around it, the vector first.
fn least_around(
    node: &Node,
    field: &[u8],
    centre: (i16, i16),
    around: (i16, i16),
    step: i16,
) -> (i16, i16) {
    let mut best = (sum_at(node, field, centre, around), around);
    for t in [0, 1, 2, 3, 5, 6, 7, 8] {
        let mv = candidate(around, step, t);
        let sum = sum_at(node, field, centre, mv);
        if sum < best.0 {
            best = (sum, mv);
        }
    }
    best.1
}

// ---- a picture

// The side of a node, and its column and row in the block.
fn node(n: usize) -> (usize, usize, usize) {
    match n {
        0..64 => (8, n % 8 * 8, n / 8 * 8),
        64..80 => (16, n % 4 * 16, (n - 64) / 4 * 16),
        80..84 => (32, n % 2 * 32, (n - 80) / 2 * 32),
        _ => (64, 0, 0),
    }
}

type Vectors = [Option<(i16, i16)>; NODES];

fn block_vectors(
    effort: u8,
    by_hand: bool,
    grids: (Grid, Grid),
    quarters: (Grid, Grid),
    x: usize,
    y: usize,
    field: &mut [u8],
) -> Vectors {
    let (input, reference) = grids;
    let (right, down) = coarse_vector(quarters.0, quarters.1, x / 4, y / 4);
    let centre = (4 * right, 4 * down);
    let (left, top) = (
        x as i64 + i64::from(centre.0),
        y as i64 + i64::from(centre.1),
    );
    let mut source = [0; SIDE * SIDE];
    copy_window(input, x as i64, y as i64, SIDE, &mut source);
    let mut window = [0; SIDE * SIDE];
    copy_window(reference, left - 8, top - 8, SIDE, &mut window);
    let mut keys = [0; NODES];
    if by_hand {
        hand_search::full_keys(&source, &window, &mut keys);
    } else {
        full_keys(&source, &window, &mut keys);
    }
    if effort > 1 {
        put_field(reference, left, top, field);
    }
    let mut vectors = [None; NODES];
    for n in 0..NODES {
        let (side, column, row) = node(n);
        let (x, y) = (x + column, y + row);
        if x + side > input.width || y + side > input.height {
            continue;
        }
        let number = keys[n] % 512;
        let place = if number == 0 { 144 } else { number - 1 };
        let full = (
            4 * (centre.0 + (place % 17) as i16 - 8),
            4 * (centre.1 + (place / 17) as i16 - 8),
        );
        vectors[n] = Some(match effort {
            1 => full,
            _ => {
                let source = &input.samples[y * input.width + x..];
                let stride = input.width;
                let node = Node {
                    column,
                    row,
                    side,
                    source,
                    stride,
                };
                let half = least_around(&node, field, centre, full, 2);
                least_around(&node, field, centre, half, 1)
            }
        });
    }
    vectors
}

#[inline(never)]
fn search_picture(effort: u8, by_hand: bool, input: Grid, reference: Grid) -> Vec<Vectors> {
    let (small_input, small_reference) = (quarter_samples(input), quarter_samples(reference));
    let small = |samples| Grid {
        samples,
        width: input.width / 4,
        height: input.height / 4,
    };
    let quarters = (small(&small_input), small(&small_reference));
    let mut field = vec![0; if effort > 1 { 16 * AREA } else { 0 }];
    let mut vectors = Vec::new();
    for y in (0..input.height).step_by(64) {
        for x in (0..input.width).step_by(64) {
            vectors.push(block_vectors(
                effort,
                by_hand,
                (input, reference),
                quarters,
                x,
                y,
                &mut field,
            ));
        }
    }
    vectors
}

fn number_of(mv: Option<(i16, i16)>) -> u64 {
    mv.map_or(0, |(x, y)| {
        let x = u64::from(x.unsigned_abs()) * 7 + u64::from(x < 0);
        let y = u64::from(y.unsigned_abs()) * 5 + u64::from(y < 0);
        1 + 3 * x + y
    })
}

fn sum_of_vectors(blocks: &[Vectors]) -> u64 {
    let mut sum = 0u64;
    for vectors in blocks {
        for place in 0..256 {
            let (x, y) = (place % 8, place / 8 % 8);
            let n = match place / 64 {
                0 => 84,
                1 => 80 + y / 4 * 2 + x / 4,
                2 => 64 + y / 2 * 4 + x / 2,
                _ => 8 * y + x,
            };
            sum = sum.wrapping_mul(31).wrapping_add(number_of(vectors[n]));
        }
    }
    sum
}

const SEARCH_KERNELS: [(&str, u8); 2] = [("search_1", 1), ("search_2", 2)];

pub fn print_checksums(name: &str, by_hand: bool, rounds: usize) {
    for (known, effort) in SEARCH_KERNELS {
        if name != "all" && name != known {
            continue;
        }
        let first = first_picture();
        let second = second_picture(&first);
        let (width, height) = (black_box(WIDTH), black_box(HEIGHT));
        let grid = |samples| Grid {
            samples,
            width,
            height,
        };
        let mut sum = 0u64;
        for _ in 0..rounds {
            let blocks = search_picture(black_box(effort), by_hand, grid(&second), grid(&first));
            sum = sum.wrapping_add(sum_of_vectors(&blocks));
        }
        println!("{known} {sum}");
    }
}
