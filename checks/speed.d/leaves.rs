//! Rebuilding of intra leaves in plain Rust, function by function as `hv_recon` has it.

use super::levels::sum_of;
use super::{inverse, predict_intra, scale};

const SIDE: usize = 64;
const QUANTISER: u8 = 26;
const CHROMA_QUANTISER: u8 = 26;

struct Edges {
    right: Vec<u8>,
    bottom: Vec<u8>,
}

struct View<'a> {
    side: usize,
    left: usize,
    top: usize,
    width: usize,
    height: usize,
    around: &'a Edges,
}

fn address_of(column: usize, row: usize) -> usize {
    column % 2
        + 2 * (row % 2)
        + 4 * (column / 2 % 2)
        + 8 * (row / 2 % 2)
        + 16 * (column / 4 % 2)
        + 32 * (row / 4 % 2)
}

fn column_of(address: usize) -> usize {
    address % 2 + 2 * (address / 4 % 2) + 4 * (address / 16 % 2)
}

fn row_of(address: usize) -> usize {
    address / 2 % 2 + 2 * (address / 8 % 2) + 4 * (address / 32 % 2)
}

impl View<'_> {
    fn look(&self, own: &[u8], address: usize, x: usize, y: usize) -> Option<u8> {
        let side = self.side;
        let (left, top) = (self.left + x, self.top + y);
        if left < side || top < side {
            return None;
        }
        if left - side >= self.width || top - side >= self.height {
            return None;
        }
        if x < side {
            if y < side {
                return self.around.bottom.get(side - 1).copied();
            }
            return self.around.right.get(y - side).copied();
        }
        if y < side {
            if x < 2 * side {
                return self.around.bottom.get(x - side).copied();
            }
            return self.around.bottom.get(x - 2 * side).copied();
        }
        let (x, y) = (x - side, y - side);
        if x < side && y < side && address_of(x / (side / 8), y / (side / 8)) < address {
            own.get(y * side + x).copied()
        } else {
            None
        }
    }

    fn line(&self, own: &[u8], address: usize, x: usize, y: usize, log2: u8) -> [Option<u8>; 129] {
        let n = 2 << log2;
        let (column, row) = (self.side + x, self.side + y);
        let mut line = [None; 129];
        for i in 0..n + 1 {
            line[i] = self.look(own, address, column - 1, row + (n - i) - 1);
        }
        for k in 0..n {
            line[n + 1 + k] = self.look(own, address, column + k, row - 1);
        }
        line
    }
}

/// What isn't available has the next one's sample, and all have 128 where none is.
fn substituted(known: &[Option<u8>]) -> [u8; 129] {
    let mut line = [128; 129];
    let mut last = known.iter().find_map(|sample| *sample).unwrap_or(128);
    for (place, sample) in line.iter_mut().zip(known) {
        last = sample.unwrap_or(last);
        *place = last;
    }
    line
}

fn add_residual<const COUNT: usize>(levels: &[i16], log2: u8, qp: u8, out: &mut [u8]) {
    let mut coefficients = [0; COUNT];
    let mut residual = [0; COUNT];
    scale(levels, log2, qp, &mut coefficients);
    inverse(&coefficients, log2, &mut residual);
    for (sample, number) in out.iter_mut().zip(&residual) {
        *sample = (i32::from(*sample) + i32::from(*number)).clamp(0, 255) as u8;
    }
}

#[allow(clippy::too_many_arguments)]
fn rebuild_block<const COUNT: usize>(
    view: &View<'_>,
    address: usize,
    x: usize,
    y: usize,
    log2: u8,
    mode: u8,
    levels: &[i16],
    samples: &mut [u8],
) {
    let luma = view.side == SIDE;
    let known = view.line(samples, address, x, y, log2);
    let line = substituted(&known[..4 * (1 << log2) + 1]);
    let mut block = [0; COUNT];
    predict_intra(&line[..4 * (1 << log2) + 1], log2, mode, luma, &mut block);
    if levels.iter().any(|level| *level != 0) {
        let qp = if luma { QUANTISER } else { CHROMA_QUANTISER };
        add_residual::<COUNT>(levels, log2, qp, &mut block);
    }
    let n = 1 << log2;
    for (row, part) in block.chunks_exact(n).enumerate() {
        let at = (y + row) * view.side + x;
        samples[at..at + n].copy_from_slice(part);
    }
}

struct Block {
    levels: [Vec<i16>; 3],
    samples: [Vec<u8>; 3],
}

fn rebuild_leaf(block: &mut Block, views: &[View<'_>; 3], address: usize, size: u8, mode: u8) {
    let (column, row) = (column_of(address), row_of(address));
    for component in 0..3 {
        let (step, per_square, log2) = match component {
            0 => (8, 64, size + 3),
            _ => (4, 16, size + 2),
        };
        let from = per_square * address;
        let levels = &block.levels[component][from..from + (1 << (2 * log2))];
        let samples = &mut block.samples[component];
        let view = &views[component];
        let (x, y) = (step * column, step * row);
        match log2 {
            2 => rebuild_block::<16>(view, address, x, y, 2, mode, levels, samples),
            3 => rebuild_block::<64>(view, address, x, y, 3, mode, levels, samples),
            4 => rebuild_block::<256>(view, address, x, y, 4, mode, levels, samples),
            _ => rebuild_block::<1024>(view, address, x, y, 5, mode, levels, samples),
        }
    }
}

fn noise_levels(count: usize, seed: u32) -> Vec<i16> {
    let mut state = seed;
    (0..count)
        .map(|_| {
            state = state.wrapping_mul(1664525).wrapping_add(1013904223);
            let byte = (state >> 24) as u8;
            if byte < 32 { i16::from(byte % 8) - 4 } else { 0 }
        })
        .collect()
}

fn slope(first: u8, step: u8, count: usize) -> Vec<u8> {
    (0..count)
        .map(|i| first.wrapping_add(step.wrapping_mul(i as u8)))
        .collect()
}

fn checksum(small: bool, rounds: usize) -> u64 {
    let edges = [(64, 3), (32, 5), (32, 7)].map(|(side, step)| Edges {
        right: slope(10, step, side),
        bottom: slope(200, step, side),
    });
    let view = |component: usize, side: usize| View {
        side,
        left: side,
        top: side,
        width: 2 * side,
        height: 2 * side,
        around: &edges[component],
    };
    let views = [view(0, 64), view(1, 32), view(2, 32)];
    let mut block = Block {
        levels: [
            noise_levels(4096, 5),
            noise_levels(1024, 6),
            noise_levels(1024, 7),
        ],
        samples: [vec![0; 4096], vec![0; 1024], vec![0; 1024]],
    };
    let mut sum = 0u64;
    for _ in 0..rounds {
        for _ in 0..64 {
            if small {
                for address in 0..64 {
                    rebuild_leaf(&mut block, &views, address, 0, (address * 11 % 35) as u8);
                }
            } else {
                rebuild_leaf(&mut block, &views, 16, 2, 11);
            }
            sum = sum.wrapping_add(sum_of(&block.samples[0]));
            sum = sum.wrapping_add(sum_of(&block.samples[1]));
        }
    }
    sum
}

pub fn print_checksums(name: &str, rounds: usize) {
    for (known, small) in [("rebuild_leaf_8", true), ("rebuild_leaf_32", false)] {
        if name == "all" || name == known {
            println!("{known} {}", checksum(small, rounds));
        }
    }
}
