//! The levels of a transform block, put into the arithmetic encoder and counted, as
//! `crates/hv_residual` does it, function by function, in plain Rust.
use crate::cabac::Encoder;
use std::hint::black_box;

const CALLS: usize = 64;
const SAMPLED: usize = 16;
const QUANTISER: u8 = 26;

// The places of the tables among all context variables.
const LAST_X: usize = 28;
const LAST_Y: usize = 46;
const CODED_SUB: usize = 64;
const SIG: usize = 68;
const GREATER_1: usize = 110;
const GREATER_2: usize = 134;

// ---- scans and contexts

#[derive(Clone, Copy)]
pub enum Scan {
    Diagonal,
    Horizontal,
    Vertical,
}

#[derive(Clone, Copy)]
pub struct Block {
    pub scan: Scan,
    pub log2: u8,
    pub luma: bool,
}

#[derive(Clone, Copy)]
struct Spot {
    x: u8,
    y: u8,
}

// By the mode of intra prediction, where the unit has one.
#[inline(always)]
pub fn scan_of(mode: Option<u8>, log2: u8, luma: bool) -> Scan {
    if log2 > 3 || (log2 == 3 && !luma) {
        return Scan::Diagonal;
    }
    match mode {
        Some(6..=14) => Scan::Vertical,
        Some(22..=30) => Scan::Horizontal,
        _ => Scan::Diagonal,
    }
}

static ONLY: [u8; 1] = [0];

#[rustfmt::skip]
static DIAGONAL_2: [u8; 4] = [
     0,  8,  1,  9,
];

#[rustfmt::skip]
static DIAGONAL_4: [u8; 16] = [
     0,  8,  1, 16,  9,  2, 24, 17,
    10,  3, 25, 18, 11, 26, 19, 27,
];

#[rustfmt::skip]
static DIAGONAL_8: [u8; 64] = [
     0,  8,  1, 16,  9,  2, 24, 17,
    10,  3, 32, 25, 18, 11,  4, 40,
    33, 26, 19, 12,  5, 48, 41, 34,
    27, 20, 13,  6, 56, 49, 42, 35,
    28, 21, 14,  7, 57, 50, 43, 36,
    29, 22, 15, 58, 51, 44, 37, 30,
    23, 59, 52, 45, 38, 31, 60, 53,
    46, 39, 61, 54, 47, 62, 55, 63,
];

#[rustfmt::skip]
static HORIZONTAL_2: [u8; 4] = [
     0,  1,  8,  9,
];

#[rustfmt::skip]
static HORIZONTAL_4: [u8; 16] = [
     0,  1,  2,  3,  8,  9, 10, 11,
    16, 17, 18, 19, 24, 25, 26, 27,
];

#[rustfmt::skip]
static HORIZONTAL_8: [u8; 64] = [
     0,  1,  2,  3,  4,  5,  6,  7,
     8,  9, 10, 11, 12, 13, 14, 15,
    16, 17, 18, 19, 20, 21, 22, 23,
    24, 25, 26, 27, 28, 29, 30, 31,
    32, 33, 34, 35, 36, 37, 38, 39,
    40, 41, 42, 43, 44, 45, 46, 47,
    48, 49, 50, 51, 52, 53, 54, 55,
    56, 57, 58, 59, 60, 61, 62, 63,
];

#[rustfmt::skip]
static VERTICAL_2: [u8; 4] = [
     0,  8,  1,  9,
];

#[rustfmt::skip]
static VERTICAL_4: [u8; 16] = [
     0,  8, 16, 24,  1,  9, 17, 25,
     2, 10, 18, 26,  3, 11, 19, 27,
];

#[rustfmt::skip]
static VERTICAL_8: [u8; 64] = [
     0,  8, 16, 24, 32, 40, 48, 56,
     1,  9, 17, 25, 33, 41, 49, 57,
     2, 10, 18, 26, 34, 42, 50, 58,
     3, 11, 19, 27, 35, 43, 51, 59,
     4, 12, 20, 28, 36, 44, 52, 60,
     5, 13, 21, 29, 37, 45, 53, 61,
     6, 14, 22, 30, 38, 46, 54, 62,
     7, 15, 23, 31, 39, 47, 55, 63,
];

#[rustfmt::skip]
static OF_SIDE_4: [[u8; 16]; 3] = [
    /* diagonal   */ [0, 2, 1, 6, 3, 4, 7, 6, 4, 5, 7, 8, 5, 8, 8, 0],
    /* horizontal */ [0, 1, 4, 5, 2, 3, 4, 5, 6, 6, 8, 8, 7, 7, 8, 0],
    /* vertical   */ [0, 2, 6, 7, 1, 3, 6, 7, 4, 4, 8, 8, 5, 5, 8, 0],
];

#[rustfmt::skip]
static OF_NEITHER: [[u8; 16]; 3] = [
    /* diagonal   */ [2, 1, 1, 1, 1, 1, 0, 0, 0, 0, 0, 0, 0, 0, 0, 0],
    /* horizontal */ [2, 1, 1, 0, 1, 1, 0, 0, 1, 0, 0, 0, 0, 0, 0, 0],
    /* vertical   */ [2, 1, 1, 0, 1, 1, 0, 0, 1, 0, 0, 0, 0, 0, 0, 0],
];

#[rustfmt::skip]
static OF_RIGHT: [[u8; 16]; 3] = [
    /* diagonal   */ [2, 1, 2, 0, 1, 2, 0, 0, 1, 2, 0, 0, 1, 0, 0, 0],
    /* horizontal */ [2, 2, 2, 2, 1, 1, 1, 1, 0, 0, 0, 0, 0, 0, 0, 0],
    /* vertical   */ [2, 1, 0, 0, 2, 1, 0, 0, 2, 1, 0, 0, 2, 1, 0, 0],
];

#[rustfmt::skip]
static OF_BELOW: [[u8; 16]; 3] = [
    /* diagonal   */ [2, 2, 1, 2, 1, 0, 2, 1, 0, 0, 1, 0, 0, 0, 0, 0],
    /* horizontal */ [2, 1, 0, 0, 2, 1, 0, 0, 2, 1, 0, 0, 2, 1, 0, 0],
    /* vertical   */ [2, 2, 2, 2, 1, 1, 1, 1, 0, 0, 0, 0, 0, 0, 0, 0],
];

static OF_BOTH: [u8; 16] = [2; 16];

#[inline(always)]
fn order(scan: Scan, log2: u8) -> &'static [u8] {
    match (scan, log2) {
        (_, 0) => &ONLY,
        (Scan::Diagonal, 1) => &DIAGONAL_2,
        (Scan::Diagonal, 2) => &DIAGONAL_4,
        (Scan::Diagonal, _) => &DIAGONAL_8,
        (Scan::Horizontal, 1) => &HORIZONTAL_2,
        (Scan::Horizontal, 2) => &HORIZONTAL_4,
        (Scan::Horizontal, _) => &HORIZONTAL_8,
        (Scan::Vertical, 1) => &VERTICAL_2,
        (Scan::Vertical, 2) => &VERTICAL_4,
        (Scan::Vertical, _) => &VERTICAL_8,
    }
}

#[inline(always)]
fn place_in(scan: Scan, log2: u8, number: u8) -> Spot {
    let place = order(scan, log2)[usize::from(number)];
    Spot {
        x: place % 8,
        y: place / 8,
    }
}

#[inline(always)]
fn sub_block(block: Block, s: u8) -> Spot {
    place_in(block.scan, block.log2 - 2, s)
}

#[inline(always)]
fn of_scan(table: &'static [[u8; 16]; 3], scan: Scan) -> &'static [u8; 16] {
    match scan {
        Scan::Diagonal => &table[0],
        Scan::Horizontal => &table[1],
        Scan::Vertical => &table[2],
    }
}

#[inline(always)]
fn of_neighbours(scan: Scan, right: bool, below: bool) -> &'static [u8; 16] {
    match (right, below) {
        (false, false) => of_scan(&OF_NEITHER, scan),
        (true, false) => of_scan(&OF_RIGHT, scan),
        (false, true) => of_scan(&OF_BELOW, scan),
        (true, true) => &OF_BOTH,
    }
}

#[inline(always)]
fn addend(block: Block, corner: Spot) -> u8 {
    if !block.luma {
        return if block.log2 == 3 { 9 } else { 12 };
    }
    let place = if corner.x + corner.y > 0 { 3 } else { 0 };
    let greatest = if matches!(block.scan, Scan::Diagonal) {
        9
    } else {
        15
    };
    place + if block.log2 == 3 { greatest } else { 21 }
}

#[inline(always)]
fn sig_ctx(block: Block, corner: Spot, right: bool, below: bool, i: u8) -> u8 {
    if block.log2 == 2 {
        return of_scan(&OF_SIDE_4, block.scan)[usize::from(i)];
    }
    if corner.x + corner.y + i == 0 {
        return 0;
    }
    of_neighbours(block.scan, right, below)[usize::from(i)] + addend(block, corner)
}

#[inline(always)]
fn sig_context(block: Block, corner: Spot, right: bool, below: bool, i: u8) -> usize {
    let component = if block.luma { 0 } else { 27 };
    SIG + usize::from(component + sig_ctx(block, corner, right, below, i))
}

// ---- levels of a sub-block, and the last one of a block

#[inline(always)]
fn are_zero(levels: &[i16], at: usize) -> bool {
    levels[at..at + 4] == [0; 4]
}

#[inline(always)]
fn is_clear(levels: &[i16], block: Block, corner: Spot) -> bool {
    let is_clear_row = |y: u8| {
        let row = usize::from(4 * corner.y + y) << block.log2;
        are_zero(levels, row + usize::from(4 * corner.x))
    };
    (is_clear_row(0) & is_clear_row(1)) & (is_clear_row(2) & is_clear_row(3))
}

#[inline(always)]
fn by_rows(levels: &[i16], block: Block, corner: Spot) -> [i16; 28] {
    let mut rows = [0; 28];
    for (y, row) in rows.chunks_mut(8).enumerate() {
        let at = ((4 * usize::from(corner.y) + y) << block.log2) + 4 * usize::from(corner.x);
        row[..4].copy_from_slice(&levels[at..at + 4]);
    }
    rows
}

#[inline(always)]
fn gather(levels: &[i16], block: Block, s: u8) -> [i16; 16] {
    let corner = sub_block(block, s);
    let mut all = [0; 16];
    if is_clear(levels, block, corner) {
        return all;
    }
    let rows = by_rows(levels, block, corner);
    for (level, &place) in all.iter_mut().zip(order(block.scan, 2).iter().rev()) {
        *level = rows[usize::from(place)];
    }
    all
}

#[inline(always)]
fn zeros_before(levels: &[i16]) -> usize {
    let first = levels.iter().position(|&level| level != 0);
    first.unwrap_or(levels.len())
}

#[inline(always)]
pub fn any_significant(levels: &[i16]) -> bool {
    levels.iter().any(|&level| level != 0)
}

#[derive(Clone, Copy)]
struct Last {
    sub_block: u8,
    position: u8,
}

#[inline(always)]
fn find_last(levels: &[i16], block: Block) -> Last {
    for s in (0..1u8 << (2 * (block.log2 - 2))).rev() {
        let zeros = zeros_before(&gather(levels, block, s));
        if zeros < 16 {
            return Last {
                sub_block: s,
                position: 15 - zeros as u8,
            };
        }
    }
    Last {
        sub_block: 0,
        position: 0,
    }
}

#[inline(always)]
fn nonzero_levels(levels: &[i16], all: &mut [u16; 16], negative: &mut [bool; 16]) -> usize {
    let mut count = 0;
    for &level in levels {
        all[count] = level.unsigned_abs();
        negative[count] = level < 0;
        count += usize::from(level != 0);
    }
    count
}

// ---- the last position

#[rustfmt::skip]
static PREFIXES: [u8; 32] = [
    0, 1, 2, 3, 4, 4, 5, 5, 6, 6, 6, 6, 7, 7, 7, 7,
    8, 8, 8, 8, 8, 8, 8, 8, 9, 9, 9, 9, 9, 9, 9, 9,
];

#[inline(always)]
fn prefix_of(coordinate: u8) -> u8 {
    PREFIXES[usize::from(coordinate)]
}

#[inline(always)]
fn suffix_length(prefix: u8) -> u8 {
    (prefix / 2).saturating_sub(1)
}

#[inline(always)]
fn first_of_prefix(prefix: u8) -> u32 {
    if prefix > 3 {
        u32::from(2 + prefix % 2) << suffix_length(prefix)
    } else {
        u32::from(prefix)
    }
}

#[inline(always)]
fn last_context(table: usize, block: Block, bin: u8) -> usize {
    let log2 = block.log2;
    let (offset, shift) = if block.luma {
        (3 * (log2 - 2) + (log2 - 1) / 4, (log2 + 1) / 4)
    } else {
        (15, log2 - 2)
    };
    table + usize::from((bin >> shift) + offset)
}

#[inline(always)]
fn put_prefix(encoder: &mut Encoder, table: usize, block: Block, prefix: u8) {
    for bin in 0..prefix {
        encoder.bin(last_context(table, block, bin), true);
    }
    if prefix < 2 * block.log2 - 1 {
        encoder.bin(last_context(table, block, prefix), false);
    }
}

#[inline(always)]
fn put_suffix(encoder: &mut Encoder, coordinate: u8) {
    let prefix = prefix_of(coordinate);
    let above = u32::from(coordinate) - first_of_prefix(prefix);
    put_fixed_length(encoder, suffix_length(prefix), above);
}

#[inline(always)]
fn coded_position(block: Block, last: Last) -> Spot {
    let corner = sub_block(block, last.sub_block);
    let place = place_in(block.scan, 2, last.position);
    let x = 4 * corner.x + place.x;
    let y = 4 * corner.y + place.y;
    match block.scan {
        Scan::Diagonal | Scan::Horizontal => Spot { x, y },
        Scan::Vertical => Spot { x: y, y: x },
    }
}

#[inline(always)]
fn put_last(encoder: &mut Encoder, block: Block, last: Last) {
    let position = coded_position(block, last);
    put_prefix(encoder, LAST_X, block, prefix_of(position.x));
    put_prefix(encoder, LAST_Y, block, prefix_of(position.y));
    put_suffix(encoder, position.x);
    put_suffix(encoder, position.y);
}

// ---- binarizations

#[inline(always)]
pub fn put_fixed_length(encoder: &mut Encoder, length: u8, value: u32) {
    for digit in (0..length).rev() {
        encoder.bypass((value >> digit) % 2 == 1);
    }
}

pub fn put_exp_golomb(encoder: &mut Encoder, k: u8, value: u32) {
    let mut order = k;
    let mut rest = value;
    while rest >= 1 << order {
        encoder.bypass(true);
        rest -= 1 << order;
        order += 1;
    }
    encoder.bypass(false);
    put_fixed_length(encoder, order, rest);
}

#[inline(always)]
fn put_remaining_prefix(encoder: &mut Encoder, prefix: u32) {
    for _ in 0..prefix {
        encoder.bypass(true);
    }
    if prefix < 4 {
        encoder.bypass(false);
    }
}

fn put_remaining(encoder: &mut Encoder, k: u8, value: u32) {
    let prefix = value >> k;
    if prefix < 4 {
        put_remaining_prefix(encoder, prefix);
        put_fixed_length(encoder, k, value);
    } else {
        put_remaining_prefix(encoder, 4);
        put_exp_golomb(encoder, k + 1, value - (4 << k));
    }
}

// ---- sub-blocks

#[inline(always)]
fn put_significance(
    encoder: &mut Encoder,
    block: Block,
    corner: Spot,
    right: bool,
    below: bool,
    levels: &[i16],
    sure: bool,
) {
    let mut still = sure;
    let mut left = levels.len() as u8;
    for &level in levels {
        left -= 1;
        let flag = level != 0;
        if !(still && left == 0) {
            encoder.bin(sig_context(block, corner, right, below, left), flag);
        }
        still = still && !flag;
    }
}

#[inline(always)]
fn ctx_set(block: Block, s: u8, had_greater1: bool) -> u8 {
    let set = if s == 0 || !block.luma { 0 } else { 2 };
    set + u8::from(had_greater1)
}

#[inline(always)]
fn put_greater1(encoder: &mut Encoder, block: Block, set: u8, magnitudes: &[u16]) {
    let component = if block.luma { 0 } else { 16 };
    let mut greater1_ctx = 1u8;
    for &magnitude in magnitudes.iter().take(8) {
        let flag = magnitude > 1;
        let index = 4 * set + greater1_ctx.min(3) + component;
        encoder.bin(GREATER_1 + usize::from(index), flag);
        greater1_ctx = if flag || greater1_ctx == 0 {
            0
        } else {
            greater1_ctx + 1
        };
    }
}

#[inline(always)]
fn first_above_1(magnitudes: &[u16]) -> u16 {
    let above = |&&magnitude: &&u16| magnitude > 1;
    magnitudes.iter().take(8).find(above).copied().unwrap_or(0)
}

#[inline(always)]
fn put_greater2(encoder: &mut Encoder, block: Block, set: u8, first: u16) {
    let component = if block.luma { 0 } else { 4 };
    if first > 1 {
        encoder.bin(GREATER_2 + usize::from(set + component), first > 2);
    }
}

#[derive(Clone, Copy)]
struct Base {
    base_level: u16,
    has_remaining: bool,
}

#[inline(always)]
fn base_of(left: u8, first: bool, greater2: bool, flag: bool) -> Base {
    let (base_level, has_remaining) = match (left, flag, first) {
        (0, _, _) => (1, true),
        (_, false, _) => (1, false),
        (_, true, false) => (2, true),
        (_, true, true) if greater2 => (3, true),
        (_, true, true) => (2, false),
    };
    Base {
        base_level,
        has_remaining,
    }
}

#[inline(always)]
fn rice_behind(rice: u8, magnitude: u16, base: Base) -> u8 {
    if base.has_remaining && u32::from(magnitude) > 3 << rice {
        return u8::min(4, rice + 1);
    }
    rice
}

#[inline(always)]
fn put_all_remaining(encoder: &mut Encoder, magnitudes: &[u16], greater2: bool) {
    let mut rice = 0;
    let mut left = 8u8;
    let mut first = true;
    for &magnitude in magnitudes {
        let flag = magnitude > 1;
        let base = base_of(left, first, greater2, flag);
        if base.has_remaining {
            put_remaining(encoder, rice, u32::from(magnitude - base.base_level));
        }
        rice = rice_behind(rice, magnitude, base);
        first = first && !(flag && left > 0);
        left = left.saturating_sub(1);
    }
}

#[inline(always)]
fn put_levels(encoder: &mut Encoder, block: Block, set: u8, had: bool, levels: &[i16]) -> bool {
    let mut all = [0; 16];
    let mut negative = [false; 16];
    let count = nonzero_levels(levels, &mut all, &mut negative);
    let magnitudes = &all[..count];
    let first = first_above_1(magnitudes);
    put_greater1(encoder, block, set, magnitudes);
    put_greater2(encoder, block, set, first);
    for &sign in &negative[..count] {
        encoder.bypass(sign);
    }
    put_all_remaining(encoder, magnitudes, first > 2);
    if count == 0 {
        had
    } else {
        first > 1
    }
}

struct Coded {
    flags: [bool; 81],
    had_greater1: bool,
}

impl Coded {
    #[inline(always)]
    fn flag(&self, x: u8, y: u8) -> bool {
        self.flags[9 * usize::from(y) + usize::from(x)]
    }

    #[inline(always)]
    fn set(&mut self, corner: Spot, flag: bool, had_greater1: bool) {
        self.flags[9 * usize::from(corner.y) + usize::from(corner.x)] = flag;
        self.had_greater1 = had_greater1;
    }
}

#[inline(always)]
fn put_sub_block(encoder: &mut Encoder, levels: &[i16], block: Block, s: u8, coded: &mut Coded) {
    let these = gather(levels, block, s);
    let corner = sub_block(block, s);
    let right = coded.flag(corner.x + 1, corner.y);
    let below = coded.flag(corner.x, corner.y + 1);
    let any = any_significant(&these);
    if s > 0 {
        let component = if block.luma { 0 } else { 2 };
        let neighbours = usize::from(right || below);
        encoder.bin(CODED_SUB + component + neighbours, any);
    }
    let flag = s == 0 || any;
    let mut had = coded.had_greater1;
    if flag {
        put_significance(encoder, block, corner, right, below, &these, s > 0);
        had = put_levels(encoder, block, ctx_set(block, s, had), had, &these);
    }
    coded.set(corner, flag, had);
}

#[inline(always)]
fn put_last_sub_block(encoder: &mut Encoder, levels: &[i16], block: Block, last: Last) -> Coded {
    let s = last.sub_block;
    let these = gather(levels, block, s);
    let corner = sub_block(block, s);
    let from = 15 - usize::from(last.position);
    put_significance(
        encoder,
        block,
        corner,
        false,
        false,
        &these[from + 1..],
        false,
    );
    let set = ctx_set(block, s, false);
    let had = put_levels(encoder, block, set, false, &these[from..]);
    let mut coded = Coded {
        flags: [false; 81],
        had_greater1: false,
    };
    coded.set(corner, true, had);
    coded
}

#[inline(never)]
pub fn put_residual(encoder: &mut Encoder, levels: &[i16], block: Block) {
    let last = find_last(levels, block);
    put_last(encoder, block, last);
    let mut coded = put_last_sub_block(encoder, levels, block, last);
    for s in (0..last.sub_block).rev() {
        put_sub_block(encoder, levels, block, s, &mut coded);
    }
}

// ---- the number of bins

#[inline(always)]
fn count_remaining(k: u8, value: u32) -> u32 {
    let prefix = value >> k;
    if prefix < 4 {
        return prefix + 1 + u32::from(k);
    }
    let order = k + 1;
    let top = 31 - (value - (4 << k) + (1 << order)).leading_zeros();
    4 + 2 * top + 1 - u32::from(order)
}

#[inline(always)]
fn count_all_remaining(magnitudes: &[u16], greater2: bool) -> u32 {
    let mut total = 0;
    let mut rice = 0;
    let mut left = 8u8;
    let mut first = true;
    for &magnitude in magnitudes {
        let flag = magnitude > 1;
        let base = base_of(left, first, greater2, flag);
        if base.has_remaining {
            total += count_remaining(rice, u32::from(magnitude - base.base_level));
        }
        rice = rice_behind(rice, magnitude, base);
        first = first && !(flag && left > 0);
        left = left.saturating_sub(1);
    }
    total
}

#[inline(always)]
fn greatest_magnitude(levels: &[i16]) -> u16 {
    levels.iter().map(|level| level.unsigned_abs()).max().unwrap_or(0)
}

#[inline(always)]
fn count_small_levels(levels: &[i16]) -> u32 {
    let bins = levels.iter().map(|&level| level.unsigned_abs() + u16::from(level != 0));
    u32::from(bins.sum::<u16>())
}

#[inline(always)]
fn count_all_levels(levels: &[i16]) -> u32 {
    let mut all = [0; 16];
    let mut negative = [false; 16];
    let count = nonzero_levels(levels, &mut all, &mut negative);
    let magnitudes = &all[..count];
    let first = first_above_1(magnitudes);
    let count = count as u32;
    let remaining = count_all_remaining(magnitudes, first > 2);
    count.min(8) + u32::from(first > 1) + count + remaining
}

#[inline(always)]
fn count_levels(levels: &[i16]) -> u32 {
    if greatest_magnitude(levels) <= 3 {
        return count_small_levels(levels);
    }
    count_all_levels(levels)
}

#[inline(always)]
fn count_significance(levels: &[i16], sure: bool) -> u32 {
    let is_inferred = sure && levels.len() <= zeros_before(levels) + 1;
    levels.len() as u32 - u32::from(is_inferred)
}

#[inline(always)]
fn count_sub_block(levels: &[i16], block: Block, s: u8) -> u32 {
    let these = gather(levels, block, s);
    let mut count = u32::from(s > 0);
    if s == 0 || any_significant(&these) {
        count += count_significance(&these, s > 0) + count_levels(&these);
    }
    count
}

#[inline(always)]
fn count_coordinate(block: Block, coordinate: u8) -> u32 {
    let prefix = prefix_of(coordinate);
    let of_prefix = u32::from(prefix + 1).min(u32::from(2 * block.log2 - 1));
    of_prefix + u32::from(suffix_length(prefix))
}

#[inline(never)]
pub fn count_residual(levels: &[i16], block: Block) -> u32 {
    let last = find_last(levels, block);
    let position = coded_position(block, last);
    let mut total = count_coordinate(block, position.x) + count_coordinate(block, position.y);
    let these = gather(levels, block, last.sub_block);
    let from = 15 - usize::from(last.position);
    total += u32::from(last.position) + count_levels(&these[from..]);
    for s in (0..last.sub_block).rev() {
        total += count_sub_block(levels, block, s);
    }
    total
}

// ---- the kernels

fn dense(log2: u8, seed: u32) -> Vec<i16> {
    let mut state = seed;
    let mut levels = vec![0; 1 << (2 * log2)];
    for level in &mut levels {
        state = crate::next(state);
        *level = (i16::from((state >> 24) as u8) - 128) / 32;
    }
    levels
}

fn sparse(log2: u8, places: &[(usize, i16)]) -> Vec<i16> {
    let mut levels = vec![0; 1 << (2 * log2)];
    for &(place, level) in places {
        levels[place] = level;
    }
    levels
}

pub fn sum_of(bytes: &[u8]) -> u64 {
    let mut sum = bytes.len() as u64;
    for part in bytes.chunks(SAMPLED) {
        sum = sum.wrapping_mul(31).wrapping_add(u64::from(part[0]));
    }
    sum
}

type Kernel = fn(&[Vec<i16>; 2], Block) -> u64;

fn put(blocks: &[Vec<i16>; 2], block: Block) -> u64 {
    let mut encoder = Encoder::new(QUANTISER);
    for place in 0..CALLS {
        put_residual(&mut encoder, &blocks[place % 2], block);
    }
    sum_of(&encoder.finish())
}

fn count(blocks: &[Vec<i16>; 2], block: Block) -> u64 {
    let mut sum = 0u64;
    for place in 0..CALLS {
        sum = sum.wrapping_add(u64::from(count_residual(&blocks[place % 2], block)));
    }
    sum
}

#[derive(Clone, Copy)]
enum Kind {
    Dense,
    Sparse,
}

// Each with its name, what it does, and its blocks.
const KERNELS: [(&str, Kernel, u8, Kind); 8] = [
    ("residual_put_32_dense", put, 5, Kind::Dense),
    ("residual_put_32_sparse", put, 5, Kind::Sparse),
    ("residual_put_8", put, 3, Kind::Dense),
    ("residual_put_4", put, 2, Kind::Sparse),
    ("residual_count_32_dense", count, 5, Kind::Dense),
    ("residual_count_32_sparse", count, 5, Kind::Sparse),
    ("residual_count_8", count, 3, Kind::Dense),
    ("residual_count_4", count, 2, Kind::Sparse),
];

fn blocks_of(kind: Kind, log2: u8) -> [Vec<i16>; 2] {
    match (kind, log2) {
        (Kind::Dense, _) => [dense(log2, 5), dense(log2, 6)],
        (Kind::Sparse, 2) => [
            sparse(log2, &[(0, 3), (5, -1)]),
            sparse(log2, &[(1, -2), (4, 1)]),
        ],
        (Kind::Sparse, _) => [
            sparse(log2, &[(0, 9), (1, -3), (34, 1), (132, -1), (396, 1)]),
            sparse(log2, &[(0, -6), (32, 2), (65, -1), (99, 1), (586, -1)]),
        ],
    }
}

/// Runs the kernel of this name, or all, and prints a line for each.
pub fn print_checksums(name: &str, rounds: usize) {
    for (known, kernel, log2, kind) in KERNELS {
        if name != "all" && name != known {
            continue;
        }
        let blocks = blocks_of(kind, log2);
        let block = black_box(Block {
            scan: Scan::Diagonal,
            log2,
            luma: true,
        });
        let mut sum = 0u64;
        for _ in 0..rounds {
            sum = sum.wrapping_add(kernel(&blocks, block));
        }
        println!("{known} {sum}");
    }
}
