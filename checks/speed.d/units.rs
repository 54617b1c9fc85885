//! Coding tree units put into the arithmetic encoder, and nodes counted, as `crates/hv_syntax` does
//! it, function by function over the same flat lists, in plain Rust.
use crate::cabac::Encoder;
use crate::levels::{
    any_significant, count_residual, put_exp_golomb, put_fixed_length,
    put_residual, scan_of, sum_of, Block as Residual,
};
use std::hint::black_box;

const CALLS: usize = 64;
const QUANTISER: u8 = 26;

// The places of the tables among all context variables.
const SPLIT: usize = 0;
const SKIP: usize = 3;
const PART_MODE: usize = 6;
const PRED_MODE: usize = 10;
const PREV_INTRA: usize = 11;
const CHROMA_MODE: usize = 12;
const MERGE: usize = 13;
const REF_IDX: usize = 14;
const MVD_GREATER_0: usize = 16;
const MVD_GREATER_1: usize = 17;
const MVP_FLAG: usize = 18;
const ROOT_CBF: usize = 19;
const CBF_LUMA: usize = 20;
const CBF_CHROMA: usize = 22;
const SAO_MERGE: usize = 26;
const SAO_TYPE: usize = 27;

// ---- blocks

#[derive(Clone, Copy, PartialEq, Eq)]
enum Kind {
    I,
    P,
}

#[derive(Clone, Copy)]
struct Mv {
    x: i16,
    y: i16,
}

#[derive(Clone, Copy)]
#[allow(dead_code)]
enum Pred {
    Intra { mode: u8 },
    Inter { reference: u8, mv: Mv, flag: u8, mvd: Mv },
}

#[derive(Clone, Copy)]
struct Unit {
    depth: u8,
    pred: Pred,
}

#[derive(Clone, Copy)]
struct Place {
    width: u32,
    height: u32,
    index: u32,
}

struct Plan {
    units: Vec<Unit>,
    luma: Vec<i16>,
    cb: Vec<i16>,
    cr: Vec<i16>,
}

struct Neighbours {
    left: Option<[Unit; 8]>,
    above: Option<[Unit; 8]>,
}

#[derive(Clone, Copy)]
struct Site {
    place: Place,
    column: u32,
    row: u32,
}

struct Block<'a> {
    kind: Kind,
    references: u8,
    site: Site,
    left: Option<[Unit; 8]>,
    above: Option<[Unit; 8]>,
    plan: &'a Plan,
}

impl Site {
    fn of(place: Place) -> Site {
        let across = place.width.div_ceil(64);
        Site {
            place,
            column: place.index % across,
            row: place.index / across,
        }
    }
}

// ---- addresses

#[inline(always)]
fn column_of(address: u8) -> u8 {
    address % 2 + 2 * (address / 4 % 2) + 4 * (address / 16 % 2)
}

#[inline(always)]
fn row_of(address: u8) -> u8 {
    address / 2 % 2 + 2 * (address / 8 % 2) + 4 * (address / 32 % 2)
}

#[inline(always)]
fn address_of(column: u8, row: u8) -> u8 {
    column % 2
        + 2 * (row % 2)
        + 4 * (column / 2 % 2)
        + 8 * (row / 2 % 2)
        + 16 * (column / 4 % 2)
        + 32 * (row / 4 % 2)
}

#[inline(always)]
fn left_edge(site: &Site, address: u8) -> u64 {
    64 * u64::from(site.column) + 8 * u64::from(column_of(address))
}

#[inline(always)]
fn top_edge(site: &Site, address: u8) -> u64 {
    64 * u64::from(site.row) + 8 * u64::from(row_of(address))
}

#[inline(always)]
fn is_outside(site: &Site, address: u8) -> bool {
    left_edge(site, address) >= u64::from(site.place.width)
        || top_edge(site, address) >= u64::from(site.place.height)
}

#[inline(always)]
fn crosses(site: &Site, size: u8, address: u8) -> bool {
    let side = 8 << size;
    left_edge(site, address) + side > u64::from(site.place.width)
        || top_edge(site, address) + side > u64::from(site.place.height)
}

// ---- what is seen

#[inline(always)]
fn left_unit(block: &Block, address: u8) -> Option<Unit> {
    let (column, row) = (column_of(address), row_of(address));
    if column > 0 {
        return Some(block.plan.units[usize::from(address_of(column - 1, row))]);
    }
    if block.site.column == 0 {
        return None;
    }
    block.left.as_ref().map(|units| units[usize::from(row)])
}

#[inline(always)]
fn above_unit(block: &Block, address: u8) -> Option<Unit> {
    let (column, row) = (column_of(address), row_of(address));
    if row > 0 {
        return Some(block.plan.units[usize::from(address_of(column, row - 1))]);
    }
    if block.site.row == 0 {
        return None;
    }
    block.above.as_ref().map(|units| units[usize::from(column)])
}

#[inline(always)]
fn lies_deeper(depth: u8, unit: Option<Unit>) -> u8 {
    unit.map_or(0, |unit| u8::from(depth < unit.depth))
}

#[inline(always)]
fn mode_of(unit: Option<Unit>) -> u8 {
    match unit.map(|unit| unit.pred) {
        Some(Pred::Intra { mode }) => mode,
        _ => 1,
    }
}

fn third_mode(left: u8, above: u8) -> u8 {
    if left != 0 && above != 0 {
        return 0;
    }
    if left != 1 && above != 1 {
        return 1;
    }
    26
}

fn candidates(block: &Block, address: u8) -> [u8; 3] {
    let left = mode_of(left_unit(block, address));
    let above = if row_of(address) == 0 {
        1
    } else {
        mode_of(above_unit(block, address))
    };
    if left != above {
        return [left, above, third_mode(left, above)];
    }
    if left < 2 {
        return [0, 1, 26];
    }
    [left, 2 + ((u16::from(left) + 29) % 32) as u8, 2 + (left - 1) % 32]
}

// ---- levels

struct TransformUnit<'a> {
    log2: u8,
    luma: &'a [i16],
    cb: &'a [i16],
    cr: &'a [i16],
    cbf_luma: bool,
    cbf_cb: bool,
    cbf_cr: bool,
}

enum Levels<'a> {
    One(TransformUnit<'a>),
    Four([TransformUnit<'a>; 4]),
}

fn transform_unit<'a>(plan: &'a Plan, log2: u8, address: u8) -> TransformUnit<'a> {
    let from = usize::from(address);
    let (whole, half) = (1usize << (2 * log2), 1usize << (2 * (log2 - 1)));
    let luma = &plan.luma[64 * from..64 * from + whole];
    let cb = &plan.cb[16 * from..16 * from + half];
    let cr = &plan.cr[16 * from..16 * from + half];
    TransformUnit {
        log2,
        luma,
        cb,
        cr,
        cbf_luma: any_significant(luma),
        cbf_cb: any_significant(cb),
        cbf_cr: any_significant(cr),
    }
}

fn levels_at<'a>(plan: &'a Plan, size: u8, address: u8) -> Levels<'a> {
    if size < 3 {
        return Levels::One(transform_unit(plan, size + 3, address));
    }
    Levels::Four([0, 16, 32, 48].map(|address| transform_unit(plan, 5, address)))
}

fn has_level(unit: &TransformUnit) -> bool {
    unit.cbf_luma || unit.cbf_cb || unit.cbf_cr
}

fn has_levels(levels: &Levels) -> bool {
    match levels {
        Levels::One(unit) => has_level(unit),
        Levels::Four(units) => units.iter().any(has_level),
    }
}

#[inline(always)]
fn residual_of(pred: Pred, log2: u8, luma: bool) -> Residual {
    let mode = match pred {
        Pred::Intra { mode } => Some(mode),
        Pred::Inter { .. } => None,
    };
    Residual {
        scan: scan_of(mode, log2, luma),
        log2,
        luma,
    }
}

fn is_intra(pred: Pred) -> bool {
    matches!(pred, Pred::Intra { .. })
}

#[inline(always)]
fn has_luma_flag(pred: Pred, depth: u8, unit: &TransformUnit) -> bool {
    is_intra(pred) || depth > 0 || unit.cbf_cb || unit.cbf_cr
}

// ---- bins

fn put_transform_unit(encoder: &mut Encoder, pred: Pred, depth: u8, unit: &TransformUnit) {
    if has_luma_flag(pred, depth, unit) {
        encoder.bin(CBF_LUMA + usize::from(depth == 0), unit.cbf_luma);
    }
    if unit.cbf_luma {
        put_residual(encoder, unit.luma, residual_of(pred, unit.log2, true));
    }
    if unit.cbf_cb {
        put_residual(encoder, unit.cb, residual_of(pred, unit.log2 - 1, false));
    }
    if unit.cbf_cr {
        put_residual(encoder, unit.cr, residual_of(pred, unit.log2 - 1, false));
    }
}

fn put_four(encoder: &mut Encoder, pred: Pred, units: &[TransformUnit; 4]) {
    let cb = units.iter().any(|unit| unit.cbf_cb);
    let cr = units.iter().any(|unit| unit.cbf_cr);
    encoder.bin(CBF_CHROMA, cb);
    encoder.bin(CBF_CHROMA, cr);
    for unit in units {
        if cb {
            encoder.bin(CBF_CHROMA + 1, unit.cbf_cb);
        }
        if cr {
            encoder.bin(CBF_CHROMA + 1, unit.cbf_cr);
        }
        put_transform_unit(encoder, pred, 1, unit);
    }
}

fn put_transform_tree(encoder: &mut Encoder, pred: Pred, levels: &Levels) {
    match levels {
        Levels::One(unit) => {
            encoder.bin(CBF_CHROMA, unit.cbf_cb);
            encoder.bin(CBF_CHROMA, unit.cbf_cr);
            put_transform_unit(encoder, pred, 0, unit);
        }
        Levels::Four(units) => put_four(encoder, pred, units),
    }
}

fn put_index(encoder: &mut Encoder, index: u8) {
    encoder.bin(PREV_INTRA, true);
    for _ in 0..index {
        encoder.bypass(true);
    }
    if index < 2 {
        encoder.bypass(false);
    }
}

fn remaining(candidates: [u8; 3], mode: u8) -> u8 {
    mode - candidates.map(|other| u8::from(other < mode)).iter().sum::<u8>()
}

fn put_luma_mode(encoder: &mut Encoder, candidates: [u8; 3], mode: u8) {
    match candidates.iter().position(|&other| other == mode) {
        Some(index) => put_index(encoder, index as u8),
        None => {
            encoder.bin(PREV_INTRA, false);
            put_fixed_length(encoder, 5, u32::from(remaining(candidates, mode)));
        }
    }
}

fn put_rest(encoder: &mut Encoder, component: i16) {
    let magnitude = component.unsigned_abs();
    if magnitude > 0 {
        if magnitude > 1 {
            put_exp_golomb(encoder, 1, u32::from(magnitude - 2));
        }
        encoder.bypass(component < 0);
    }
}

fn put_difference(encoder: &mut Encoder, mvd: Mv) {
    encoder.bin(MVD_GREATER_0, mvd.x != 0);
    encoder.bin(MVD_GREATER_0, mvd.y != 0);
    if mvd.x != 0 {
        encoder.bin(MVD_GREATER_1, mvd.x.unsigned_abs() > 1);
    }
    if mvd.y != 0 {
        encoder.bin(MVD_GREATER_1, mvd.y.unsigned_abs() > 1);
    }
    put_rest(encoder, mvd.x);
    put_rest(encoder, mvd.y);
}

fn put_inter(encoder: &mut Encoder, references: u8, pred: Pred, levels: &Levels) {
    let Pred::Inter { reference, flag, mvd, .. } = pred else {
        return;
    };
    encoder.bin(PART_MODE, true);
    encoder.bin(MERGE, false);
    if references > 1 {
        encoder.bin(REF_IDX, reference == 1);
    }
    put_difference(encoder, mvd);
    encoder.bin(MVP_FLAG, flag == 1);
    let rooted = has_levels(levels);
    encoder.bin(ROOT_CBF, rooted);
    if rooted {
        put_transform_tree(encoder, pred, levels);
    }
}

fn put_split(encoder: &mut Encoder, block: &Block, size: u8, address: u8, value: bool) {
    if size == 0 || crosses(&block.site, size, address) {
        return;
    }
    let depth = 3 - size;
    let context = lies_deeper(depth, left_unit(block, address))
        + lies_deeper(depth, above_unit(block, address));
    encoder.bin(SPLIT + usize::from(context), value);
}

fn put_leaf(encoder: &mut Encoder, block: &Block, size: u8, address: u8, pred: Pred) {
    let levels = levels_at(block.plan, size, address);
    put_split(encoder, block, size, address, false);
    if block.kind == Kind::P {
        encoder.bin(SKIP, false);
        encoder.bin(PRED_MODE, is_intra(pred));
    }
    match pred {
        Pred::Intra { mode } => {
            let candidates = candidates(block, address);
            if size == 0 {
                encoder.bin(PART_MODE, true);
            }
            put_luma_mode(encoder, candidates, mode);
            encoder.bin(CHROMA_MODE, false);
            put_transform_tree(encoder, pred, &levels);
        }
        Pred::Inter { .. } => put_inter(encoder, block.references, pred, &levels),
    }
}

fn put_node(encoder: &mut Encoder, block: &Block, size: u8, address: u8) {
    if is_outside(&block.site, address) {
        return;
    }
    let unit = block.plan.units[usize::from(address)];
    if size == 0 || unit.depth <= 3 - size {
        return put_leaf(encoder, block, size, address, unit.pred);
    }
    put_split(encoder, block, size, address, true);
    let step = 1 << (2 * (size - 1));
    for quarter in 0..4 {
        put_node(encoder, block, size - 1, address + quarter * step);
    }
}

// No offsets: both types are 0.
#[inline(never)]
fn put_ctb(encoder: &mut Encoder, kind: Kind, place: Place, near: &Neighbours, plan: &Plan) {
    let block = block_of(kind, place, near, plan);
    if block.site.column > 0 {
        encoder.bin(SAO_MERGE, false);
    }
    if block.site.row > 0 {
        encoder.bin(SAO_MERGE, false);
    }
    encoder.bin(SAO_TYPE, false);
    encoder.bin(SAO_TYPE, false);
    put_node(encoder, &block, 3, 0);
    encoder.continue_slice();
}

fn block_of<'a>(kind: Kind, place: Place, near: &Neighbours, plan: &'a Plan) -> Block<'a> {
    Block {
        kind,
        references: 1,
        site: Site::of(place),
        left: near.left,
        above: near.above,
        plan,
    }
}

// ---- the number of bins

fn count_exp_golomb(k: u8, value: u32) -> u32 {
    let top = 31 - (value + (1 << k)).leading_zeros();
    2 * top + 1 - u32::from(k)
}

fn count_component(component: i16) -> u64 {
    match component.unsigned_abs() {
        0 => 0,
        1 => 2,
        magnitude => 2 + u64::from(count_exp_golomb(1, u32::from(magnitude - 2))),
    }
}

fn count_block(pred: Pred, log2: u8, luma: bool, levels: &[i16], coded: bool) -> u64 {
    if coded {
        return u64::from(count_residual(levels, residual_of(pred, log2, luma)));
    }
    0
}

fn count_transform_unit(pred: Pred, depth: u8, unit: &TransformUnit) -> u64 {
    u64::from(has_luma_flag(pred, depth, unit))
        + count_block(pred, unit.log2, true, unit.luma, unit.cbf_luma)
        + count_block(pred, unit.log2 - 1, false, unit.cb, unit.cbf_cb)
        + count_block(pred, unit.log2 - 1, false, unit.cr, unit.cbf_cr)
}

fn count_four(pred: Pred, units: &[TransformUnit; 4]) -> u64 {
    let cb = units.iter().any(|unit| unit.cbf_cb);
    let cr = units.iter().any(|unit| unit.cbf_cr);
    let flags = u64::from(cb) + u64::from(cr);
    2 + units.iter().map(|unit| flags + count_transform_unit(pred, 1, unit)).sum::<u64>()
}

fn count_transform_tree(pred: Pred, levels: &Levels) -> u64 {
    match levels {
        Levels::One(unit) => 2 + count_transform_unit(pred, 0, unit),
        Levels::Four(units) => count_four(pred, units),
    }
}

fn count_luma_mode(candidates: [u8; 3], mode: u8) -> u64 {
    match candidates.iter().position(|&other| other == mode) {
        Some(0) => 2,
        Some(_) => 3,
        None => 6,
    }
}

fn count_inter(references: u8, pred: Pred, mvd: Mv, levels: &Levels) -> u64 {
    let difference = 2 + count_component(mvd.x) + count_component(mvd.y);
    let unit = 1 + u64::from(references > 1) + difference + 1;
    let tree = if has_levels(levels) {
        count_transform_tree(pred, levels)
    } else {
        0
    };
    1 + unit + 1 + tree
}

fn count_split(block: &Block, size: u8, address: u8) -> u64 {
    u64::from(size > 0 && !crosses(&block.site, size, address))
}

fn count_leaf(block: &Block, size: u8, address: u8, pred: Pred) -> u64 {
    let levels = levels_at(block.plan, size, address);
    let mode = if block.kind == Kind::P { 2 } else { 0 };
    let predicted = match pred {
        Pred::Intra { mode } => {
            u64::from(size == 0)
                + count_luma_mode(candidates(block, address), mode)
                + 1
                + count_transform_tree(pred, &levels)
        }
        Pred::Inter { mvd, .. } => count_inter(block.references, pred, mvd, &levels),
    };
    count_split(block, size, address) + mode + predicted
}

fn count_node_of(block: &Block, size: u8, address: u8) -> u64 {
    if is_outside(&block.site, address) {
        return 0;
    }
    let unit = block.plan.units[usize::from(address)];
    if size == 0 || unit.depth <= 3 - size {
        return count_leaf(block, size, address, unit.pred);
    }
    let step = 1 << (2 * (size - 1));
    let mut count = count_split(block, size, address);
    for quarter in 0..4 {
        count += count_node_of(block, size - 1, address + quarter * step);
    }
    count
}

#[inline(never)]
fn count_node(kind: Kind, place: Place, near: &Neighbours, plan: &Plan, node: [u8; 3]) -> u64 {
    let block = block_of(kind, place, near, plan);
    count_node_of(&block, 3 - node[0], address_of(node[1], node[2]))
}

// ---- the kernels

struct Units {
    kind: Kind,
    place: Place,
    near: Neighbours,
    plan: Plan,
    node: [u8; 3],
}

fn noise(count: usize, seed: u32) -> Vec<i16> {
    let mut levels = vec![0; count];
    let mut state = seed;
    for level in &mut levels {
        state = state.wrapping_mul(1664525).wrapping_add(1013904223);
        let byte = (state >> 24) as u8;
        if byte < 32 {
            *level = i16::from(byte % 8) - 4;
        }
    }
    levels
}

fn unit_at(kind: Kind, address: u8) -> Unit {
    if kind == Kind::I {
        let mode = ((u16::from(address) * 11) % 35) as u8;
        let pred = Pred::Intra { mode };
        return Unit { depth: 3, pred };
    }
    let pred = Pred::Inter {
        reference: 0,
        mv: Mv { x: 0, y: 0 },
        flag: 0,
        mvd: Mv { x: 5, y: -9 },
    };
    let depth = if address < 16 { 2 } else { 1 };
    Unit { depth, pred }
}

fn units_of(kind: Kind, seed: u32) -> Units {
    let units: Vec<Unit> = (0..64).map(|address| unit_at(kind, address)).collect();
    let last = |i: usize| i as u8;
    let right = std::array::from_fn(|i| units[usize::from(address_of(7, last(i)))]);
    let bottom = std::array::from_fn(|i| units[usize::from(address_of(last(i), 7))]);
    let near = Neighbours {
        left: Some(right),
        above: Some(bottom),
    };
    let plan = Plan {
        units,
        luma: noise(4096, seed),
        cb: noise(1024, seed.wrapping_add(1)),
        cr: noise(1024, seed.wrapping_add(2)),
    };
    Units {
        kind: black_box(kind),
        place: black_box(Place {
            width: 128,
            height: 128,
            index: 3,
        }),
        near,
        plan,
        node: black_box([2, 0, 0]),
    }
}

fn put(pair: &[Units; 2]) -> u64 {
    let mut encoder = Encoder::new(QUANTISER);
    for place in 0..CALLS {
        let units = &pair[place % 2];
        put_ctb(&mut encoder, units.kind, units.place, &units.near, &units.plan);
    }
    sum_of(&encoder.finish())
}

fn count(pair: &[Units; 2]) -> u64 {
    let mut sum = 0u64;
    for place in 0..CALLS {
        let units = &pair[place % 2];
        let count = count_node(units.kind, units.place, &units.near, &units.plan, units.node);
        sum = sum.wrapping_add(count);
    }
    sum
}

type Kernel = fn(&[Units; 2]) -> u64;

// Each with its name, the kind of its slice, and what it does.
const KERNELS: [(&str, Kind, Kernel); 2] = [
    ("put_ctb_small_units", Kind::I, put),
    ("count_node_16", Kind::P, count),
];

/// Runs the kernel of this name, or all, and prints a line for each.
pub fn print_checksums(name: &str, rounds: usize) {
    for (known, kind, kernel) in KERNELS {
        if name != "all" && name != known {
            continue;
        }
        let pair = [units_of(kind, 5), units_of(kind, 8)];
        let mut sum = 0u64;
        for _ in 0..rounds {
            sum = sum.wrapping_add(kernel(black_box(&pair)));
        }
        println!("{known} {sum}");
    }
}
