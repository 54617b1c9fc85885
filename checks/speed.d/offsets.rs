//! Sample adaptive offsets, chosen and applied as `crates/hv_sao` does it, in plain Rust: one pass
//! over a block that gathers counts and sums by value, and by class and category, each candidate's
//! cost from these alone, and rows of a block as slices of one length.
use std::hint::black_box;

const CALLS: usize = 64;
const SIDE: usize = 128;
const PLACE: usize = 3;
const SAMPLED: usize = 61;

#[derive(Clone, Copy, PartialEq, Eq)]
enum Kind {
    Off,
    Band(u8),
    Edge(u8),
}

#[derive(Clone, Copy)]
struct Component {
    kind: Kind,
    offsets: [i8; 4],
}

struct Plane {
    width: usize,
    height: usize,
    samples: Vec<u8>,
}

impl Plane {
    fn row(&self, y: usize, from: usize, to: usize) -> &[u8] {
        &self.samples[y * self.width + from..y * self.width + to]
    }
}

#[derive(Clone, Copy)]
struct Area {
    left: usize,
    top: usize,
    columns: usize,
    rows: usize,
}

impl Area {
    fn of(plane: &Plane, side: usize, index: usize) -> Area {
        let across = plane.width.div_ceil(side);
        let (left, top) = (index % across * side, index / across * side);
        let (columns, rows) = (side.min(plane.width - left), side.min(plane.height - top));
        Area { left, top, columns, rows }
    }
}

// ---- a row beside its neighbours

struct EdgeRow<'a> {
    start: usize,
    samples: &'a [u8],
    first: &'a [u8],
    second: &'a [u8],
}

/// None where the row lacks a neighbour; else without the columns that lack one.
#[inline(always)]
fn edge_row(plane: &Plane, class: u8, y: usize, from: usize, to: usize) -> Option<EdgeRow<'_>> {
    let (columns, rows) = (usize::from(class != 1), usize::from(class != 0));
    let (from, to) = (from.max(columns), to.min(plane.width - columns));
    if y < rows || y + rows >= plane.height || from >= to {
        return None;
    }
    let (first, second) = match class {
        0 | 2 => (from - 1, from + 1),
        1 => (from, from),
        _ => (from + 1, from - 1),
    };
    let count = to - from;
    Some(EdgeRow {
        start: from,
        samples: plane.row(y, from, to),
        first: plane.row(y - rows, first, first + count),
        second: plane.row(y + rows, second, second + count),
    })
}

/// 0 for a local minimum, 1, 2 for none, 3, 4 for a local maximum.
#[inline(always)]
fn edge_of(sample: u8, first: u8, second: u8) -> u8 {
    let compared = |a: u8, b: u8| u8::from(a > b) + 1 - u8::from(a < b);
    compared(sample, first) + compared(sample, second)
}

// ---- counts and sums

#[derive(Clone, Copy)]
struct Tally {
    count: u32,
    sum: i32,
}

const NONE: Tally = Tally { count: 0, sum: 0 };

impl Tally {
    #[inline(always)]
    fn add(&mut self, input: u8, sample: u8) {
        self.count += 1;
        self.sum += i32::from(input) - i32::from(sample);
    }

    fn growth(self, by: i32) -> i32 {
        self.count as i32 * by * by - 2 * by * self.sum
    }
}

/// By value; and by class and key, of which each edge has eight: where a sample may be cut, each
/// value has its own.
struct Tallies {
    squares: u32,
    values: [Tally; 256],
    edges: [[Tally; 40]; 4],
}

#[inline(always)]
fn edge_key(edge: u8, sample: u8) -> u8 {
    8 * edge + if edge < 2 { sample.max(248) - 248 } else { sample.min(7) }
}

fn squares_of(samples: &[u8], inputs: &[u8]) -> u32 {
    let gaps = samples.iter().zip(inputs).map(|(&a, &b)| i32::from(a) - i32::from(b));
    gaps.map(|gap| (gap * gap) as u32).sum()
}

fn add_row(edges: &mut [Tally; 40], row: &EdgeRow<'_>, inputs: &[u8]) {
    let mut keys = [0; 64];
    let keys = &mut keys[..row.samples.len()];
    let neighbours = row.first.iter().zip(row.second);
    for ((key, &sample), (&first, &second)) in keys.iter_mut().zip(row.samples).zip(neighbours) {
        *key = edge_key(edge_of(sample, first, second), sample);
    }
    for ((&key, &sample), &wanted) in keys.iter().zip(row.samples).zip(inputs) {
        edges[usize::from(key)].add(wanted, sample);
    }
}

fn gather(deblocked: &Plane, input: &Plane, area: Area) -> Tallies {
    let mut tallies = Tallies { squares: 0, values: [NONE; 256], edges: [[NONE; 40]; 4] };
    let (from, to) = (area.left, area.left + area.columns);
    for y in area.top..area.top + area.rows {
        let inputs = input.row(y, from, to);
        let samples = deblocked.row(y, from, to);
        tallies.squares += squares_of(samples, inputs);
        for (&sample, &wanted) in samples.iter().zip(inputs) {
            tallies.values[usize::from(sample)].add(wanted, sample);
        }
        for class in 0..4 {
            if let Some(row) = edge_row(deblocked, class, y, from, to) {
                let edges = &mut tallies.edges[usize::from(class)];
                add_row(edges, &row, &inputs[row.start - from..]);
            }
        }
    }
    tallies
}

// ---- offsets

#[derive(Clone, Copy)]
struct Offset {
    value: i8,
    growth: i32,
}

fn mean(all: Tally) -> i32 {
    if all.count == 0 {
        return 0;
    }
    let size = ((2 * all.sum.unsigned_abs() + all.count) / (2 * all.count)) as i32;
    if all.sum < 0 { -size } else { size }
}

#[inline(always)]
fn with_offset(sample: u8, offset: i8) -> u8 {
    (i16::from(sample) + i16::from(offset)).clamp(0, 255) as u8
}

/// Of eight tallies, whose samples have the values from `base` on.
fn offset_of(tallies: &[Tally; 8], base: u8, least: i32, most: i32) -> Offset {
    let mut all = NONE;
    for tally in tallies {
        all.count += tally.count;
        all.sum += tally.sum;
    }
    let value = mean(all).clamp(least, most) as i8;
    let growth = if base == 0 || base == 248 {
        let each = tallies.iter().zip(base..=base + 7);
        each.map(|(tally, sample)| {
            tally.growth(i32::from(with_offset(sample, value)) - i32::from(sample))
        })
        .sum()
    } else {
        all.growth(i32::from(value))
    };
    Offset { value, growth }
}

fn eight(tallies: &[Tally], group: usize) -> &[Tally; 8] {
    tallies[8 * group..8 * group + 8].try_into().unwrap()
}

// ---- candidates

#[derive(Clone, Copy)]
struct Candidate {
    component: Component,
    squares: i64,
    bins: i64,
}

fn offset_bins(kind: Kind, value: i8) -> i64 {
    let size = i64::from(value.unsigned_abs());
    match kind {
        Kind::Off => 0,
        Kind::Band(_) => (size + 1).min(7) + i64::from(size != 0),
        Kind::Edge(_) => (size + 1).min(7),
    }
}

fn candidate(kind: Kind, offsets: &[Offset; 4], squares: u32) -> Candidate {
    let position = if matches!(kind, Kind::Band(_)) { 5 } else { 0 };
    Candidate {
        component: Component { kind, offsets: offsets.map(|each| each.value) },
        squares: offsets.iter().fold(i64::from(squares), |sum, each| sum + i64::from(each.growth)),
        bins: position + offsets.iter().map(|each| offset_bins(kind, each.value)).sum::<i64>(),
    }
}

fn off(squares: u32) -> Candidate {
    candidate(Kind::Off, &[Offset { value: 0, growth: 0 }; 4], squares)
}

/// The offset of each band.
fn bands(tallies: &Tallies) -> [Offset; 32] {
    std::array::from_fn(|band| offset_of(eight(&tallies.values, band), 8 * band as u8, -7, 7))
}

fn band(bands: &[Offset; 32], position: usize, squares: u32) -> Candidate {
    let offsets = bands[position..position + 4].try_into().unwrap();
    candidate(Kind::Band(position as u8), offsets, squares)
}

fn edge(tallies: &Tallies, class: u8) -> Candidate {
    let edges = &tallies.edges[usize::from(class)];
    let offsets = [
        offset_of(eight(edges, 0), 248, 0, 7),
        offset_of(eight(edges, 1), 248, 0, 7),
        offset_of(eight(edges, 3), 0, -7, 0),
        offset_of(eight(edges, 4), 0, -7, 0),
    ];
    candidate(Kind::Edge(class), &offsets, tallies.squares)
}

fn kind_bins(kind: Kind) -> i64 {
    match kind {
        Kind::Off => 1,
        Kind::Band(_) => 2,
        Kind::Edge(_) => 4,
    }
}

fn cost(weight: i64, squares: i64, bins: i64) -> i64 {
    16 * squares + weight * bins
}

fn bin_weight(qp: u8) -> i64 {
    ([9, 11, 14][usize::from(qp % 3)] << (qp / 3)) / 16
}

// ---- choices

#[inline(never)]
fn choose_luma(deblocked: &Plane, input: &Plane, area: Area, qp: u8) -> Component {
    let weight = bin_weight(qp);
    let price = |each: &Candidate| {
        cost(weight, each.squares, kind_bins(each.component.kind) + each.bins)
    };
    let tallies = gather(deblocked, input, area);
    let offsets = bands(&tallies);
    let mut best = off(tallies.squares);
    let mut least = price(&best);
    let positions = (0..29).map(|position| band(&offsets, position, tallies.squares));
    for each in positions.chain((0..4).map(|class| edge(&tallies, class))) {
        let price = price(&each);
        if price < least {
            (best, least) = (each, price);
        }
    }
    best.component
}

fn best_band(weight: i64, tallies: &Tallies) -> Candidate {
    let offsets = bands(tallies);
    let mut best = band(&offsets, 0, tallies.squares);
    let mut least = cost(weight, best.squares, best.bins);
    for position in 1..29 {
        let each = band(&offsets, position, tallies.squares);
        let price = cost(weight, each.squares, each.bins);
        if price < least {
            (best, least) = (each, price);
        }
    }
    best
}

#[inline(never)]
fn choose_chroma(
    deblocked: &[Plane; 3],
    input: &[Plane; 3],
    area: Area,
    qp: u8,
) -> (Component, Component) {
    let weight = bin_weight(qp);
    let price = |cb: &Candidate, cr: &Candidate| {
        let bins = kind_bins(cb.component.kind) + cb.bins + cr.bins;
        cost(weight, cb.squares + cr.squares, bins)
    };
    let cb = gather(&deblocked[1], &input[1], area);
    let cr = gather(&deblocked[2], &input[2], area);
    let mut best = (off(cb.squares), off(cr.squares));
    let mut least = price(&best.0, &best.1);
    let band = (best_band(weight, &cb), best_band(weight, &cr));
    let edges = (0..4).map(|class| (edge(&cb, class), edge(&cr, class)));
    for each in std::iter::once(band).chain(edges) {
        let price = price(&each.0, &each.1);
        if price < least {
            (best, least) = (each, price);
        }
    }
    (best.0.component, best.1.component)
}

fn choose(deblocked: &[Plane; 3], input: &[Plane; 3], index: usize, qp: u8) -> [Component; 3] {
    let luma = Area::of(&deblocked[0], 64, index);
    let chroma = Area::of(&deblocked[1], 32, index);
    let (cb, cr) = choose_chroma(deblocked, input, chroma, qp);
    [choose_luma(&deblocked[0], &input[0], luma, qp), cb, cr]
}

// ---- what is shown

/// The offset of a category, chosen without a table, so that the compiler can do it for many
/// samples at once.
#[inline(always)]
fn offset_at(offsets: [i8; 4], category: u8) -> i8 {
    let [first, second, third, fourth] = offsets;
    match category {
        0 => 0,
        1 => first,
        2 => second,
        3 => third,
        _ => fourth,
    }
}

#[inline(always)]
fn fill_bands(samples: &[u8], position: u8, offsets: [i8; 4], out: &mut [u8]) {
    for (shown, &sample) in out.iter_mut().zip(samples) {
        let behind = (sample / 8 + 32 - position) % 32;
        let category = if behind < 4 { behind + 1 } else { 0 };
        *shown = with_offset(sample, offset_at(offsets, category));
    }
}

#[inline(always)]
fn put_edges(row: &EdgeRow<'_>, offsets: [i8; 4], out: &mut [u8]) {
    let neighbours = row.first.iter().zip(row.second);
    for ((shown, &sample), (&first, &second)) in out.iter_mut().zip(row.samples).zip(neighbours) {
        let edge = edge_of(sample, first, second);
        let category = match edge {
            0 | 1 => edge + 1,
            2 => 0,
            _ => edge,
        };
        *shown = with_offset(sample, offset_at(offsets, category));
    }
}

fn apply_plane(deblocked: &Plane, choices: &[[Component; 3]], which: usize, shown: &mut Plane) {
    let side = if which == 0 { 64 } else { 32 };
    let (width, across) = (deblocked.width, deblocked.width.div_ceil(side));
    for y in 0..deblocked.height {
        for column in 0..across {
            let choice = choices[y / side * across + column][which];
            let (from, to) = (column * side, (column * side + side).min(width));
            let samples = deblocked.row(y, from, to);
            let out = &mut shown.samples[y * width + from..y * width + to];
            match choice.kind {
                Kind::Off => out.copy_from_slice(samples),
                Kind::Band(position) => fill_bands(samples, position, choice.offsets, out),
                Kind::Edge(class) => {
                    out.copy_from_slice(samples);
                    if let Some(row) = edge_row(deblocked, class, y, from, to) {
                        put_edges(&row, choice.offsets, &mut out[row.start - from..]);
                    }
                }
            }
        }
    }
}

#[inline(never)]
fn apply(deblocked: &[Plane; 3], choices: &[[Component; 3]], shown: &mut [Plane; 3]) {
    for (which, (plane, out)) in deblocked.iter().zip(shown).enumerate() {
        apply_plane(plane, choices, which, out);
    }
}

// ---- what is run

/// Slopes, and edges between rectangles.
fn clean(x: usize, y: usize) -> usize {
    50 + (x + 2 * y) / 4 + (x / 24 + y / 20) % 2 * 40
}

/// As in the input: with noise.
fn input_sample(x: usize, y: usize, noise: u32) -> u8 {
    (clean(x, y) + (noise >> 24) as usize % 7) as u8
}

/// As deblocked: at a small quantiser the noise is there, with errors. At a large one it isn't,
/// edges are smeared, and each square of 8x8 has an error of its own.
fn deblocked_sample(qp: u8, x: usize, y: usize, noise: u32) -> u8 {
    let error = (noise >> 16) as usize % 7;
    if qp < 30 {
        return input_sample(x, y, noise) + error as u8 - 3;
    }
    let smeared = (clean(x.saturating_sub(2), y) + 2 * clean(x, y) + clean(x + 2, y)) / 4;
    (smeared + (5 * (x / 8) + 3 * (y / 8)) % 7 + error / 3) as u8
}

fn plane_of(side: usize, seed: u32, sample: impl Fn(usize, usize, u32) -> u8) -> Plane {
    let mut state = seed;
    let mut samples = Vec::new();
    for y in 0..side {
        for x in 0..side {
            state = state.wrapping_mul(1664525).wrapping_add(1013904223);
            samples.push(sample(x, y, state));
        }
    }
    Plane { width: black_box(side), height: black_box(side), samples }
}

fn picture_of(sample: impl Fn(usize, usize, u32) -> u8) -> [Plane; 3] {
    [(SIDE, 1), (SIDE / 2, 2), (SIDE / 2, 3)].map(|(side, seed)| plane_of(side, seed, &sample))
}

struct Pictures {
    deblocked: [Plane; 3],
    input: [Plane; 3],
    shown: [Plane; 3],
    choices: Vec<[Component; 3]>,
    qp: u8,
}

impl Pictures {
    fn new(qp: u8, kinds: [Kind; 4]) -> Pictures {
        let offsets = |kind| match kind {
            Kind::Off => [0; 4],
            Kind::Band(_) => [3, -2, 1, -4],
            Kind::Edge(_) => [2, 1, -1, -3],
        };
        let choices = kinds.map(|kind| [Component { kind, offsets: offsets(kind) }; 3]);
        Pictures {
            deblocked: picture_of(|x, y, noise| deblocked_sample(qp, x, y, noise)),
            input: picture_of(input_sample),
            shown: picture_of(|_, _, _| 0),
            choices: choices.to_vec(),
            qp: black_box(qp),
        }
    }

    fn sum(&self) -> u64 {
        let planes = self.shown.iter();
        let each = planes.flat_map(|plane| plane.samples.iter().step_by(SAMPLED));
        each.map(|&sample| u64::from(sample)).sum()
    }
}

fn sum_of_choice(component: Component) -> u64 {
    let kind = match component.kind {
        Kind::Off => 0,
        Kind::Band(position) => 1 + u64::from(position),
        Kind::Edge(class) => 40 + u64::from(class),
    };
    component.offsets.iter().fold(kind, |sum, &offset| 31 * sum + (i16::from(offset) + 128) as u64)
}

const EDGES: [Kind; 4] = [Kind::Edge(0), Kind::Edge(1), Kind::Edge(2), Kind::Edge(3)];
const BANDS: [Kind; 4] = [Kind::Band(5), Kind::Band(9), Kind::Band(13), Kind::Band(17)];

// Each with its name, whether it chooses, the quantiser, and the choices that are applied.
const KERNELS: [(&str, bool, u8, [Kind; 4]); 4] = [
    ("choose_sao_22", true, 22, EDGES),
    ("choose_sao_37", true, 37, EDGES),
    ("apply_sao_edge", false, 37, EDGES),
    ("apply_sao_band", false, 37, BANDS),
];

/// Runs the kernel of this name, or all, and prints a line for each.
pub fn print_checksums(name: &str, rounds: usize) {
    for (known, chooses, qp, kinds) in KERNELS {
        if name != "all" && name != known {
            continue;
        }
        let mut pictures = Pictures::new(qp, kinds);
        let mut sum = 0u64;
        for _ in 0..rounds * CALLS {
            let it = black_box(&mut pictures);
            let gave = if chooses {
                let choice = choose(&it.deblocked, &it.input, PLACE, it.qp);
                choice.iter().fold(0u64, |sum, &each| 7 * sum + sum_of_choice(each))
            } else {
                apply(&it.deblocked, &it.choices, &mut it.shown);
                it.sum()
            };
            sum = sum.wrapping_add(gave);
        }
        println!("{known} {sum}");
    }
}
