//! The same program as `crates/hv_speed` in plain Rust: loops over rows of fixed length, which the
//! compiler turns into vector instructions as well as it can, and the writers of bits and of NAL
//! units as `crates/hv_bits` has them; intra prediction as `crates/hv_intra` has it, and transforms
//! as two passes of dot products. Levels, coding tree units, deblocking and
//! sample adaptive offsets are in files of their own.
mod cabac;
mod edges;
mod hand;
mod hand_inter;
mod leaves;
mod levels;
mod offsets;
mod searches;
mod units;

use std::env;
use std::hint::black_box;
use std::process::ExitCode;

const WIDTH: usize = 512;
const SAMPLES: usize = 65536;
const QUARTER_WIDTH: usize = 128;
const CALLS: usize = 64;
const LISTED: usize = 4096;
const FIELDS: usize = 1_000_000;
const PAYLOAD: usize = 1_000_000;
const NAL_UNIT_TYPE: u8 = 1;
const THREE_BYTE: u8 = 3;
const LARGEST_ESCAPED: u8 = 3;
const SAMPLED: usize = 256;

fn absolute_difference(x: u8, y: u8) -> u32 {
    (i32::from(x) - i32::from(y)).unsigned_abs()
}

fn squared_difference(x: u8, y: u8) -> u32 {
    let difference = i32::from(x) - i32::from(y);
    (difference * difference) as u32
}

fn row<const N: usize>(samples: &[u8], at: usize) -> &[u8; N] {
    samples[at..at + N].try_into().unwrap()
}

#[inline(never)]
fn sad_block<const N: usize>(a: &[u8], a_stride: usize, b: &[u8], b_stride: usize) -> u32 {
    let mut sum = 0;
    for y in 0..N {
        let first = row::<N>(a, y * a_stride);
        let second = row::<N>(b, y * b_stride);
        for x in 0..N {
            sum += absolute_difference(first[x], second[x]);
        }
    }
    sum
}

#[inline(never)]
fn ssd_block<const N: usize>(a: &[u8], a_stride: usize, b: &[u8], b_stride: usize) -> u32 {
    let mut sum = 0;
    for y in 0..N {
        let first = row::<N>(a, y * a_stride);
        let second = row::<N>(b, y * b_stride);
        for x in 0..N {
            sum += squared_difference(first[x], second[x]);
        }
    }
    sum
}

// Sums of 32 bits over parts, since a sum of 64 bits in each lane costs more.
#[inline(never)]
fn sad(a: &[u8], b: &[u8]) -> u64 {
    let parts = a.chunks(LISTED).zip(b.chunks(LISTED));
    let sum_of = |(a, b): (&[u8], &[u8])| -> u32 {
        a.iter()
            .zip(b)
            .map(|(&x, &y)| absolute_difference(x, y))
            .sum()
    };
    parts.map(|part| u64::from(sum_of(part))).sum()
}

#[inline(never)]
fn ssd(a: &[u8], b: &[u8]) -> u64 {
    let parts = a.chunks(LISTED).zip(b.chunks(LISTED));
    let sum_of = |(a, b): (&[u8], &[u8])| -> u32 {
        a.iter()
            .zip(b)
            .map(|(&x, &y)| squared_difference(x, y))
            .sum()
    };
    parts.map(|part| u64::from(sum_of(part))).sum()
}

fn sum_of_four(samples: &[u8; 4]) -> u32 {
    samples.iter().map(|&x| u32::from(x)).sum()
}

#[inline(never)]
fn decimate(rows: &[u8], width: usize, out: &mut [u8]) {
    let (upper, lower) = rows.split_at(2 * width);
    let (first, second) = upper.split_at(width);
    let (third, fourth) = lower.split_at(width);
    let upper = first.as_chunks().0.iter().zip(second.as_chunks().0);
    let lower = third.as_chunks().0.iter().zip(fourth.as_chunks().0);
    for (sample, ((p, q), (r, s))) in out.iter_mut().zip(upper.zip(lower)) {
        let sum = sum_of_four(p) + sum_of_four(q) + sum_of_four(r) + sum_of_four(s);
        *sample = ((sum + 8) >> 4) as u8;
    }
}

struct Pictures {
    first: Vec<u8>,
    second: Vec<u8>,
    quarter_row: Vec<u8>,
    stride: usize,
}

fn noise(seed: u32) -> Vec<u8> {
    let mut state = seed;
    let mut samples = vec![0; SAMPLES];
    for sample in &mut samples {
        state = state.wrapping_mul(1664525).wrapping_add(1013904223);
        *sample = (state >> 24) as u8;
    }
    samples
}

type Kernel = fn(&mut Pictures, usize, usize) -> u64;

fn run_sad_block<const N: usize>(pictures: &mut Pictures, a: usize, b: usize) -> u64 {
    let stride = pictures.stride;
    let (a, b) = (&pictures.first[a..], &pictures.second[b..]);
    u64::from(sad_block::<N>(a, stride, b, stride))
}

fn run_ssd_block<const N: usize>(pictures: &mut Pictures, a: usize, b: usize) -> u64 {
    let stride = pictures.stride;
    let (a, b) = (&pictures.first[a..], &pictures.second[b..]);
    u64::from(ssd_block::<N>(a, stride, b, stride))
}

fn run_sad(pictures: &mut Pictures, a: usize, b: usize) -> u64 {
    sad(
        &pictures.first[a..a + LISTED],
        &pictures.second[b..b + LISTED],
    )
}

fn run_ssd(pictures: &mut Pictures, a: usize, b: usize) -> u64 {
    ssd(
        &pictures.first[a..a + LISTED],
        &pictures.second[b..b + LISTED],
    )
}

fn run_decimate(pictures: &mut Pictures, a: usize, b: usize) -> u64 {
    let rows = &pictures.first[a..a + 4 * WIDTH];
    decimate(rows, WIDTH, &mut pictures.quarter_row);
    let _ = b;
    u64::from(pictures.quarter_row[a / 4])
}

const KERNELS: [(&str, Kernel); 11] = [
    ("sad_block_8", run_sad_block::<8>),
    ("sad_block_16", run_sad_block::<16>),
    ("sad_block_32", run_sad_block::<32>),
    ("sad_block_64", run_sad_block::<64>),
    ("ssd_block_8", run_ssd_block::<8>),
    ("ssd_block_16", run_ssd_block::<16>),
    ("ssd_block_32", run_ssd_block::<32>),
    ("ssd_block_64", run_ssd_block::<64>),
    ("sad", run_sad),
    ("ssd", run_ssd),
    ("decimate", run_decimate),
];

fn checksum(kernel: Kernel, rounds: usize) -> u64 {
    let mut pictures = Pictures {
        first: noise(1),
        second: noise(2),
        quarter_row: vec![0; QUARTER_WIDTH],
        stride: black_box(WIDTH),
    };
    let mut sum = 0u64;
    for round in 0..rounds {
        for place in 0..CALLS {
            sum = sum.wrapping_add(kernel(&mut pictures, 4 * place, place + round % 32));
        }
    }
    sum
}

struct BitWriter {
    bytes: Vec<u8>,
    recent: u32,
    waiting: u32,
}

impl BitWriter {
    fn new() -> BitWriter {
        BitWriter {
            bytes: Vec::new(),
            recent: 0,
            waiting: 0,
        }
    }

    fn put(&mut self, value: u32, bits: u8) {
        let all = u64::from(self.recent) << bits | u64::from(value);
        let waiting = self.waiting + u32::from(bits);
        self.recent = all as u32;
        if waiting < 32 {
            self.waiting = waiting;
        } else {
            self.waiting = waiting - 32;
            let word = (all >> (waiting - 32)) as u32;
            self.bytes.extend_from_slice(&word.to_be_bytes());
        }
    }

    fn trail(&mut self) {
        let bits = 8 - (self.waiting % 8) as u8;
        self.put(1 << (bits - 1), bits);
    }

    fn finish(self) -> Vec<u8> {
        let BitWriter {
            mut bytes,
            recent,
            mut waiting,
        } = self;
        while waiting >= 8 {
            waiting -= 8;
            bytes.push((recent >> waiting) as u8);
        }
        bytes
    }
}

#[inline(never)]
fn put_fields(fields: &[Field]) -> Vec<u8> {
    let mut writer = BitWriter::new();
    for field in fields {
        writer.put(field.value, field.bits);
    }
    writer.trail();
    writer.finish()
}

// Whether the third byte from a place on is there, and is larger than an escaped one.
fn third_is_large(bytes: &[u8], at: usize) -> bool {
    bytes
        .get(at + 2)
        .is_some_and(|&byte| byte > LARGEST_ESCAPED)
}

#[inline(never)]
fn write_nal(kind: u8, temporal: u8, payload: &[u8]) -> Vec<u8> {
    let mut bytes = Vec::new();
    bytes.extend_from_slice(&[0, 0, 0, 1, kind * 2, temporal + 1]);
    let mut from = 0;
    let mut zeros = 0usize;
    let mut at = 0;
    while at < payload.len() {
        while zeros == 0 && third_is_large(payload, at) {
            at += 3;
        }
        let Some(&byte) = payload.get(at) else { break };
        if zeros > 1 && byte <= LARGEST_ESCAPED {
            bytes.extend_from_slice(&payload[from..at]);
            bytes.push(THREE_BYTE);
            from = at;
            zeros = 0;
        }
        zeros = if byte == 0 { zeros + 1 } else { 0 };
        at += 1;
    }
    bytes.extend_from_slice(&payload[from..]);
    bytes
}

#[inline(never)]
fn strip_nal(unit: &[u8]) -> Vec<u8> {
    let escaped = &unit[2..];
    let mut bytes = Vec::with_capacity(escaped.len());
    let mut from = 0;
    let mut run = 0usize;
    let mut at = 0;
    while at < escaped.len() {
        while run == 0 && third_is_large(escaped, at) {
            at += 3;
        }
        let Some(&byte) = escaped.get(at) else { break };
        if run > 1 && byte == THREE_BYTE {
            bytes.extend_from_slice(&escaped[from..at]);
            from = at + 1;
            run = 0;
        } else {
            run = if byte == 0 { run + 1 } else { 0 };
        }
        at += 1;
    }
    bytes.extend_from_slice(&escaped[from..]);
    bytes
}

#[derive(Clone, Copy)]
struct Field {
    value: u32,
    bits: u8,
}

struct Streams {
    fields: Vec<Field>,
    payload: Vec<u8>,
    unit: Vec<u8>,
}

fn next(state: u32) -> u32 {
    state.wrapping_mul(1664525).wrapping_add(1013904223)
}

fn field_of(word: u32) -> Field {
    let bits = (word >> 27) as u8 + 1;
    Field {
        value: word >> (32 - bits),
        bits,
    }
}

fn noise_fields() -> Vec<Field> {
    let mut fields = Vec::new();
    let mut state = 3;
    for _ in 0..FIELDS {
        state = next(state);
        fields.push(field_of(state));
    }
    fields
}

fn noise_payload() -> Vec<u8> {
    let mut payload = Vec::new();
    let mut state = 4;
    for _ in 0..PAYLOAD - 1 {
        state = next(state);
        let byte = (state >> 24) as u8;
        payload.push(if byte < 16 { 0 } else { byte });
    }
    payload.push(128);
    payload
}

type BitKernel = fn(&Streams) -> Vec<u8>;

const BIT_KERNELS: [(&str, BitKernel); 3] = [
    ("put", |streams| put_fields(&streams.fields)),
    ("write_nal", |streams| {
        write_nal(NAL_UNIT_TYPE, 0, &streams.payload)
    }),
    ("strip_nal", |streams| strip_nal(&streams.unit[4..])),
];

fn sum_of(bytes: &[u8]) -> u64 {
    let mut sum = bytes.len() as u64;
    for part in bytes.chunks(SAMPLED) {
        sum = sum.wrapping_mul(31).wrapping_add(u64::from(part[0]));
    }
    sum
}

fn checksum_of_bits(kernel: BitKernel, rounds: usize) -> u64 {
    let payload = noise_payload();
    let unit = write_nal(NAL_UNIT_TYPE, 0, &payload);
    let streams = Streams {
        fields: noise_fields(),
        payload,
        unit,
    };
    let mut sum = 0u64;
    for _ in 0..rounds {
        sum = sum.wrapping_add(sum_of(&kernel(&streams)));
    }
    sum
}

// Intra prediction, as `crates/hv_intra` has it.

#[rustfmt::skip]
static ANGLES: [i8; 33] = [
    32, 26, 21, 17, 13, 9, 5, 2, 0, -2, -5, -9, -13, -17, -21, -26,
    -32, -26, -21, -17, -13, -9, -5, -2, 0, 2, 5, 9, 13, 17, 21, 26, 32,
];

#[rustfmt::skip]
static INVERSE_ANGLES: [i16; 15] = [
    -4096, -1638, -910, -630, -482, -390, -315, -256, -315, -390, -482, -630, -910, -1638, -4096,
];

const LONGEST: usize = 129;
const PLACES: usize = 98;

#[inline(always)]
fn left(line: &[u8], n: usize, i: usize) -> u8 {
    line[2 * n - i]
}

#[inline(always)]
fn above(line: &[u8], n: usize, i: usize) -> u8 {
    line[2 * n + i]
}

#[inline(always)]
fn predict_planar(line: &[u8], n: usize, log2: u8, out: &mut [u8]) {
    let right = u16::from(above(line, n, n + 1));
    let lower = u16::from(left(line, n, n + 1));
    for y in 0..n {
        let row = &mut out[y * n..y * n + n];
        let beside = u16::from(left(line, n, y + 1));
        for x in 0..n {
            let across = (n - 1 - x) as u16 * beside + (x + 1) as u16 * right;
            let over = u16::from(above(line, n, x + 1));
            let down = (n - 1 - y) as u16 * over + (y + 1) as u16 * lower;
            row[x] = ((across + down + n as u16) >> (log2 + 1)) as u8;
        }
    }
}

#[inline(always)]
fn edge_of_dc(neighbour: u8, value: u8) -> u8 {
    ((u16::from(neighbour) + 3 * u16::from(value) + 2) / 4) as u8
}

#[inline(always)]
fn predict_dc(line: &[u8], n: usize, log2: u8, luma: bool, out: &mut [u8]) {
    let mut sum = 0;
    for i in 1..=n {
        sum += u16::from(above(line, n, i)) + u16::from(left(line, n, i));
    }
    let value = ((sum + n as u16) >> (log2 + 1)) as u8;
    out.fill(value);
    if luma && n < 32 {
        let beside = u16::from(left(line, n, 1)) + u16::from(above(line, n, 1));
        out[0] = ((beside + 2 * u16::from(value) + 2) / 4) as u8;
        for x in 1..n {
            out[x] = edge_of_dc(above(line, n, x + 1), value);
        }
        for y in 1..n {
            out[y * n] = edge_of_dc(left(line, n, y + 1), value);
        }
    }
}

#[inline(always)]
fn edge_of_straight(first: u8, other: u8, corner: u8) -> u8 {
    let moved = (i16::from(other) - i16::from(corner)) >> 1;
    (i16::from(first) + moved).clamp(0, 255) as u8
}

#[inline(always)]
fn predict_vertical(line: &[u8], n: usize, out: &mut [u8]) {
    for y in 0..n {
        let row = &mut out[y * n..y * n + n];
        row.copy_from_slice(&line[2 * n + 1..3 * n + 1]);
        row[0] = edge_of_straight(row[0], left(line, n, y + 1), left(line, n, 0));
    }
}

#[inline(always)]
fn predict_horizontal(line: &[u8], n: usize, out: &mut [u8]) {
    let first = left(line, n, 1);
    let corner = left(line, n, 0);
    for x in 0..n {
        out[x] = edge_of_straight(first, above(line, n, x + 1), corner);
    }
    for y in 1..n {
        out[y * n..y * n + n].fill(left(line, n, y + 1));
    }
}

#[inline(always)]
fn fill_rows(reference: &[u8; PLACES], n: usize, angle: i32, out: &mut [u8]) {
    for y in 0..n {
        let way = (y as i32 + 1) * angle;
        let first = (n as i32 + 1 + (way >> 5)) as usize;
        let part = (way & 31) as u16;
        let row = &mut out[y * n..y * n + n];
        let samples = &reference[first..first + n + 1];
        if part == 0 {
            row.copy_from_slice(&samples[..n]);
        } else {
            for x in 0..n {
                let (a, b) = (u16::from(samples[x]), u16::from(samples[x + 1]));
                row[x] = (((32 - part) * a + part * b + 16) >> 5) as u8;
            }
        }
    }
}

/// How many samples before the corner a mode refers to, and where each lies on the other side.
#[inline(always)]
fn projected(n: usize, mode: u8) -> impl Iterator<Item = usize> {
    let count = if (11..=25).contains(&mode) {
        -((n as i32 * i32::from(ANGLES[usize::from(mode) - 2])) >> 5) - 1
    } else {
        0
    };
    (0..count).map(move |i| {
        ((-(i + 1) * i32::from(INVERSE_ANGLES[usize::from(mode) - 11]) + 128) >> 8) as usize
    })
}

#[inline(always)]
fn predict_angular(line: &[u8], n: usize, mode: u8, out: &mut [u8]) {
    let angle = i32::from(ANGLES[usize::from(mode) - 2]);
    let mut reference = [0; PLACES];
    if mode < 18 {
        for i in 0..2 * n + 1 {
            reference[n + i] = left(line, n, i);
        }
        for (i, place) in projected(n, mode).enumerate() {
            reference[n - 1 - i] = above(line, n, place);
        }
        let mut columns = [0; 1024];
        fill_rows(&reference, n, angle, &mut columns[..n * n]);
        for y in 0..n {
            let row = &mut out[y * n..y * n + n];
            for x in 0..n {
                row[x] = columns[x * n + y];
            }
        }
    } else {
        reference[n..3 * n + 1].copy_from_slice(&line[2 * n..4 * n + 1]);
        for (i, place) in projected(n, mode).enumerate() {
            reference[n - 1 - i] = left(line, n, place);
        }
        fill_rows(&reference, n, angle, out);
    }
}

#[inline(always)]
fn predict_by_mode(line: &[u8], log2: u8, mode: u8, luma: bool, out: &mut [u8]) {
    let n = 1 << log2;
    let edged = luma && log2 < 5;
    match mode {
        0 => predict_planar(line, n, log2, out),
        1 => predict_dc(line, n, log2, luma, out),
        10 if edged => predict_horizontal(line, n, out),
        26 if edged => predict_vertical(line, n, out),
        _ => predict_angular(line, n, mode, out),
    }
}

#[inline(always)]
fn predict_side(line: &[u8], log2: u8, mode: u8, luma: bool, out: &mut [u8]) {
    let threshold = match log2 {
        3 => 7,
        4 => 1,
        _ => 0,
    };
    let distance = mode.abs_diff(26).min(mode.abs_diff(10));
    let line = &line[..4 * (1 << log2) + 1];
    let out = &mut out[..1 << (2 * log2)];
    if luma && log2 >= 3 && mode != 1 && distance > threshold {
        let mut smoothed = [0; LONGEST];
        let smoothed = &mut smoothed[..line.len()];
        let last = line.len() - 1;
        smoothed[0] = line[0];
        smoothed[last] = line[last];
        for (sample, three) in smoothed[1..last].iter_mut().zip(line.windows(3)) {
            let sum = u16::from(three[0]) + 2 * u16::from(three[1]) + u16::from(three[2]);
            *sample = ((sum + 2) / 4) as u8;
        }
        predict_by_mode(smoothed, log2, mode, luma, out);
    } else {
        predict_by_mode(line, log2, mode, luma, out);
    }
}

#[inline(never)]
fn predict_intra(line: &[u8], log2: u8, mode: u8, luma: bool, out: &mut [u8]) {
    match log2 {
        2 => predict_side(line, 2, mode, luma, out),
        3 => predict_side(line, 3, mode, luma, out),
        4 => predict_side(line, 4, mode, luma, out),
        _ => predict_side(line, 5, mode, luma, out),
    }
}

type IntraKernel = fn(&[u8], u8, usize) -> u64;

fn run_predict_intra<const LOG2: u8, const SAMPLES: usize>(
    line: &[u8],
    mode: u8,
    place: usize,
) -> u64 {
    let mut block = [0; SAMPLES];
    predict_intra(line, LOG2, mode, true, &mut block);
    u64::from(block[place])
}

// Each with the number of its neighbours, its first mode, and how many modes it goes over.
const INTRA_KERNELS: [(&str, IntraKernel, usize, usize, usize); 15] = [
    ("predict_intra_8", run_predict_intra::<3, 64>, 33, 0, 35),
    ("predict_intra_16", run_predict_intra::<4, 256>, 65, 0, 35),
    ("predict_intra_32", run_predict_intra::<5, 1024>, 129, 0, 35),
    ("planar_8", run_predict_intra::<3, 64>, 33, 0, 1),
    ("planar_16", run_predict_intra::<4, 256>, 65, 0, 1),
    ("planar_32", run_predict_intra::<5, 1024>, 129, 0, 1),
    ("dc_8", run_predict_intra::<3, 64>, 33, 1, 1),
    ("dc_16", run_predict_intra::<4, 256>, 65, 1, 1),
    ("dc_32", run_predict_intra::<5, 1024>, 129, 1, 1),
    ("angular_left_8", run_predict_intra::<3, 64>, 33, 2, 16),
    ("angular_left_16", run_predict_intra::<4, 256>, 65, 2, 16),
    ("angular_left_32", run_predict_intra::<5, 1024>, 129, 2, 16),
    ("angular_above_8", run_predict_intra::<3, 64>, 33, 18, 17),
    ("angular_above_16", run_predict_intra::<4, 256>, 65, 18, 17),
    ("angular_above_32", run_predict_intra::<5, 1024>, 129, 18, 17),
];

fn checksum_of_intra(
    kernel: IntraKernel,
    count: usize,
    first: usize,
    modes: usize,
    rounds: usize,
) -> u64 {
    let mut state = 5;
    let mut line = Vec::new();
    for _ in 0..count {
        state = next(state);
        line.push((state >> 24) as u8);
    }
    let mut sum = 0u64;
    for round in 0..rounds {
        for place in 0..CALLS {
            let mode = (first + (place + round % 9520) % modes) as u8;
            sum = sum.wrapping_add(kernel(&line, mode, place));
        }
    }
    sum
}

// The transform matrix, from the entries of a quarter of a turn.
const QUARTER_TURN: [i8; 32] = [
    90, 90, 90, 89, 88, 87, 85, 83, 82, 80, 78, 75, 73, 70, 67, 64, 61, 57, 54, 50, 46, 43, 38, 36,
    31, 25, 22, 18, 13, 9, 4, 0,
];

const fn entry(k: usize, n: usize) -> i8 {
    let step = (2 * n + 1) * k % 128;
    let step = if step > 64 { 128 - step } else { step };
    match step {
        0 => 64,
        1..=32 => QUARTER_TURN[step - 1],
        _ => -QUARTER_TURN[63 - step],
    }
}

const fn matrix<const N: usize>() -> [[i8; N]; N] {
    let mut rows = [[0; N]; N];
    let mut k = 0;
    while k < N {
        let mut n = 0;
        while n < N {
            rows[k][n] = entry(k * 32 / N, n);
            n += 1;
        }
        k += 1;
    }
    rows
}

const fn turned<const N: usize>(rows: [[i8; N]; N]) -> [[i8; N]; N] {
    let mut columns = [[0; N]; N];
    let mut k = 0;
    while k < N {
        let mut n = 0;
        while n < N {
            columns[n][k] = rows[k][n];
            n += 1;
        }
        k += 1;
    }
    columns
}

static ROWS_4: [[i8; 4]; 4] = matrix();
static ROWS_8: [[i8; 8]; 8] = matrix();
static ROWS_16: [[i8; 16]; 16] = matrix();
static ROWS_32: [[i8; 32]; 32] = matrix();
static COLUMNS_4: [[i8; 4]; 4] = turned(matrix());
static COLUMNS_8: [[i8; 8]; 8] = turned(matrix());
static COLUMNS_16: [[i8; 16]; 16] = turned(matrix());
static COLUMNS_32: [[i8; 32]; 32] = turned(matrix());

#[inline(never)]
fn dot<const N: usize>(entries: &[i8; N], numbers: &[i16; N]) -> i32 {
    let mut sum = 0;
    for x in 0..N {
        sum += i32::from(entries[x]) * i32::from(numbers[x]);
    }
    sum
}

fn mean<const N: usize>(entries: &[i8; N], numbers: &[i16; N], shift: u32) -> i32 {
    (dot(entries, numbers) + (1 << (shift - 1))) >> shift
}

fn row_of<const N: usize>(block: &[i16], y: usize) -> &[i16; N] {
    block[y * N..y * N + N].try_into().unwrap()
}

#[inline(always)]
fn inverse_of<const N: usize>(
    columns: &[[i8; N]; N],
    coefficients: &[i32],
    turned: &mut [i16],
    halfway: &mut [i16],
    out: &mut [i16],
) {
    for x in 0..N {
        for y in 0..N {
            turned[x * N + y] = coefficients[y * N + x] as i16;
        }
    }
    for y in 0..N {
        for x in 0..N {
            let value = mean(&columns[y], row_of(turned, x), 7);
            halfway[y * N + x] = value.clamp(-32768, 32767) as i16;
        }
    }
    for y in 0..N {
        let numbers = row_of(halfway, y);
        for x in 0..N {
            out[y * N + x] = mean(&columns[x], numbers, 12) as i16;
        }
    }
}

#[inline(never)]
fn inverse(coefficients: &[i32], log2: u8, out: &mut [i16]) {
    match log2 {
        2 => inverse_of(&COLUMNS_4, coefficients, &mut [0; 16], &mut [0; 16], out),
        3 => inverse_of(&COLUMNS_8, coefficients, &mut [0; 64], &mut [0; 64], out),
        4 => inverse_of(&COLUMNS_16, coefficients, &mut [0; 256], &mut [0; 256], out),
        _ => inverse_of(
            &COLUMNS_32,
            coefficients,
            &mut [0; 1024],
            &mut [0; 1024],
            out,
        ),
    }
}

#[inline(always)]
fn forward_of<const N: usize>(
    rows: &[[i8; N]; N],
    residual: &[i16],
    log2: u8,
    halfway: &mut [i16],
    out: &mut [i32],
) {
    for u in 0..N {
        for y in 0..N {
            let value = mean(&rows[u], row_of(residual, y), u32::from(log2 - 1));
            halfway[u * N + y] = value as i16;
        }
    }
    for v in 0..N {
        for u in 0..N {
            out[v * N + u] = mean(&rows[v], row_of(halfway, u), u32::from(log2 + 6));
        }
    }
}

#[inline(never)]
fn forward(residual: &[i16], log2: u8, out: &mut [i32]) {
    match log2 {
        2 => forward_of(&ROWS_4, residual, log2, &mut [0; 16], out),
        3 => forward_of(&ROWS_8, residual, log2, &mut [0; 64], out),
        4 => forward_of(&ROWS_16, residual, log2, &mut [0; 256], out),
        _ => forward_of(&ROWS_32, residual, log2, &mut [0; 1024], out),
    }
}

// ---- inter prediction

const LUMA_TAPS: [[i16; 8]; 4] = [
    [0, 0, 0, 64, 0, 0, 0, 0],
    [-1, 4, -10, 58, 17, -5, 1, 0],
    [-1, 4, -11, 40, 40, -11, 4, -1],
    [0, 1, -5, 17, 58, -10, 4, -1],
];

const CHROMA_TAPS: [[i16; 4]; 8] = [
    [0, 64, 0, 0],
    [-2, 58, 10, -2],
    [-4, 54, 16, -2],
    [-6, 46, 28, -4],
    [-4, 36, 36, -4],
    [-4, 28, 46, -6],
    [-2, 16, 54, -4],
    [-2, 10, 58, -2],
];

fn rounded_16(sum: i16) -> u8 {
    (sum.wrapping_add(32) >> 6).clamp(0, 255) as u8
}

#[inline(always)]
fn sum_16<const N: usize, const T: usize>(taps: &[i16; T], rows: &[&[u8; N]; T], x: usize) -> i16 {
    let mut sum = 0i16;
    for k in 0..T {
        sum = sum.wrapping_add(taps[k].wrapping_mul(i16::from(rows[k][x])));
    }
    sum
}

#[inline(never)]
fn inter_copy<const N: usize>(reference: &[u8], stride: usize, out: &mut [u8]) {
    for y in 0..N {
        out[N * y..N * y + N].copy_from_slice(row::<N>(reference, y * stride));
    }
}

// Taps a `step` apart: 1 along rows, the stride down columns.
#[inline(never)]
fn inter_filter<const N: usize, const T: usize>(
    taps: &[i16; T],
    reference: &[u8],
    stride: usize,
    step: usize,
    out: &mut [u8],
) {
    for y in 0..N {
        let rows: [&[u8; N]; T] =
            std::array::from_fn(|k| row::<N>(reference, y * stride + k * step));
        let target: &mut [u8; N] = (&mut out[N * y..N * y + N]).try_into().unwrap();
        for x in 0..N {
            target[x] = rounded_16(sum_16(taps, &rows, x));
        }
    }
}

// Scaling and quantisation, as the definitions have them.
const LEVEL_SCALE: [u32; 6] = [40, 45, 51, 57, 64, 72];
const FACTORS: [u32; 6] = [26214, 23302, 20560, 18396, 16384, 14564];

#[inline(never)]
fn scale(levels: &[i16], log2: u8, qp: u8, out: &mut [i32]) {
    let shift = u32::from(log2) + 3;
    let factor = i64::from((16 * LEVEL_SCALE[usize::from(qp % 6)]) << (qp / 6));
    for (number, &level) in out.iter_mut().zip(levels) {
        let value = (i64::from(level) * factor + (1 << (shift - 1))) >> shift;
        *number = value.clamp(-32768, 32767) as i32;
    }
}

#[inline(never)]
fn inter_both<const N: usize, const T: usize, const ROWS: usize>(
    across: &[i16; T],
    down: &[i16; T],
    reference: &[u8],
    stride: usize,
    out: &mut [u8],
) {
    let mut sums = [[0i16; N]; ROWS];
    for y in 0..ROWS {
        let rows: [&[u8; N]; T] = std::array::from_fn(|k| row::<N>(reference, y * stride + k));
        for x in 0..N {
            sums[y][x] = sum_16(across, &rows, x);
        }
    }
    for y in 0..N {
        let rows: [&[i16; N]; T] = std::array::from_fn(|k| &sums[y + k]);
        let target: &mut [u8; N] = (&mut out[N * y..N * y + N]).try_into().unwrap();
        for x in 0..N {
            let mut sum = 0i32;
            for k in 0..T {
                sum += i32::from(down[k]) * i32::from(rows[k][x]);
            }
            target[x] = (((sum >> 6) + 32) >> 6).clamp(0, 255) as u8;
        }
    }
}

// Blocks whose windows lie inside the reference.
#[inline(always)]
fn inter_block<const N: usize, const T: usize, const ROWS: usize>(
    taps: (&[i16; T], &[i16; T]),
    fractions: (usize, usize),
    reference: &[u8],
    stride: usize,
    out: &mut [u8],
) {
    let before = T / 2 - 1;
    match fractions {
        (0, 0) => inter_copy::<N>(&reference[before * stride + before..], stride, out),
        (_, 0) => inter_filter::<N, T>(taps.0, &reference[before * stride..], stride, 1, out),
        (0, _) => inter_filter::<N, T>(taps.1, &reference[before..], stride, stride, out),
        _ => inter_both::<N, T, ROWS>(taps.0, taps.1, reference, stride, out),
    }
}

fn inter(
    reference: &[u8],
    stride: usize,
    luma: bool,
    place: (usize, usize),
    size: usize,
    mv: (i16, i16),
    out: &mut [u8],
) {
    let bits = if luma { 2 } else { 3 };
    let before = if luma { 3 } else { 1 };
    let x = (place.0 as isize + isize::from(mv.0 >> bits)) as usize - before;
    let y = (place.1 as isize + isize::from(mv.1 >> bits)) as usize - before;
    let window = &reference[y * stride + x..];
    let fractions = (
        (mv.0 & ((1 << bits) - 1)) as usize,
        (mv.1 & ((1 << bits) - 1)) as usize,
    );
    if luma {
        let taps = (&LUMA_TAPS[fractions.0], &LUMA_TAPS[fractions.1]);
        match size {
            16 => inter_block::<16, 8, 23>(taps, fractions, window, stride, out),
            _ => inter_block::<64, 8, 71>(taps, fractions, window, stride, out),
        }
    } else {
        let taps = (&CHROMA_TAPS[fractions.0], &CHROMA_TAPS[fractions.1]);
        match size {
            8 => inter_block::<8, 4, 11>(taps, fractions, window, stride, out),
            _ => inter_block::<32, 4, 35>(taps, fractions, window, stride, out),
        }
    }
}

// The same by hand, of 64x64 luma samples where a component of the vector has a fraction.
fn inter_by_hand(
    reference: &[u8],
    stride: usize,
    place: (usize, usize),
    mv: (i16, i16),
    out: &mut [u8],
) {
    let x = (place.0 as isize + isize::from(mv.0 >> 2)) as usize - 3;
    let y = (place.1 as isize + isize::from(mv.1 >> 2)) as usize - 3;
    let window = &reference[y * stride + x..];
    let (across, down) = (
        &LUMA_TAPS[(mv.0 & 3) as usize],
        &LUMA_TAPS[(mv.1 & 3) as usize],
    );
    match (mv.0 & 3, mv.1 & 3) {
        (_, 0) => hand_inter::rows::<64>(across, &window[3 * stride..], stride, out),
        (0, _) => hand_inter::columns::<64>(down, &window[3..], stride, out),
        _ => hand_inter::both::<64, 71>(across, down, window, stride, out),
    }
}

// A block: its name, whether it is of luma, its size and its vector.
const INTER_KERNELS: [(&str, bool, usize, (i16, i16)); 7] = [
    ("inter_copy_64", true, 64, (16, 16)),
    ("inter_rows_64", true, 64, (17, 16)),
    ("inter_columns_64", true, 64, (16, 18)),
    ("inter_both_64", true, 64, (17, 18)),
    ("inter_both_16", true, 16, (17, 18)),
    ("inter_chroma_8", false, 8, (17, 18)),
    ("inter_chroma_32", false, 32, (17, 18)),
];

fn checksum_of_inter(
    luma: bool,
    size: usize,
    mv: (i16, i16),
    by_hand: bool,
    rounds: usize,
) -> u64 {
    let mut state = 5;
    let mut reference = vec![0u8; SAMPLES];
    for sample in &mut reference {
        state = next(state);
        *sample = (state >> 24) as u8;
    }
    let (mv, size, stride) = (black_box(mv), black_box(size), black_box(WIDTH));
    let mut block = [0; 4096];
    let block = &mut block[..size * size];
    let mut sum = 0u64;
    for _ in 0..rounds {
        for place in 0..CALLS {
            block.fill(0);
            let at = (64 + place, 16 + place % 32);
            if by_hand {
                inter_by_hand(&reference, stride, at, mv, block);
            } else {
                inter(&reference, stride, luma, at, size, mv, block);
            }
            sum = sum.wrapping_add(u64::from(black_box(&*block)[place]));
        }
    }
    sum
}

#[inline(never)]
fn quantise(coefficients: &[i32], log2: u8, qp: u8, intra: bool, out: &mut [i16]) -> bool {
    let shift = 21 + u32::from(qp) / 6 - u32::from(log2);
    let factor = FACTORS[usize::from(qp % 6)];
    let offset = if intra { 171 } else { 85 } << (shift - 9);
    let mut is_some = false;
    for (level, &coefficient) in out.iter_mut().zip(coefficients) {
        let size = ((coefficient.unsigned_abs() * factor + offset) >> shift) as i16;
        *level = if coefficient < 0 { -size } else { size };
        is_some |= *level != 0;
    }
    is_some
}

#[derive(Clone, Copy)]
enum Transform {
    Inverse,
    Forward,
    Quantise,
    Scale,
}

// A transform: its name, which it is, the side, and how many columns and rows have levels.
const TRANSFORM_KERNELS: [(&str, Transform, u8, usize); 16] = [
    ("inverse_4", Transform::Inverse, 2, 4),
    ("forward_4", Transform::Forward, 2, 4),
    ("inverse_8", Transform::Inverse, 3, 8),
    ("inverse_16", Transform::Inverse, 4, 16),
    ("inverse_32", Transform::Inverse, 5, 32),
    ("inverse_corner_16", Transform::Inverse, 4, 8),
    ("inverse_corner_32", Transform::Inverse, 5, 8),
    ("inverse_first_16", Transform::Inverse, 4, 1),
    ("inverse_first_32", Transform::Inverse, 5, 1),
    ("forward_8", Transform::Forward, 3, 8),
    ("forward_16", Transform::Forward, 4, 16),
    ("forward_32", Transform::Forward, 5, 32),
    ("quantise_8", Transform::Quantise, 3, 8),
    ("quantise_32", Transform::Quantise, 5, 32),
    ("scale_8", Transform::Scale, 3, 8),
    ("scale_32", Transform::Scale, 5, 32),
];

// The levels are the residuals of the first columns and rows, scaled at quantiser 26.
fn checksum_of_transforms(
    transform: Transform,
    log2: u8,
    kept: usize,
    by_hand: bool,
    rounds: usize,
) -> u64 {
    let side = 1 << log2;
    let mut state = 5;
    let mut residual = vec![0i16; side * side];
    for number in &mut residual {
        state = next(state);
        *number = i16::from((state >> 24) as u8) - 128;
    }
    let is_kept = |i: usize| i % side < kept && i / side < kept;
    let first = |(i, &level): (usize, &i16)| if is_kept(i) { level } else { 0 };
    let levels: Vec<i16> = residual.iter().enumerate().map(first).collect();
    let mut coefficients = vec![0i32; side * side];
    scale(&levels, log2, 26, &mut coefficients);
    let mut new_residual = vec![0i16; side * side];
    let mut new_coefficients = vec![0i32; side * side];
    let (log2, qp) = (black_box(log2), black_box(26));
    let mut sum = 0u64;
    for _ in 0..rounds {
        for place in 0..CALLS {
            let mut is_some = false;
            match (transform, by_hand) {
                (Transform::Inverse, true) => {
                    hand::inverse::<true>(&coefficients, log2, &mut new_residual)
                }
                (Transform::Inverse, false) => inverse(&coefficients, log2, &mut new_residual),
                (Transform::Forward, true) => hand::forward(&residual, log2, &mut new_coefficients),
                (Transform::Forward, false) => forward(&residual, log2, &mut new_coefficients),
                (Transform::Quantise, true) => {
                    is_some = hand::quantise(&coefficients, log2, qp, true, &mut new_residual)
                }
                (Transform::Quantise, false) => {
                    is_some = quantise(&coefficients, log2, qp, true, &mut new_residual)
                }
                (Transform::Scale, true) => {
                    hand::scale(&residual, log2, qp, &mut new_coefficients)
                }
                (Transform::Scale, false) => scale(&residual, log2, qp, &mut new_coefficients),
            }
            let number = match transform {
                Transform::Inverse | Transform::Quantise => {
                    u32::from(new_residual.get(place).map_or(0, |number| number.unsigned_abs()))
                }
                _ => new_coefficients.get(place).map_or(0, |number| number.unsigned_abs()),
            };
            sum = sum.wrapping_add(u64::from(number) + u64::from(is_some));
        }
    }
    sum
}

fn main() -> ExitCode {
    let words: Vec<String> = env::args().skip(1).collect();
    let (name, rounds, by_hand) = match words.as_slice() {
        [name, rounds] => (name, rounds, false),
        [name, rounds, word] if word == "hand" => (name, rounds, true),
        _ => return ExitCode::FAILURE,
    };
    let Ok(rounds) = rounds.parse() else {
        return ExitCode::FAILURE;
    };
    for (known, kernel) in KERNELS {
        if name == "all" || name == known {
            println!("{known} {}", checksum(kernel, rounds));
        }
    }
    for (known, kernel) in BIT_KERNELS {
        if name == "all" || name == known {
            println!("{known} {}", checksum_of_bits(kernel, rounds));
        }
    }
    for (known, kernel, count, first, modes) in INTRA_KERNELS {
        if name == "all" || name == known {
            let sum = checksum_of_intra(kernel, count, first, modes, rounds);
            println!("{known} {sum}");
        }
    }
    for (known, luma, size, mv) in INTER_KERNELS {
        if name == "all" || name == known {
            let sum = checksum_of_inter(luma, size, mv, by_hand, rounds);
            println!("{known} {sum}");
        }
    }
    for (known, transform, log2, kept) in TRANSFORM_KERNELS {
        if name == "all" || name == known {
            let sum = checksum_of_transforms(transform, log2, kept, by_hand, rounds);
            println!("{known} {sum}");
        }
    }
    levels::print_checksums(name, rounds);
    units::print_checksums(name, rounds);
    edges::print_checksums(name, rounds);
    offsets::print_checksums(name, rounds);
    leaves::print_checksums(name, rounds);
    searches::print_checksums(name, by_hand, rounds);
    ExitCode::SUCCESS
}
