//! The arithmetic encoder of `crates/hv_cabac`, function by function, in plain Rust.

#[rustfmt::skip]
static RANGE_TAB_LPS: [[u8; 4]; 64] = [
    //         0    1    2    3
    /*  0 */ [128, 176, 208, 240],
    /*  1 */ [128, 167, 197, 227],
    /*  2 */ [128, 158, 187, 216],
    /*  3 */ [123, 150, 178, 205],
    /*  4 */ [116, 142, 169, 195],
    /*  5 */ [111, 135, 160, 185],
    /*  6 */ [105, 128, 152, 175],
    /*  7 */ [100, 122, 144, 166],
    /*  8 */ [ 95, 116, 137, 158],
    /*  9 */ [ 90, 110, 130, 150],
    /* 10 */ [ 85, 104, 123, 142],
    /* 11 */ [ 81,  99, 117, 135],
    /* 12 */ [ 77,  94, 111, 128],
    /* 13 */ [ 73,  89, 105, 122],
    /* 14 */ [ 69,  85, 100, 116],
    /* 15 */ [ 66,  80,  95, 110],
    /* 16 */ [ 62,  76,  90, 104],
    /* 17 */ [ 59,  72,  86,  99],
    /* 18 */ [ 56,  69,  81,  94],
    /* 19 */ [ 53,  65,  77,  89],
    /* 20 */ [ 51,  62,  73,  85],
    /* 21 */ [ 48,  59,  69,  80],
    /* 22 */ [ 46,  56,  66,  76],
    /* 23 */ [ 43,  53,  63,  72],
    /* 24 */ [ 41,  50,  59,  69],
    /* 25 */ [ 39,  48,  56,  65],
    /* 26 */ [ 37,  45,  54,  62],
    /* 27 */ [ 35,  43,  51,  59],
    /* 28 */ [ 33,  41,  48,  56],
    /* 29 */ [ 32,  39,  46,  53],
    /* 30 */ [ 30,  37,  43,  50],
    /* 31 */ [ 29,  35,  41,  48],
    /* 32 */ [ 27,  33,  39,  45],
    /* 33 */ [ 26,  31,  37,  43],
    /* 34 */ [ 24,  30,  35,  41],
    /* 35 */ [ 23,  28,  33,  39],
    /* 36 */ [ 22,  27,  32,  37],
    /* 37 */ [ 21,  26,  30,  35],
    /* 38 */ [ 20,  24,  29,  33],
    /* 39 */ [ 19,  23,  27,  31],
    /* 40 */ [ 18,  22,  26,  30],
    /* 41 */ [ 17,  21,  25,  28],
    /* 42 */ [ 16,  20,  23,  27],
    /* 43 */ [ 15,  19,  22,  25],
    /* 44 */ [ 14,  18,  21,  24],
    /* 45 */ [ 14,  17,  20,  23],
    /* 46 */ [ 13,  16,  19,  22],
    /* 47 */ [ 12,  15,  18,  21],
    /* 48 */ [ 12,  14,  17,  20],
    /* 49 */ [ 11,  14,  16,  19],
    /* 50 */ [ 11,  13,  15,  18],
    /* 51 */ [ 10,  12,  15,  17],
    /* 52 */ [ 10,  12,  14,  16],
    /* 53 */ [  9,  11,  13,  15],
    /* 54 */ [  9,  11,  12,  14],
    /* 55 */ [  8,  10,  12,  14],
    /* 56 */ [  8,   9,  11,  13],
    /* 57 */ [  7,   9,  11,  12],
    /* 58 */ [  7,   9,  10,  12],
    /* 59 */ [  7,   8,  10,  11],
    /* 60 */ [  6,   8,   9,  11],
    /* 61 */ [  6,   7,   9,  10],
    /* 62 */ [  6,   7,   8,   9],
    /* 63 */ [  2,   2,   2,   2],
];

// The states after the values 0 and 1, for each state.
#[rustfmt::skip]
static NEXT_STATES: [u8; 256] = [
    // pStateIdx:    after 0 and 1 of valMps 0, of valMps 1
    /*  0 to  3 */  2,   1,   0,   3,    4,   0,   1,   5,    6,   2,   3,   7,    8,   4,   5,   9,
    /*  4 to  7 */ 10,   4,   5,  11,   12,   8,   9,  13,   14,   8,   9,  15,   16,  10,  11,  17,
    /*  8 to 11 */ 18,  12,  13,  19,   20,  14,  15,  21,   22,  16,  17,  23,   24,  18,  19,  25,
    /* 12 to 15 */ 26,  18,  19,  27,   28,  22,  23,  29,   30,  22,  23,  31,   32,  24,  25,  33,
    /* 16 to 19 */ 34,  26,  27,  35,   36,  26,  27,  37,   38,  30,  31,  39,   40,  30,  31,  41,
    /* 20 to 23 */ 42,  32,  33,  43,   44,  32,  33,  45,   46,  36,  37,  47,   48,  36,  37,  49,
    /* 24 to 27 */ 50,  38,  39,  51,   52,  38,  39,  53,   54,  42,  43,  55,   56,  42,  43,  57,
    /* 28 to 31 */ 58,  44,  45,  59,   60,  44,  45,  61,   62,  46,  47,  63,   64,  48,  49,  65,
    /* 32 to 35 */ 66,  48,  49,  67,   68,  50,  51,  69,   70,  52,  53,  71,   72,  52,  53,  73,
    /* 36 to 39 */ 74,  54,  55,  75,   76,  54,  55,  77,   78,  56,  57,  79,   80,  58,  59,  81,
    /* 40 to 43 */ 82,  58,  59,  83,   84,  60,  61,  85,   86,  60,  61,  87,   88,  60,  61,  89,
    /* 44 to 47 */ 90,  62,  63,  91,   92,  64,  65,  93,   94,  64,  65,  95,   96,  66,  67,  97,
    /* 48 to 51 */ 98,  66,  67,  99,  100,  66,  67, 101,  102,  68,  69, 103,  104,  68,  69, 105,
    /* 52 to 55 */106,  70,  71, 107,  108,  70,  71, 109,  110,  70,  71, 111,  112,  72,  73, 113,
    /* 56 to 59 */114,  72,  73, 115,  116,  72,  73, 117,  118,  74,  75, 119,  120,  74,  75, 121,
    /* 60 to 63 */122,  74,  75, 123,  124,  76,  77, 125,  124,  76,  77, 125,  124, 126, 127, 125,
];

#[rustfmt::skip]
static INIT_VALUES_I: [u8; 140] = [
    /* split_cu_flag                          */ 139, 141, 157,
    /* cu_skip_flag                           */ 154, 154, 154,
    /* part_mode                              */ 184, 154, 154, 154,
    /* pred_mode_flag                         */ 154,
    /* prev_intra_luma_pred_flag              */ 184,
    /* intra_chroma_pred_mode                 */  63,
    /* merge_flag                             */ 154,
    /* ref_idx_l0                             */ 154, 154,
    /* abs_mvd_greater0_flag                  */ 154,
    /* abs_mvd_greater1_flag                  */ 154,
    /* mvp_l0_flag                            */ 154,
    /* rqt_root_cbf                           */ 154,
    /* cbf_luma                               */ 111, 141,
    /* cbf_cb, cbf_cr                         */  94, 138, 182, 154,
    /* sao_merge_left_flag, sao_merge_up_flag */ 153,
    /* sao_type_idx_luma, sao_type_idx_chroma */ 200,
    /* last_sig_coeff_x_prefix                */ 110, 110, 124, 125, 140, 153, 125, 127, 140,
    /*                                        */ 109, 111, 143, 127, 111,  79, 108, 123,  63,
    /* last_sig_coeff_y_prefix                */ 110, 110, 124, 125, 140, 153, 125, 127, 140,
    /*                                        */ 109, 111, 143, 127, 111,  79, 108, 123,  63,
    /* coded_sub_block_flag                   */  91, 171, 134, 141,
    /* sig_coeff_flag                         */ 111, 111, 125, 110, 110,  94, 124, 108, 124,
    /*                                        */ 107, 125, 141, 179, 153, 125, 107, 125, 141,
    /*                                        */ 179, 153, 125, 107, 125, 141, 179, 153, 125,
    /*                                        */ 140, 139, 182, 182, 152, 136, 152, 136, 153,
    /*                                        */ 136, 139, 111, 136, 139, 111,
    /* coeff_abs_level_greater1_flag          */ 140,  92, 137, 138, 140, 152, 138, 139, 153,
    /*                                        */  74, 149,  92, 139, 107, 122, 152, 140, 179,
    /*                                        */ 166, 182, 140, 227, 122, 197,
    /* coeff_abs_level_greater2_flag          */ 138, 153, 136, 167, 152, 152,
];

fn add_carry(out: &mut [u8]) {
    for byte in out.iter_mut().rev() {
        if *byte == 255 {
            *byte = 0;
        } else {
            *byte += 1;
            return;
        }
    }
}

fn put_byte(out: &mut Vec<u8>, low: u64, bits: u32) {
    let lead = low >> (bits - 8);
    if lead >= 256 {
        add_carry(out);
    }
    out.push((lead % 256) as u8);
}

struct Register {
    low: u64,
    range: u32,
    bits: u32,
    out: Vec<u8>,
}

impl Register {
    fn new() -> Register {
        Register {
            low: 0,
            range: 510,
            bits: 9,
            out: Vec::new(),
        }
    }

    #[inline(always)]
    fn put_bits(&mut self, low: u64, range: u32, bits: u32) {
        self.range = range;
        if bits < 18 {
            self.low = low;
            self.bits = bits;
        } else {
            put_byte(&mut self.out, low, bits);
            self.low = low % (1 << (bits - 8));
            self.bits = bits - 8;
        }
    }

    #[inline(always)]
    fn renormalise(&mut self, skip: u32, width: u32) {
        let times = width.leading_zeros() - 23;
        let low = (self.low + u64::from(skip)) << times;
        self.put_bits(low, width << times, self.bits + times);
    }

    #[inline(always)]
    fn encode_decision(&mut self, lps: u32, is_mps: bool) {
        if is_mps {
            self.renormalise(0, self.range - lps);
        } else {
            self.renormalise(self.range - lps, lps);
        }
    }

    #[inline(always)]
    fn encode_bypass(&mut self, value: bool) {
        let skip = if value { self.range } else { 0 };
        self.put_bits(self.low * 2 + u64::from(skip), self.range, self.bits + 1);
    }

    fn flush(mut self) -> Vec<u8> {
        let pad = (8 - self.bits % 8) % 8;
        let last = self.low + u64::from(self.range) - 2;
        let mut rest = (last + (1 - last % 2)) << pad;
        let mut left = self.bits + pad;
        while left > 0 {
            put_byte(&mut self.out, rest, left);
            left -= 8;
            rest %= 1 << left;
        }
        self.out
    }
}

fn first_state(qp: u8, init_value: u8) -> u8 {
    let slope = i32::from(init_value / 16 * 5) - 45;
    let offset = i32::from(init_value % 16 * 8) - 16;
    let state = (((slope * i32::from(qp)) >> 4) + offset).clamp(1, 126) as u8;
    if state > 63 {
        (state - 64) * 2 + 1
    } else {
        (63 - state) * 2
    }
}

pub struct Encoder {
    register: Register,
    states: [u8; 140],
}

impl Encoder {
    pub fn new(qp: u8) -> Encoder {
        Encoder {
            register: Register::new(),
            states: INIT_VALUES_I.map(|value| first_state(qp, value)),
        }
    }

    #[inline(always)]
    pub fn bin(&mut self, place: usize, value: bool) {
        let state = self.states[place];
        let row = &RANGE_TAB_LPS[usize::from(state / 2 % 64)];
        let lps = row[(self.register.range / 64 % 4) as usize];
        self.register
            .encode_decision(u32::from(lps), value == (state % 2 == 1));
        self.states[place] = NEXT_STATES[usize::from(state % 128) * 2 + usize::from(value)];
    }

    #[inline(always)]
    pub fn bypass(&mut self, value: bool) {
        self.register.encode_bypass(value);
    }

    // end_of_slice_segment_flag 0
    #[inline(always)]
    pub fn continue_slice(&mut self) {
        let width = self.register.range - 2;
        self.register.renormalise(0, width);
    }

    // The bin that ends the slice leaves the interval as it is.
    pub fn finish(self) -> Vec<u8> {
        self.register.flush()
    }
}
