// A small generator of numbers (SplitMix64): the same seed gives the same cases on every machine.
pub struct Rng(u64);

impl Rng {
    pub fn new(seed: u64, case: u64) -> Rng {
        let mut r = Rng(seed.wrapping_mul(0x9e37_79b9_7f4a_7c15) ^ case.wrapping_mul(0xd134_2543_de82_ef95));
        r.next();
        r
    }

    pub fn next(&mut self) -> u64 {
        self.0 = self.0.wrapping_add(0x9e37_79b9_7f4a_7c15);
        let mut z = self.0;
        z = (z ^ (z >> 30)).wrapping_mul(0xbf58_476d_1ce4_e5b9);
        z = (z ^ (z >> 27)).wrapping_mul(0x94d0_49bb_1331_11eb);
        z ^ (z >> 31)
    }

    // Below n; 0 where n is 0.
    pub fn below(&mut self, n: usize) -> usize {
        if n == 0 {
            0
        } else {
            (self.next() % n as u64) as usize
        }
    }

    // Once in n times.
    pub fn once(&mut self, n: usize) -> bool {
        self.below(n) == 0
    }

    pub fn pick<T: Copy>(&mut self, from: &[T]) -> T {
        from[self.below(from.len())]
    }

    // a ..= b
    pub fn within(&mut self, a: usize, b: usize) -> usize {
        a + self.below(b - a + 1)
    }
}

// The awkward f32 patterns: zeros, ones, infinities, NaNs of several kinds, subnormals, halves, the ends.
pub const F32: [u32; 28] = [
    0x0000_0000, 0x8000_0000, 0x3f80_0000, 0xbf80_0000, 0x7f80_0000, 0xff80_0000, 0x7fc0_0000, 0xffc0_0000, 0x7f80_0001,
    0x7fff_ffff, 0xff80_0001, 0x0000_0001, 0x8000_0001, 0x007f_ffff, 0x0080_0000, 0x7f7f_ffff, 0xff7f_ffff, 0x3f00_0000,
    0xbf00_0000, 0x3fc0_0000, 0x4020_0000, 0x3eff_ffff, 0x3f7f_ffff, 0x477f_ff00, 0x477f_ff80, 0x4780_0000, 0x4b80_0000,
    0x4b7f_ffff,
];

pub fn f32_bits(r: &mut Rng) -> u32 {
    match r.below(10) {
        0 | 1 => r.pick(&F32),
        2 => r.next() as u32,
        3 => (r.below(65536) as f32 + 0.5).to_bits(),
        4 => (r.below(1 << 20) as f32 / 65536.0).to_bits(),
        5 => (-(r.below(100) as f32) / 8.0).to_bits(),
        6 => (r.below(65536) as f32).to_bits(),
        _ => (r.below(6) as f32).to_bits(),
    }
}

// Values that mostly leave a frame finite.
pub fn f32_tame(r: &mut Rng) -> u32 {
    match r.below(24) {
        0 => r.pick(&F32),
        1 => r.next() as u32,
        2..=9 => (r.below(1 << 16) as f32 / 32768.0).to_bits(),
        10..=13 => (-(r.below(1 << 12) as f32) / 65536.0).to_bits(),
        _ => (0.75 + r.below(1 << 12) as f32 / 8192.0).to_bits(),
    }
}

pub fn f64_bits(r: &mut Rng) -> u64 {
    match r.below(16) {
        0 => r.pick(&[
            0,
            1 << 63,
            1,
            0x7ff0 << 48,
            0xfff0 << 48,
            0x7ff8 << 48,
            (0x7ff0 << 48) + 1,
            0x7fef_ffff_ffff_ffff,
            0x0010_0000_0000_0000,
            0x000f_ffff_ffff_ffff,
        ]),
        1 => r.next(),
        2 => (f32::from_bits(f32_bits(r)) as f64).to_bits(),
        3..=6 => (r.below(1 << 30) as f64 / (1u64 << 30) as f64).to_bits(),
        7..=9 => (-(r.below(1 << 20) as f64) / (1 << 20) as f64).to_bits(),
        10 => (r.below(100) as f64).to_bits(),
        _ => (r.below(1 << 16) as f64 / 65536.0 - 0.5).to_bits(),
    }
}
