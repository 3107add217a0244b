// Prints what crates/try_leaves must print: the same sweeps, by Rust's own casts and functions.
//
//     rustc -O compare/leaves/leaves.rs -o leaves && ./leaves > crates/try_leaves/stdout
fn bits_of(x: f32) -> u64 {
    if x.is_nan() { 0x7fc0_0000 } else { x.to_bits() as u64 }
}

fn word(s: &[u8], at: usize, k: usize) -> [u8; 8] {
    let mut w = [0u8; 8];
    for i in 0..k {
        w[i] = s.get(at + i).copied().unwrap_or(0);
    }
    w
}

fn in_bytes(bits: u64) -> u64 {
    let mut s = bits.to_be_bytes();
    let at = (bits % 11) as usize;
    let (w2, w4, w8) = (word(&s, at, 2), word(&s, at, 4), word(&s, at, 8));
    let u16b = u16::from_be_bytes([w2[0], w2[1]]);
    let four = [w4[0], w4[1], w4[2], w4[3]];
    let u32b = u32::from_be_bytes(four);
    let u64b = u64::from_be_bytes(w8);
    let big = u16b as u64 + u32b as u64 + u64b % (1 << 32);
    let floats = bits_of(f32::from_bits(u32b)) + bits_of(f64::from_bits(u64b) as f32);
    let low = u16::from_le_bytes([w2[0], w2[1]]) as u64 + bits_of(f32::from_le_bytes(four));
    for (i, b) in 0x1234u16.to_le_bytes().iter().enumerate() {
        if let Some(x) = s.get_mut(at + i) {
            *x = *b;
        }
    }
    for (i, b) in 1.5f32.to_le_bytes().iter().enumerate() {
        if let Some(x) = s.get_mut((at + 5) % 11 + i) {
            *x = *b;
        }
    }
    big + floats + low + u64::from_be_bytes(s) % (1 << 32)
}

fn leaf(kind: u32, bits: u64) -> u64 {
    let low = bits as u32;
    let x = f32::from_bits(low);
    let d = f64::from_bits(bits);
    match kind {
        0 => bits_of(d as f32),
        1 => x.round().clamp(0.0, 65535.0) as u64,
        2 => x.round().clamp(0.0, 16777215.0) as u64,
        3 => x.round().clamp(0.0, 65535.0) as u16 as u64,
        4 => {
            let i = d.floor() as u32;
            i as u64 + bits_of((d - i as f64) as f32)
        }
        5 => bits_of(low as f32),
        6 => bits_of(low as f64 as f32),
        7 => bits_of(x as f64 as f32),
        8 => bits_of(d.clamp(0.0, 4095.0) as f32),
        9 => bits_of((bits as u16) as f32),
        _ => in_bytes(bits),
    }
}

fn line(kind: u32, from: u64, step: u64, n: u32) {
    let (mut sum, mut bits) = (0u64, from);
    for _ in 0..n {
        sum = (sum % (1 << 32)) * 16777619 + leaf(kind, bits) % (1 << 32);
        bits = bits.wrapping_add(step);
    }
    println!("{kind} {from:016x} {step:016x} {n} {:08x}", sum % (1 << 32));
}

fn all(kind: u32) {
    line(kind, 0, 0x0000_1357_9bdf_0245, 900000);
    line(kind, 0x8000_0000_0000_0001, 0x0000_0000_0001_0f3d, 300000);
    line(kind, 0x7ff0_0000_0000_0000, 0x0000_0000_0000_10f3, 100000);
}

fn near(kind: u32, bits: u64) {
    line(kind, bits.wrapping_sub(500), 1, 1000);
}

fn main() {
    all(0);
    near(0, 0x3690_0000_0000_0000);
    near(0, 0x36a0_0000_0000_0000);
    near(0, 0x3810_0000_0000_0000);
    near(0, 0x380f_ffff_e000_0000);
    near(0, 0x3ff0_0000_1000_0000);
    near(0, 0x3ff0_0000_3000_0000);
    near(0, 0xbfff_ffff_f000_0000);
    near(0, 0x47ef_ffff_e000_0000);
    near(0, 0x47ef_ffff_f000_0000);
    near(0, 0x7ff0_0000_0000_0000);
    all(1);
    near(1, 0x3f00_0000);
    near(1, 0x4700_0000);
    near(1, 0x477f_ff00);
    all(2);
    near(2, 0x4affffff);
    near(2, 0x4b80_0000);
    near(2, 0x7f80_0000);
    all(3);
    near(3, 0xbf00_0000);
    all(4);
    near(4, 0x3ff0_0000_0000_0000);
    near(4, 0x4170_0000_0000_0000);
    near(4, 0x41f0_0000_0000_0000);
    near(4, 0x8000_0000_0000_0000);
    all(5);
    near(5, 0x0100_0000);
    near(5, 0xffff_ff80);
    all(6);
    all(7);
    all(8);
    near(8, 0x40af_fe00_0000_0000);
    all(9);
    all(10);
    near(10, 0x0000_0001_7f80_0000);
}
