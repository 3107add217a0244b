// Opcode lists, made by chance: every opcode, regions near the window, odd numbers everywhere; then damaged copies.
use crate::rng::{f32_bits, f32_tame, f64_bits, Rng};

pub struct Around {
    pub width: usize,
    pub height: usize,
    pub planes: usize,
    pub x0: usize,
    pub y0: usize,
}

pub fn word(b: &mut Vec<u8>, w: u32) {
    b.extend_from_slice(&w.to_be_bytes());
}

fn long(b: &mut Vec<u8>, w: u64) {
    b.extend_from_slice(&w.to_be_bytes());
}

pub fn entry(list: &mut Vec<u8>, id: u32, flags: u32, body: &[u8]) {
    for w in [id, 0x0103_0000, flags, body.len() as u32] {
        word(list, w);
    }
    list.extend_from_slice(body);
}

pub fn list_of(entries: &[(u32, Vec<u8>)]) -> Vec<u8> {
    let mut l = Vec::new();
    word(&mut l, entries.len() as u32);
    for (id, body) in entries {
        entry(&mut l, *id, 0, body);
    }
    l
}

// A coordinate near from .. from + n.
fn coordinate(r: &mut Rng, from: usize, n: usize) -> u32 {
    match r.below(20) {
        0 => r.next() as u32,
        1 => u32::MAX,
        2 => 0,
        3 => (from + n) as u32,
        4 => from as u32,
        _ => (from + r.below(n + 5)).saturating_sub(2) as u32,
    }
}

fn low(r: &mut Rng, from: usize, n: usize) -> u32 {
    match r.below(8) {
        0 => coordinate(r, from, n),
        1..=3 => 0,
        4 => from as u32,
        _ => (from + r.below(n / 2 + 3)).saturating_sub(2) as u32,
    }
}

fn high(r: &mut Rng, from: usize, n: usize) -> u32 {
    match r.below(8) {
        0 => coordinate(r, from, n),
        1..=3 => u32::MAX - r.below(3) as u32,
        4 => (from + n) as u32,
        _ => (from + n / 2 + r.below(n / 2 + 4)) as u32,
    }
}

fn pitch(r: &mut Rng, n: usize) -> u32 {
    match r.below(16) {
        0 => 0,
        1 => r.next() as u32,
        2 => u32::MAX,
        3 => n as u32,
        4 | 5 => 3,
        6..=8 => 2,
        _ => 1,
    }
}

pub fn region(r: &mut Rng, a: &Around) -> [u32; 8] {
    let plane = match r.below(10) {
        0 => r.pick(&[a.planes as u32, u32::MAX, a.planes as u32 + 1]),
        1..=3 => r.below(a.planes.max(1)) as u32,
        _ => 0,
    };
    let planes = match r.below(10) {
        0 => 0,
        1 => u32::MAX,
        2..=4 => 1,
        _ => 1 + r.below(a.planes + 2) as u32,
    };
    [
        low(r, a.y0, a.height),
        low(r, a.x0, a.width),
        high(r, a.y0, a.height),
        high(r, a.x0, a.width),
        plane,
        planes,
        pitch(r, a.height),
        pitch(r, a.width),
    ]
}

fn put_region(b: &mut Vec<u8>, g: [u32; 8]) {
    for w in g {
        word(b, w);
    }
}

fn f32s(r: &mut Rng, b: &mut Vec<u8>, n: usize) {
    let tame = !r.once(4);
    for _ in 0..n {
        let v = if tame { f32_tame(r) } else { f32_bits(r) };
        word(b, v);
    }
}

pub fn body(r: &mut Rng, id: u32, a: &Around) -> Vec<u8> {
    let mut b = Vec::new();
    match id {
        1 => {
            let n = if r.once(4) { r.pick(&[0, 5, u32::MAX]) } else { r.within(1, 4) as u32 };
            word(&mut b, n);
            let doubles = if n <= 4 { 6 * n as usize + 2 } else { 4 };
            for _ in 0..doubles.saturating_sub(r.below(8) / 7) {
                let d = f64_bits(r);
                long(&mut b, d);
            }
        }
        2 => b.resize(r.below(9), 0x55),
        3 => {
            for i in 0..7 {
                let d = if i < 5 || r.once(3) {
                    f64_bits(r)
                } else {
                    r.pick(&[0.5f64, 0.25, 0.0, 1.0, 0.501]).to_bits()
                };
                long(&mut b, d);
            }
        }
        4 => {
            let c = match r.below(12) {
                0 => r.next() as u32,
                1 => r.pick(&[16_777_217, 16_777_216, 65_535, 65_536, u32::MAX]),
                2 => r.below(65536) as u32,
                _ => r.below(5) as u32,
            };
            word(&mut b, c);
            let phase = r.below(5) as u32;
            word(&mut b, phase);
        }
        5 => {
            let np = if r.once(6) { 0 } else { r.below(a.width * a.height / 3 + 4).min(40) };
            let nr = if r.once(2) { 0 } else { r.below(4) };
            for w in [r.below(4) as u32, np as u32, nr as u32] {
                word(&mut b, w);
            }
            for _ in 0..np {
                let (y, x) = (coordinate(r, a.y0, a.height), coordinate(r, a.x0, a.width));
                word(&mut b, y);
                word(&mut b, x);
            }
            for _ in 0..nr {
                let whole = r.once(12);
                for w in [
                    if whole { 0 } else { coordinate(r, a.y0, a.height) },
                    if whole { 0 } else { coordinate(r, a.x0, a.width) },
                    if whole { u32::MAX } else { coordinate(r, a.y0, a.height) },
                    if whole { u32::MAX } else { coordinate(r, a.x0, a.width) },
                ] {
                    word(&mut b, w);
                }
            }
        }
        6 => {
            for _ in 0..4 {
                let w = r.next() as u32;
                word(&mut b, w);
            }
        }
        7 => {
            put_region(&mut b, region(r, a));
            let n = match r.below(40) {
                0..=3 => 0,
                4 => 1,
                5 => 256,
                6 if r.once(40) => 65_536,
                _ => 1 + r.below(24),
            };
            word(&mut b, n as u32);
            for i in 0..n {
                let v = match r.below(4) {
                    0 => r.next() as u16,
                    1 => r.below(5) as u16,
                    _ => (i * 2) as u16,
                };
                b.extend_from_slice(&v.to_be_bytes());
            }
        }
        8 => {
            put_region(&mut b, region(r, a));
            let degree = r.below(9);
            word(&mut b, degree as u32);
            for _ in 0..=degree {
                let d = f64_bits(r);
                long(&mut b, d);
            }
        }
        9 => {
            put_region(&mut b, region(r, a));
            let (v, h) = (r.within(1, 5), r.within(1, 6));
            let planes = r.below(4);
            word(&mut b, v as u32);
            word(&mut b, h as u32);
            for n in [v, h] {
                let s = match r.below(8) {
                    0 => f64_bits(r),
                    1 => 0,
                    2 => (-0.25f64).to_bits(),
                    _ => (1.0 / (n.max(2) - 1) as f64).to_bits(),
                };
                long(&mut b, s);
            }
            for _ in 0..2 {
                let o = match r.below(6) {
                    0 => f64_bits(r),
                    1 => 0.3f64.to_bits(),
                    2 => (-0.7f64).to_bits(),
                    _ => 0,
                };
                long(&mut b, o);
            }
            word(&mut b, planes as u32);
            f32s(r, &mut b, v * h * planes.max(1));
        }
        10..=13 => {
            put_region(&mut b, region(r, a));
            let n = match r.below(10) {
                0 => 0,
                1 => 200,
                _ => r.below(a.width.max(a.height).min(64) + 2),
            };
            word(&mut b, n as u32);
            f32s(r, &mut b, n);
        }
        _ => b.resize(r.below(12), 0xaa),
    }
    if r.once(25) {
        b.resize(b.len() + r.below(9), 0x77);
    }
    b
}

pub fn any_id(r: &mut Rng) -> u32 {
    match r.below(20) {
        0 => r.pick(&[0, 14, 15, 255, 256, 263, u32::MAX, 0x0700_0000]),
        n => 1 + (n as u32 - 1) % 13,
    }
}

// `kind` leans the list to a form: 0 any opcode, 1 what the whole-number form takes, 2 what the row form takes, 3 many
// repairs.
pub fn list(r: &mut Rng, a: &Around, kind: usize) -> Vec<u8> {
    let n = match r.below(16) {
        0 => 0,
        1..=6 => 1,
        7..=10 => 2,
        11..=14 => r.within(3, 6),
        _ => r.within(5, 14),
    };
    let mut l = Vec::new();
    word(&mut l, n as u32);
    let mut repairs = 0;
    for _ in 0..n {
        let mut id = any_id(r);
        match kind {
            1 => {
                id = r.pick(&[1, 2, 6, 7, 7, 7, 7, 4, 4, 5, 5, 14]);
                if (id == 4 || id == 5) && repairs > 0 && !r.once(8) {
                    id = 7;
                }
            }
            2 if id == 4 || id == 5 => id = r.pick(&[3, 7, 8, 9, 10, 11, 12, 13]),
            3 => id = r.pick(&[4, 5, 4, 5, 7, 12]),
            _ => {}
        }
        if id == 4 || id == 5 {
            repairs += 1;
        }
        let b = body(r, id, a);
        let flags = r.below(4) as u32;
        entry(&mut l, id, flags, &b);
    }
    l
}

// Where the entries of a list start, as far as they can be followed.
pub fn starts(l: &[u8]) -> Vec<usize> {
    let mut at = 4;
    let mut v = Vec::new();
    while at + 16 <= l.len() {
        v.push(at);
        let n = u32::from_be_bytes([l[at + 12], l[at + 13], l[at + 14], l[at + 15]]) as usize;
        at = at.saturating_add(16).saturating_add(n);
    }
    v
}

pub fn damage(r: &mut Rng, l: &mut Vec<u8>) {
    if l.is_empty() {
        return;
    }
    match r.below(9) {
        0 | 1 => {
            for _ in 0..r.within(1, 3) {
                let at = r.below(l.len());
                l[at] ^= 1 << r.below(8);
            }
        }
        2 => {
            let n = r.below(l.len() + 1);
            l.truncate(n);
        }
        3 => {
            let n = l.len() - 1 - r.below(l.len().min(9));
            l.truncate(n);
        }
        4 if l.len() >= 4 => {
            let n = u32::from_be_bytes([l[0], l[1], l[2], l[3]]);
            let c = r.pick(&[n.wrapping_add(1), n.wrapping_sub(1), 4096, 4097, u32::MAX, n | 0x1000]);
            l[..4].copy_from_slice(&c.to_be_bytes());
        }
        5 | 6 => {
            // A length of a body, with what follows left where it is.
            let s = starts(l);
            if !s.is_empty() {
                let at = r.pick(&s) + 12;
                let n = u32::from_be_bytes([l[at], l[at + 1], l[at + 2], l[at + 3]]);
                let m = r.pick(&[n + 1, n.wrapping_sub(1), n.wrapping_sub(4), n.wrapping_sub(8), 0, u32::MAX, n + 16]);
                l[at..at + 4].copy_from_slice(&m.to_be_bytes());
            }
        }
        7 => {
            // A number that counts: what a body holds at 0, 4, 8 and at 32 and after.
            let s = starts(l);
            if !s.is_empty() {
                let at = r.pick(&s) + 16 + r.pick(&[0, 4, 8, 32, 36, 72]);
                if at + 4 <= l.len() {
                    let n = u32::from_be_bytes([l[at], l[at + 1], l[at + 2], l[at + 3]]);
                    let m = r.pick(&[
                        n.wrapping_add(1),
                        n.wrapping_sub(1),
                        0,
                        8,
                        9,
                        16_777_216,
                        16_777_217,
                        u32::MAX,
                        0x1000_0000,
                        0x2000_0000,
                    ]);
                    l[at..at + 4].copy_from_slice(&m.to_be_bytes());
                }
            }
        }
        _ => {
            let n = l.len() + r.below(20);
            l.resize(n, 0xee);
        }
    }
}

// Polynomials that show what chance hides: zeros alone, of either sign, show the sign of each sum; a line that is 0 at
// one of the common samples shows a step that is not rounded.
pub fn sharpen(r: &mut Rng, l: &mut [u8]) {
    for at in starts(l) {
        let (id, body) = (u32::from_be_bytes([l[at], l[at + 1], l[at + 2], l[at + 3]]), at + 16);
        if id != 8 || l.len() < body + 36 + 16 {
            continue;
        }
        let mut coefficients = [r.pick(&[0, 1 << 63]), r.pick(&[0, 1 << 63])];
        let degree = r.below(2);
        if degree == 1 && r.once(2) {
            let x = ((1 + r.below(4)) as f32 / 65535.0) as f64;
            let c = f64::from_bits(0x3ff0 << 48 | r.next() >> 12);
            coefficients = [(-(c * x)).to_bits(), c.to_bits()];
        }
        l[body + 32..body + 36].copy_from_slice(&(degree as u32).to_be_bytes());
        l[body + 36..body + 44].copy_from_slice(&coefficients[0].to_be_bytes());
        l[body + 44..body + 52].copy_from_slice(&coefficients[1].to_be_bytes());
    }
}
