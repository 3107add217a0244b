// Black level: cases made by chance, each through the four calls, held to `normalize` of the Rust and, for what it has
// no word for, to document 02, M-109. Allowed to differ, and nothing wider: where the Rust gives −0, +0 is wanted
// (docs/DIFFERENCES.md, B1).
use crate::check::Lent;
use crate::rng::{f32_bits, Rng};
use normalize::{normalize, FrameInfo, PixelData, RawImage};
use rolbhunga::black::{Black, Field, Levels};
use std::collections::BTreeMap;

#[derive(Clone)]
struct Case {
    field: Field,
    height: usize,
    width: usize,
    blacks: Vec<f32>,
    scales: Vec<f32>,
    rows: Vec<f32>,
    columns: Vec<f32>,
    floats: Vec<f32>,
    wholes: Vec<u16>,
    // how many samples the outputs have; bytes left over behind inputs and outputs; the rooms of the byte forms
    out: usize,
    over: usize,
    work: usize,
    made: usize,
}

fn float(r: &mut Rng) -> f32 {
    f32::from_bits(f32_bits(r))
}

// A value that mostly leaves something above 0.
fn tame(r: &mut Rng) -> f32 {
    match r.below(8) {
        0 => float(r),
        1 => -(r.below(64) as f32) / 4.0,
        _ => r.below(4096) as f32 / 8.0,
    }
}

// n, one less, or some more.
fn about(r: &mut Rng, n: usize) -> usize {
    match r.below(12) {
        0 => n.saturating_sub(1),
        1 => n + 1 + r.below(3),
        _ => n,
    }
}

// The entries of a list of deltas: none, as many as the field needs, one less, some, or more.
fn deltas(r: &mut Rng, needed: usize) -> Vec<f32> {
    let n = match r.below(8) {
        0..=2 => 0,
        3 | 4 => needed,
        5 => needed.saturating_sub(1 + r.below(4)),
        6 => r.below(needed + 1),
        _ => needed + r.below(4),
    };
    // lists that reach far into the image are mostly not made
    let n = if n > 4096 && !r.once(64) { 0 } else { n };
    (0..n).map(|_| tame(r)).collect()
}

impl Case {
    fn any(r: &mut Rng) -> Case {
        let wide = r.once(300);
        let mut field = Field::new(
            if wide { r.within(65_530, 65_537) } else { r.below(24) },
            if wide { r.below(3) } else { r.below(6) },
            r.pick(&[1, 1, 1, 1, 2, 3, 3, 4, 5, 7, 8]),
        )
        .at(r.below(40), r.below(40));
        match r.below(60) {
            0 => field.height = r.within(65_535, 65_538) * (field.width == 0) as usize,
            1 => field.planes = r.pick(&[0, 9, 100, usize::MAX]),
            2 => field.x0 = r.within(16_777_214, 16_777_218),
            3 => field.y0 = r.within(16_777_214, 16_777_218),
            4 => field.x0 = r.pick(&[4_000_000_000, usize::MAX]),
            _ => {}
        }
        let (mut height, mut width) = (r.within(1, 4), r.pick(&[1, 1, 2, 2, 2, 3, 4, 6, 9, 70]));
        match r.below(40) {
            0 => height = 0,
            1 => width = 0,
            2 => height = r.pick(&[1 << 31, 1 << 63, usize::MAX, 40]),
            3 => width = r.pick(&[1 << 31, 1 << 63, usize::MAX, 300]),
            _ => {}
        }
        let entries = (field.planes as u128 * height as u128 * width as u128).min(4000) as usize;
        let n = samples(&field).min(600_000) as usize;
        let (b, s) = (about(r, entries), about(r, entries));
        let (i, j) = (about(r, n), about(r, n));
        let out = about(r, n);
        Case {
            field,
            height,
            width,
            blacks: (0..b).map(|_| tame(r)).collect(),
            scales: (0..s).map(|_| if r.once(8) { float(r) } else { (1 + r.below(64)) as f32 / 16.0 }).collect(),
            rows: deltas(r, field.y0.saturating_add(field.height).min(17_000_000)),
            columns: deltas(r, field.x0.saturating_add(field.width).min(17_000_000)),
            floats: (0..i).map(|_| if r.once(3) { float(r) } else { r.below(8192) as f32 / 8.0 }).collect(),
            wholes: (0..j).map(|_| if r.once(4) { r.next() as u16 } else { r.below(1024) as u16 }).collect(),
            out,
            over: r.below(4),
            work: about(r, n),
            made: about(r, n),
        }
    }

    fn levels(&self) -> Levels<'_> {
        Levels::new(self.height, self.width, &self.blacks, &self.scales).deltas(&self.rows, &self.columns)
    }

    // 1, 60, 61, in that order, where the input has so many samples.
    fn answer(&self, input: usize) -> Black {
        let f = &self.field;
        let place = 1 << 24;
        if f.width > 65_536 || f.height > 65_536 || !(1..=8).contains(&f.planes) || f.x0 > place || f.y0 > place {
            return Black::Range;
        }
        let needed = f.planes as u128 * self.height as u128 * self.width as u128;
        let short = |table: &[f32]| (table.len() as u128) < needed;
        if self.height == 0 || self.width == 0 || short(&self.blacks) || short(&self.scales) {
            return Black::Tables;
        }
        if (input as u128) < samples(f) || (self.out as u128) < samples(f) {
            return Black::Samples;
        }
        Black::Done
    }

    // What the Rust makes of the frame's samples, a table for each plane.
    fn theirs(&self, data: PixelData) -> Vec<f32> {
        let f = &self.field;
        let size = self.height * self.width;
        let planes = |table: &[f32]| table.chunks(size).take(f.planes).map(<[f32]>::to_vec).collect();
        let info = FrameInfo {
            pw: self.width,
            ph: self.height,
            black: planes(&self.blacks),
            scale: planes(&self.scales),
            row_deltas: self.rows.clone(),
            col_deltas: self.columns.clone(),
        };
        let img = RawImage { width: f.width as u32, cpp: f.planes as u8, data };
        normalize(&img, &info, (f.x0 as u32, f.y0 as u32), false)
    }
}

fn samples(f: &Field) -> u128 {
    f.width as u128 * f.height as u128 * f.planes as u128
}

// What stands in an output before the call.
fn old(i: usize) -> f32 {
    f32::from_bits(0x4000_0000 ^ (i as u32).wrapping_mul(0x9e37_79b9) >> 9)
}

struct Said {
    answer: Black,
    zeros: u64,
}

// The output is the Rust's in front, with +0 for −0, and as it was behind; all of it as it was on a refusal.
fn held(got: &[f32], answer: Black, theirs: &[f32]) -> Result<u64, String> {
    let n = if answer == Black::Done { theirs.len() } else { 0 };
    let mut zeros = 0;
    for (i, v) in got.iter().enumerate() {
        let want = if i < n { theirs[i].to_bits() } else { old(i).to_bits() };
        if v.to_bits() != want {
            if i >= n || want != 0x8000_0000 || v.to_bits() != 0 {
                return Err(format!("sample {i} is {:08x}, want {want:08x}", v.to_bits()));
            }
            zeros += 1;
        }
    }
    Ok(zeros)
}

fn typed<T: Copy + PartialEq>(
    c: &Case,
    input: &[T],
    guard: T,
    call: impl Fn(&Field, &[T], &mut [f32], &Levels<'_>) -> Black,
    data: impl Fn(Vec<T>) -> PixelData,
) -> Result<Said, String> {
    let want = c.answer(input.len());
    let frame = || data(input[..samples(&c.field) as usize].to_vec());
    let theirs = if want == Black::Done { c.theirs(frame()) } else { vec![] };
    let lent = Lent::new(input.iter().copied(), guard);
    let mut out = Lent::new((0..c.out).map(old), 1.25);
    let answer = call(&c.field, lent.now(), out.lend(), &c.levels());
    if answer != want {
        return Err(format!("answered {answer:?}, want {want:?}"));
    }
    if !(lent.guarded() && out.guarded()) {
        return Err("a guard was written".to_string());
    }
    Ok(Said { answer, zeros: held(out.now(), answer, &theirs)? })
}

// The same over bytes, from what the typed call gave.
fn bytes<T: Copy + PartialEq + Default>(
    c: &Case,
    input: &[u8],
    typed: &[f32],
    want: Black,
    guard: T,
    call: impl Fn(&Field, &[u8], &mut [u8], &Levels<'_>, &mut [T], &mut [f32]) -> Black,
) -> Result<Black, String> {
    let n = samples(&c.field);
    let short = want == Black::Done && ((c.work as u128) < n || (c.made as u128) < n);
    let want = if short { Black::Work } else { want };
    let lent = Lent::new(input.iter().copied(), 0xdd);
    let over = (0..c.over).map(|i| i as u8 ^ 0xa0);
    let before: Vec<u8> = (0..c.out).flat_map(|i| old(i).to_le_bytes()).chain(over).collect();
    let mut out = Lent::new(before.iter().copied(), 0xdd);
    let mut work = Lent::new((0..c.work).map(|_| guard), guard);
    let mut made = Lent::new((0..c.made).map(|i| i as f32 + 0.5), 1.25);
    let answer = call(&c.field, lent.now(), out.lend(), &c.levels(), work.lend(), made.lend());
    if answer != want {
        return Err(format!("bytes answered {answer:?}, want {want:?}"));
    }
    if !(lent.guarded() && out.guarded() && work.guarded() && made.guarded()) {
        return Err("a guard was written by the form over bytes".to_string());
    }
    let clear = work.now().iter().all(|&v| v == T::default()) && made.now().iter().all(|v| v.to_bits() == 0);
    if lent.now() != input || !clear {
        return Err("the input was written, or a room is not clear".to_string());
    }
    let mut after = before;
    if answer == Black::Done {
        for (b, v) in after.chunks_mut(4).zip(&typed[..n as usize]) {
            b.copy_from_slice(&v.to_le_bytes());
        }
    }
    if out.now() != after {
        return Err("the bytes are not those of the typed call".to_string());
    }
    Ok(answer)
}

fn check(c: &Case) -> Result<Vec<(String, Said)>, String> {
    let mut said = Vec::new();
    // f32
    let f = typed(c, &c.floats, 7.5, Field::from_f32, PixelData::F32)?;
    let mut out: Vec<f32> = (0..c.out).map(old).collect();
    c.field.from_f32(&c.floats, &mut out, &c.levels());
    let input: Vec<u8> = c.floats.iter().flat_map(|v| v.to_le_bytes()).chain((0..c.over).map(|i| i as u8)).collect();
    let b = bytes(c, &input, &out, f.answer, 7.5, Field::bytes_from_f32)?;
    said.push(("f32".to_string(), f));
    said.push(("bytes f32".to_string(), Said { answer: b, zeros: 0 }));
    // u16
    let u = typed(c, &c.wholes, 0x5a5a, Field::from_u16, PixelData::U16)?;
    let mut out: Vec<f32> = (0..c.out).map(old).collect();
    c.field.from_u16(&c.wholes, &mut out, &c.levels());
    let over = (0..c.over % 2).map(|i| i as u8);
    let input: Vec<u8> = c.wholes.iter().flat_map(|v| v.to_le_bytes()).chain(over).collect();
    let b = bytes(c, &input, &out, u.answer, 0x5a5a, Field::bytes_from_u16)?;
    said.push(("u16".to_string(), u));
    said.push(("bytes u16".to_string(), Said { answer: b, zeros: 0 }));
    Ok(said)
}

fn count(c: &Case, said: &[(String, Said)], n: &mut BTreeMap<String, u64>) {
    let mut add = |what: String, k: u64| *n.entry(what).or_insert(0) += k;
    for (form, s) in said {
        add(format!("black {form} {}", s.answer.number()), 1);
        add("black: zeros that are -0 in the Rust".to_string(), s.zeros);
    }
    if said[0].1.answer == Black::Done {
        let list = |l: &[f32], from: usize, n: usize| match l.len() {
            0 => "none",
            k if k <= from => "all missing",
            k if k < from + n => "some missing",
            _ => "for all",
        };
        add(format!("black: row deltas {}", list(&c.rows, c.field.y0, c.field.height)), 1);
        add(format!("black: column deltas {}", list(&c.columns, c.field.x0, c.field.width)), 1);
        add(format!("black: planes {}", c.field.planes), 1);
        add(format!("black: pattern width {}", if c.width > 2 { "above 2" } else { ["", "1", "2"][c.width] }), 1);
        add(format!("black: pattern wider than the row {}", c.width > c.field.width), 1);
        add("black: samples f32".to_string(), samples(&c.field) as u64);
    }
}

// How many cases differ; the first few are printed.
pub fn sweep(seed: u64, cases: u64) -> u64 {
    let (mut n, mut wrong) = (BTreeMap::new(), 0);
    for k in 0..cases {
        let c = Case::any(&mut Rng::new(seed ^ 0xb1ac, k));
        match check(&c) {
            Ok(said) => count(&c, &said, &mut n),
            Err(why) => {
                wrong += 1;
                if wrong <= 3 {
                    println!("black case {k} of seed {seed}: {why}");
                    let (rows, columns) = (c.rows.len(), c.columns.len());
                    let (h, w) = (c.height, c.width);
                    println!("  {:?}, pattern {h} by {w}, {rows} row and {columns} column deltas", c.field);
                }
                if std::env::var_os("FIRST").is_some() {
                    return wrong;
                }
            }
        }
    }
    for (k, v) in &n {
        println!("{v:>12}  {k}");
    }
    println!("compared {cases} cases of black level of seed {seed}, four calls each: {wrong} differ");
    wrong
}
