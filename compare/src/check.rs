// One case through every exported function, held to what the oracle wants of it: answers, samples, names, and all that
// is not to be touched. The typed forms go through the host's wrappers, the byte forms through the C functions, so that
// every number is seen.
use crate::cases::{Case, Lengths};
use crate::doc01;
use crate::oracle::{self, same, Oracle, Read, Want};
use crate::previews;
use crate::rng::Rng;
use crate::verdict;
use rolbhunga::ffi::{self, Numbers, RowNumbers};
use rolbhunga::{Answer, Frame, Reading, Reason, Room, RowAnswer, WORK};
use std::collections::BTreeMap;

pub type Counts = BTreeMap<String, u64>;

const GUARD: usize = 4;

// A buffer between two guards, which a call must leave alone.
pub struct Lent<T> {
    all: Vec<T>,
    guard: T,
}

impl<T: Copy + PartialEq> Lent<T> {
    pub fn new(contents: impl Iterator<Item = T>, guard: T) -> Lent<T> {
        let mut all = vec![guard; GUARD];
        all.extend(contents);
        all.extend([guard; GUARD]);
        Lent { all, guard }
    }

    pub fn lend(&mut self) -> &mut [T] {
        let n = self.all.len();
        &mut self.all[GUARD..n - GUARD]
    }

    pub fn now(&self) -> &[T] {
        &self.all[GUARD..self.all.len() - GUARD]
    }

    pub fn guarded(&self) -> bool {
        let n = self.all.len();
        self.all[..GUARD].iter().chain(&self.all[n - GUARD..]).all(|&g| g == self.guard)
    }
}

struct Buffers {
    marks: Lent<u32>,
    names: Lent<u8>,
}

fn old_name(i: usize) -> u8 {
    0xa0 ^ i as u8
}

impl Buffers {
    fn new(l: &Lengths) -> Buffers {
        Buffers {
            marks: Lent::new((0..l.marks).map(|i| i as u32 ^ 0x55aa_0000), 0x1111_1111),
            names: Lent::new((0..l.names).map(old_name), 0xdd),
        }
    }

    fn room(&mut self) -> Room<'_> {
        Room { marks: self.marks.lend(), names: self.names.lend() }
    }

    fn check(&self, names: &[u8]) -> Result<(), String> {
        if !(self.marks.guarded() && self.names.guarded()) {
            return Err("wrote past the end of a lent buffer".into());
        }
        if self.marks.now().iter().any(|&m| m != 0) {
            return Err("scratch is not zero".into());
        }
        for (i, &b) in self.names.now().iter().enumerate() {
            let want = names.get(i).copied().unwrap_or_else(|| old_name(i));
            if b != want {
                return Err(format!("name byte {i} is {b:02x}, want {want:02x}"));
            }
        }
        Ok(())
    }
}

fn answer_of(c: &Case, n: Numbers) -> Answer {
    let whole = verdict::of_frame(&c.list, &c.frame, n.number);
    match n.number {
        0 => Answer::Done { names: n.names, repaired: n.repaired, left: n.left, whole },
        1 => Answer::Range,
        3 => Answer::NotTaken,
        4 => Answer::Names,
        5 => Answer::Marks { opcode: n.opcode },
        _ => Answer::Malformed { entry: n.entry, reason: reason(n.number), offset: n.offset },
    }
}

fn reason(number: u32) -> Reason {
    use Reason::*;
    [Ends, TooMany, TooLong, Inside, Count, Degree][number as usize - 20]
}

fn told<T: std::fmt::Debug + PartialEq>(got: T, want: T) -> Result<(), String> {
    if got == want {
        Ok(())
    } else {
        Err(format!("answer is {got:?}, want {want:?}"))
    }
}

// f32 samples: a run's NaN equals any NaN; where nothing ran, the patterns are the ones that were lent.
fn floats_are(got: &[f32], old: &[u32], want: Option<&[f32]>) -> Result<(), String> {
    for (i, &g) in got.iter().enumerate() {
        let good = match want {
            Some(w) => same(g, w[i]),
            None => g.to_bits() == old[i],
        };
        if !good {
            let w = want.map_or(old[i], |w| w[i].to_bits());
            return Err(format!("sample {i} is {:08x} ({g:e}), want {w:08x} ({:e})", g.to_bits(), f32::from_bits(w)));
        }
    }
    Ok(())
}

fn wholes_are(got: &[u16], want: &[u16]) -> Result<(), String> {
    match (0..got.len()).find(|&i| got[i] != want[i]) {
        Some(i) => Err(format!("sample {i} is {}, want {}", got[i], want[i])),
        None => Ok(()),
    }
}

fn bytes_are(got: &[u8], want: &[u8]) -> Result<(), String> {
    match (0..got.len()).find(|&i| got[i] != want[i]) {
        Some(i) => Err(format!("byte {i} is {:02x}, want {:02x}", got[i], want[i])),
        None => Ok(()),
    }
}

fn over(n: usize) -> impl Iterator<Item = u8> {
    (0..n).map(|i| 0xc0 + i as u8)
}

// The bytes of f32 samples as they are lent, with some left over.
pub fn float_bytes(bits: &[u32], n: usize) -> Vec<u8> {
    bits.iter().flat_map(|b| b.to_le_bytes()).chain(over(n)).collect()
}

pub fn whole_bytes(s: &[u16], n: usize) -> Vec<u8> {
    s.iter().flat_map(|b| b.to_le_bytes()).chain(over(n)).collect()
}

// The bytes as a run leaves them: one pattern for every NaN.
pub fn float_result(s: &[f32]) -> Vec<u32> {
    s.iter().map(|v| if v.is_nan() { 0x7fc0_0000 } else { v.to_bits() }).collect()
}

fn window(f: &Frame) -> ffi::Window {
    ffi::Window {
        width: f.width,
        height: f.height,
        planes: f.planes,
        stride: f.stride,
        x0: f.x0,
        y0: f.y0,
        full_width: f.full_width,
        full_height: f.full_height,
    }
}

fn row_window(f: &Frame) -> ffi::RowWindow {
    ffi::RowWindow {
        width: f.width,
        planes: f.planes,
        x0: f.x0,
        full_width: f.full_width,
        full_height: f.full_height,
    }
}

fn cleared_f32(work: &Lent<f32>) -> Result<(), String> {
    if work.guarded() && work.now().iter().all(|v| v.to_bits() == 0) {
        Ok(())
    } else {
        Err("work room is not zero, or written past its end".into())
    }
}

fn typed_f32(c: &Case, w: &Want<f32>) -> Result<(), String> {
    let mut b = Buffers::new(&c.f);
    let mut s = Lent::new(c.floats.iter().map(|&x| f32::from_bits(x)), 7.0);
    told(c.frame.run_f32(&c.list, s.lend(), &mut b.room()), answer_of(c, w.numbers))?;
    floats_are(s.now(), &c.floats, w.samples)?;
    if !s.guarded() {
        return Err("wrote past the samples".into());
    }
    b.check(w.names)
}

fn typed_u16(c: &Case, w: &Want<u16>) -> Result<(), String> {
    let mut b = Buffers::new(&c.u);
    let mut s = Lent::new(c.wholes.iter().copied(), 0x7777);
    told(c.frame.run_u16(&c.list, s.lend(), &mut b.room()), answer_of(c, w.numbers))?;
    wholes_are(s.now(), w.samples.unwrap_or(&c.wholes))?;
    if !s.guarded() {
        return Err("wrote past the samples".into());
    }
    b.check(w.names)
}

fn bytes_f32(c: &Case, w: &Want<f32>) -> Result<(), String> {
    let mut b = Buffers::new(&c.f);
    let mut s = Lent::new(float_bytes(&c.floats, c.over).into_iter(), 0x99);
    let mut work = Lent::new((0..c.f.work).map(|i| i as f32 - 0.25), 9.0);
    let short = c.f.work < c.floats.len();
    let n = unsafe {
        let (bytes, work) = (s.lend(), work.lend());
        let r = b.room();
        ffi::rolbhunga_bytes_f32(
            c.list.as_ptr(),
            c.list.len(),
            bytes.as_mut_ptr(),
            bytes.len(),
            window(&c.frame),
            ffi::Settings { period: c.frame.period, scale: c.frame.scale, preview: c.frame.preview },
            work.as_mut_ptr(),
            work.len(),
            r.marks.as_mut_ptr(),
            r.marks.len(),
            r.names.as_mut_ptr(),
            r.names.len(),
        )
    };
    told(n, if short { oracle::numbers(WORK) } else { w.numbers })?;
    let want = match w.samples {
        Some(v) if !short => float_bytes(&float_result(v), c.over),
        _ => float_bytes(&c.floats, c.over),
    };
    bytes_are(s.now(), &want)?;
    if !s.guarded() {
        return Err("wrote past the bytes".into());
    }
    cleared_f32(&work)?;
    b.check(if short { &[] } else { w.names })
}

fn bytes_u16(c: &Case, w: &Want<u16>) -> Result<(), String> {
    let mut b = Buffers::new(&c.u);
    let odd = c.over % 2;
    let mut s = Lent::new(whole_bytes(&c.wholes, odd).into_iter(), 0x99);
    let mut work = Lent::new((0..c.u.work).map(|i| i as u16 ^ 0x5a5a), 0x1357);
    let short = c.u.work < c.wholes.len();
    let n = unsafe {
        let (bytes, work) = (s.lend(), work.lend());
        let r = b.room();
        ffi::rolbhunga_bytes_u16(
            c.list.as_ptr(),
            c.list.len(),
            bytes.as_mut_ptr(),
            bytes.len(),
            window(&c.frame),
            c.frame.period,
            c.frame.preview,
            work.as_mut_ptr(),
            work.len(),
            r.marks.as_mut_ptr(),
            r.marks.len(),
            r.names.as_mut_ptr(),
            r.names.len(),
        )
    };
    told(n, if short { oracle::numbers(WORK) } else { w.numbers })?;
    let want = whole_bytes(w.samples.filter(|_| !short).unwrap_or(&c.wholes), odd);
    bytes_are(s.now(), &want)?;
    if !(s.guarded() && work.guarded() && work.now().iter().all(|&v| v == 0)) {
        return Err("work room is not zero, or written past an end".into());
    }
    b.check(if short { &[] } else { w.names })
}

fn typed_row(c: &Case, want: RowNumbers, row: Option<&[f32]>) -> Result<(), String> {
    let mut s = Lent::new(c.row.iter().map(|&x| f32::from_bits(x)), 7.0);
    let answer = match want.number {
        0 => RowAnswer::Done { skipped: want.skipped },
        1 => RowAnswer::Range,
        3 => RowAnswer::NotTaken,
        _ => RowAnswer::Malformed { entry: want.entry, reason: reason(want.number), offset: want.offset },
    };
    told(c.frame.row().run(&c.list, s.lend(), c.y), answer)?;
    floats_are(s.now(), &c.row, row)?;
    if !s.guarded() {
        return Err("wrote past the row".into());
    }
    Ok(())
}

fn bytes_row(c: &Case, want: RowNumbers, row: Option<&[f32]>) -> Result<(), String> {
    let mut s = Lent::new(float_bytes(&c.row, c.over).into_iter(), 0x99);
    let mut work = Lent::new((0..c.row_work).map(|i| i as f32 - 0.25), 9.0);
    let short = c.row_work < c.row.len();
    let n = unsafe {
        let (bytes, work) = (s.lend(), work.lend());
        ffi::rolbhunga_bytes_row(
            c.list.as_ptr(),
            c.list.len(),
            bytes.as_mut_ptr(),
            bytes.len(),
            row_window(&c.frame),
            c.y,
            c.frame.scale,
            c.frame.preview,
            work.as_mut_ptr(),
            work.len(),
        )
    };
    told(n, if short { RowNumbers { number: WORK, entry: 0, offset: 0, skipped: 0 } } else { want })?;
    let result = match row {
        Some(v) if !short => float_bytes(&float_result(v), c.over),
        _ => float_bytes(&c.row, c.over),
    };
    bytes_are(s.now(), &result)?;
    if !s.guarded() {
        return Err("wrote past the bytes".into());
    }
    cleared_f32(&work)
}

fn named<T>(what: &str, r: Result<T, String>) -> Result<T, String> {
    r.map_err(|e| format!("{what}: {e}"))
}

// Every call on a case; what differs first.
pub fn check(c: &Case, o: &Oracle) -> Result<(), String> {
    let list = c.list.clone();
    let read = oracle::want_read(o);
    let reading = match read.number {
        0 => Reading::Whole,
        n => Reading::Malformed { entry: read.entry, reason: reason(n), offset: read.offset },
    };
    named("read", told(rolbhunga::read(&c.list), reading))?;
    let raw = unsafe { ffi::rolbhunga_read(c.list.as_ptr(), c.list.len()) };
    named("read", told(raw, read))?;
    let w = oracle::want_f32(c, o);
    named("run_f32", typed_f32(c, &w))?;
    named("bytes_f32", bytes_f32(c, &w))?;
    let w = oracle::want_u16(c, o);
    named("run_u16", typed_u16(c, &w))?;
    named("bytes_u16", bytes_u16(c, &w))?;
    let (w, row) = oracle::want_row(c, o);
    named("run_row", typed_row(c, w, row))?;
    named("bytes_row", bytes_row(c, w, row))?;
    // sizes and numbers of its own, the same ones for the same list
    verdict::check(&c.list, &c.frame, &mut Rng::new(c.list.len() as u64, c.y as u64))?;
    if list != c.list {
        return Err("the list was changed".into());
    }
    Ok(())
}

fn add(n: &mut Counts, what: String, k: u64) {
    *n.entry(what).or_insert(0) += k;
}

// What a case covered.
pub fn count(c: &Case, o: &Oracle, n: &mut Counts) {
    let (f, u, (row, result)) = (oracle::want_f32(c, o), oracle::want_u16(c, o), oracle::want_row(c, o));
    add(n, format!("answers read {}", oracle::want_read(o).number), 1);
    add(n, format!("answers f32 {}", f.numbers.number), 1);
    add(n, format!("answers u16 {}", u.numbers.number), 1);
    add(n, format!("answers row {}", row.number), 1);
    add(n, "answers 100 f32".into(), (c.f.work < c.floats.len()) as u64);
    add(n, "answers 100 u16".into(), (c.u.work < c.wholes.len()) as u64);
    add(n, "answers 100 row".into(), (c.row_work < c.row.len()) as u64);
    if let Read::Whole(ops) = &o.read {
        if c.frame.preview {
            let (_, numbers) = previews::left(&c.list);
            let all = previews::count(&c.list);
            add(n, "previews of lists with opcodes".into(), (all > 0) as u64);
            add(n, "previews that drop an opcode".into(), (numbers.len() < all) as u64);
            add(n, "previews that drop all".into(), (numbers.is_empty() && all > 0) as u64);
            let drops = numbers.len() < all;
            add(n, "previews that drop opcodes, the u16 run done".into(), (drops && u.numbers.number == 0) as u64);
            add(n, "previews that drop opcodes, the row done".into(), (drops && row.number == 0) as u64);
            // the number in the whole list is not the number among what is left
            let behind = |w: &Numbers| (w.number == 5 && numbers.get(w.opcode) != Some(&w.opcode)) as u64;
            let stopped = behind(&f.numbers) + behind(&u.numbers);
            add(n, "previews stopped by 5 behind a dropped opcode".into(), stopped);
        }
        if ops.iter().any(oracle::is_empty_table) {
            add(n, "allowed: an empty table named by f32".into(), (f.numbers.number == 0) as u64);
            let alone = !ops.iter().any(|op| op.is_pixel_opcode() && !op.is_row_local());
            add(n, "allowed: a row refused for an empty table".into(), (row.number == 3 && alone) as u64);
        }
        for op in ops {
            if f.numbers.number == 0 {
                add(n, format!("f32 done {}", op.name()), 1);
            }
            if u.numbers.number == 0 {
                add(n, format!("u16 done {}", op.name()), 1);
            }
            if row.number == 0 {
                add(n, format!("row done {}", op.name()), 1);
            }
        }
    }
    for (form, w) in [("f32", f.numbers), ("u16", u.numbers)] {
        if w.number == 0 {
            let (whole, names) = (verdict::of_frame(&c.list, &c.frame, 0), w.names > 0);
            add(n, format!("verdicts {form}, whole {whole}, names {names}"), 1);
        }
    }
    if f.numbers.number == 0 {
        let s = f.samples.unwrap_or(&[]);
        let changed = s.iter().zip(&c.floats).filter(|(a, b)| !same(**a, f32::from_bits(**b)));
        add(n, "samples f32 changed".into(), changed.count() as u64);
        add(n, "samples f32 NaN".into(), s.iter().filter(|v| v.is_nan()).count() as u64);
        let odd = |v: &&f32| v.is_infinite() || v.is_subnormal() || v.to_bits() == 1 << 31;
        add(n, "samples f32 infinite, subnormal or -0".into(), s.iter().filter(odd).count() as u64);
        add(n, "totals repaired f32".into(), f.numbers.repaired);
        add(n, "totals left f32".into(), f.numbers.left);
        add(n, "limits f32 marks exactly used".into(), o.needs_f32().0.iter().any(|r| r.marked as usize == c.f.marks && r.marked > 0) as u64);
        add(n, "limits f32 names exactly used".into(), (f.numbers.names == c.f.names && c.f.names > 0) as u64);
    }
    if u.numbers.number == 0 {
        let s = u.samples.unwrap_or(&[]);
        add(n, "samples u16 changed".into(), s.iter().zip(&c.wholes).filter(|(a, b)| a != b).count() as u64);
        add(n, "totals repaired u16".into(), u.numbers.repaired);
        add(n, "totals left u16".into(), u.numbers.left);
    }
    if let Some(row) = result {
        add(n, "samples row changed".into(), row.iter().zip(&c.row).filter(|(a, b)| !same(**a, f32::from_bits(**b))).count() as u64);
    }
    let g = &c.frame;
    if doc01::in_range(g) {
        add(n, "windows with width 0 or stride below width".into(), (g.width == 0 || g.stride < g.width) as u64);
        let need = if g.height == 0 { 0 } else { ((g.height - 1) * g.stride + g.width) * g.planes };
        add(n, "windows with too few samples".into(), (c.floats.len() < need) as u64);
        add(n, "windows 65,536 wide or high".into(), (g.width == 65_536 || g.height == 65_536) as u64);
        add(n, "windows with gaps between rows".into(), (g.stride > g.width) as u64);
    }
    let most = c.frame.width.checked_mul(c.frame.planes).unwrap_or(0);
    add(n, "allowed: a row longer than width * planes".into(), (row.number == 1 && c.row.len() > most) as u64);
    add(n, "scales that are NaN, infinite or 0".into(), (!g.scale.is_finite() || g.scale == 0.0) as u64);
}
