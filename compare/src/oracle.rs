// What the Rust module makes of a case, asked opcode by opcode, and the answers that document 01 gives to it.
// Allowed to differ, and nothing wider: an empty MapTable is named by the f32 run and refused by the row form
// (DIFFERENCES 1), and what the Rust has no word for: the limits of document 01, the lengths of the lent buffers, and
// why a list is malformed.
use crate::cases::{Case, Lengths};
use crate::doc01::{self, Need};
use crate::previews;
use crate::reasons::{self, Refusal};
use dng_opcodes::{apply, apply_u16, parse, u16_exact, Opcode, PlaneImage, RowOps};
use rolbhunga::ffi::{Numbers, RowNumbers};
use rolbhunga::Frame;

// The opcodes are those that a preview leaves where the case is one.
pub enum Read {
    Whole(Vec<Opcode>),
    Malformed(Refusal),
}

// Whether a list is read, and after how many entries not, is the Rust's; why and at which byte it does not say.
pub fn read(list: &[u8]) -> Read {
    match (parse(list), reasons::read(list)) {
        (Ok(ops), None) => Read::Whole(ops),
        (Err(_), Some(why)) => {
            let entry = entries(list);
            assert_eq!(entry, why.entry, "entries read whole: the Rust's, and document 02 once more");
            Read::Malformed(Refusal { entry, ..why })
        }
        (theirs, why) => panic!("the Rust reads: {}; document 02 once more: {why:?}", theirs.is_ok()),
    }
}

// The entries read whole before a malformed one: the largest count that the Rust reads the same list with.
fn entries(list: &[u8]) -> usize {
    if list.len() < 4 {
        return 0;
    }
    let n = u32::from_be_bytes([list[0], list[1], list[2], list[3]]);
    if n > 4096 {
        return 0;
    }
    let mut l = list.to_vec();
    let (mut good, mut bad) = (0, n);
    while bad - good > 1 {
        let k = (good + bad) / 2;
        l[..4].copy_from_slice(&k.to_be_bytes());
        if parse(&l).is_ok() {
            good = k;
        } else {
            bad = k;
        }
    }
    good as usize
}

// A repair: its opcode's number, what it needs, and the samples at its start.
pub struct Repair<T> {
    pub opcode: usize,
    pub need: Need,
    pub before: Vec<T>,
}

pub struct Run<T> {
    pub after: Vec<T>,
    pub names: Vec<u8>,
    pub repairs: Vec<Repair<T>>,
}

pub struct Oracle {
    pub read: Read,
    pub f32: Option<Run<f32>>,
    // none where the form does not take the list
    pub u16: Option<Run<u16>>,
    pub row: Option<Vec<f32>>,
}

fn byte_of(name: &str) -> u8 {
    const NAMES: [&str; 14] = [
        "Other",
        "WarpRectilinear",
        "WarpFisheye",
        "FixVignetteRadial",
        "FixBadPixelsConstant",
        "FixBadPixelsList",
        "TrimBounds",
        "MapTable",
        "MapPolynomial",
        "GainMap",
        "DeltaPerRow",
        "DeltaPerColumn",
        "ScalePerRow",
        "ScalePerColumn",
    ];
    NAMES.iter().position(|&n| n == name).expect("a name of the Rust's") as u8
}

fn image<'a, T: dng_opcodes::Sample>(f: &Frame, data: &'a mut [T]) -> PlaneImage<'a, T> {
    PlaneImage {
        data,
        width: f.width,
        height: f.height,
        planes: f.planes,
        stride: f.stride,
        x0: f.x0,
        y0: f.y0,
        full_width: f.full_width,
        full_height: f.full_height,
    }
}

fn is_repair(op: &Opcode) -> bool {
    matches!(op, Opcode::FixBadPixelsConstant { .. } | Opcode::FixBadPixelsList { .. })
}

pub fn is_empty_table(op: &Opcode) -> bool {
    matches!(op, Opcode::MapTable { table, .. } if table.is_empty())
}

pub fn same(a: f32, b: f32) -> bool {
    a.to_bits() == b.to_bits() || (a.is_nan() && b.is_nan())
}

pub fn floats(bits: &[u32]) -> Vec<f32> {
    bits.iter().map(|&b| f32::from_bits(b)).collect()
}

fn run_f32(ops: &[Opcode], f: &Frame, samples: &[u32]) -> Run<f32> {
    let mut data = floats(samples);
    let (mut names, mut theirs, mut repairs) = (Vec::new(), Vec::new(), Vec::new());
    for (opcode, op) in ops.iter().enumerate() {
        if is_repair(op) {
            let equals = |c: u32, i: usize| data[i] == c as f32 / f.scale;
            let need = doc01::need(op, f, data.len(), &equals);
            repairs.push(Repair { opcode, need, before: data.clone() });
        }
        let said = apply(&ops[opcode..opcode + 1], &mut image(f, &mut data), f.period, f.scale, false);
        if is_empty_table(op) {
            assert!(said.is_empty(), "the Rust names an empty table");
            names.push(7);
        }
        names.extend(said.iter().map(|n| byte_of(n)));
        theirs.extend(said);
    }
    if ops.len() > 1 {
        let mut once = floats(samples);
        let said = apply(ops, &mut image(f, &mut once), f.period, f.scale, false);
        assert!(said == theirs && once.iter().zip(&data).all(|(a, b)| same(*a, *b)), "the Rust's run is not its opcodes in turn");
    }
    Run { after: data, names, repairs }
}

fn run_u16(ops: &[Opcode], f: &Frame, samples: &[u16]) -> Option<Run<u16>> {
    if !u16_exact(ops) {
        let mut data = samples.to_vec();
        assert!(apply_u16(ops, &mut image(f, &mut data), f.period, false).is_none() && data == samples);
        return None;
    }
    let mut data = samples.to_vec();
    let (mut names, mut repairs) = (Vec::new(), Vec::new());
    for (opcode, op) in ops.iter().enumerate() {
        if is_repair(op) {
            let equals = |c: u32, i: usize| data[i] as u32 == c;
            let need = doc01::need(op, f, data.len(), &equals);
            repairs.push(Repair { opcode, need, before: data.clone() });
        }
        let said = apply_u16(&ops[opcode..opcode + 1], &mut image(f, &mut data), f.period, false);
        names.extend(said.expect("taken").iter().map(|n| byte_of(n)));
    }
    if ops.len() > 1 {
        let mut once = samples.to_vec();
        let said = apply_u16(ops, &mut image(f, &mut once), f.period, false).expect("taken");
        let said: Vec<u8> = said.iter().map(|n| byte_of(n)).collect();
        assert!(said == names && once == data, "the Rust's whole-number run is not its opcodes in turn");
    }
    Some(Run { after: data, names, repairs })
}

fn run_row(ops: &[Opcode], f: &Frame, y: usize, row: &[u32]) -> Option<Vec<f32>> {
    let theirs = RowOps::new(ops, f.width, f.planes, f.x0, f.full_width, f.full_height, f.scale)?;
    if ops.iter().any(is_empty_table) {
        return None;
    }
    let mut data = floats(row);
    theirs.apply(y, &mut data);
    Some(data)
}

// The list is read whole; then the Rust is asked for the runs over the list without what a preview drops, and a repair
// gets the number that it has in the whole list.
fn left_of(c: &Case) -> (Read, Vec<usize>) {
    match read(&c.list) {
        Read::Whole(_) if c.frame.preview => {
            let (list, numbers) = previews::left(&c.list);
            let ops = parse(&list).expect("what is left of a list that is read");
            assert_eq!(ops.len(), numbers.len(), "an opcode for each number");
            (Read::Whole(ops), numbers)
        }
        Read::Whole(ops) => {
            let numbers = (0..ops.len()).collect();
            (Read::Whole(ops), numbers)
        }
        refused => (refused, Vec::new()),
    }
}

fn renumber<T>(run: &mut Option<Run<T>>, numbers: &[usize]) {
    for r in run.iter_mut().flat_map(|run| &mut run.repairs) {
        r.opcode = numbers[r.opcode];
    }
}

impl Oracle {
    pub fn of(c: &Case) -> Oracle {
        let (read, numbers) = left_of(c);
        let mut o = Oracle { read, f32: None, u16: None, row: None };
        if let Read::Whole(ops) = &o.read {
            if doc01::in_range(&c.frame) {
                o.f32 = Some(run_f32(ops, &c.frame, &c.floats));
                o.u16 = run_u16(ops, &c.frame, &c.wholes);
            }
            if doc01::row_in_range(&c.frame, c.y, c.row.len()) {
                o.row = run_row(ops, &c.frame, c.y, &c.row);
            }
        }
        renumber(&mut o.f32, &numbers);
        renumber(&mut o.u16, &numbers);
        o
    }

    pub fn needs_f32(&self) -> (Vec<Need>, usize) {
        needs(&self.f32)
    }

    pub fn needs_u16(&self) -> (Vec<Need>, usize) {
        needs(&self.u16)
    }
}

fn needs<T>(run: &Option<Run<T>>) -> (Vec<Need>, usize) {
    match run {
        Some(r) => (r.repairs.iter().map(|r| r.need).collect(), r.names.len()),
        None => (Vec::new(), 0),
    }
}

// What a call must give: the numbers, the samples where a run changed them, the names where they are written.
pub struct Want<'a, T> {
    pub numbers: Numbers,
    pub samples: Option<&'a [T]>,
    pub names: &'a [u8],
}

pub fn numbers(number: u32) -> Numbers {
    Numbers { number, entry: 0, offset: 0, opcode: 0, names: 0, repaired: 0, left: 0 }
}

fn malformed(why: Refusal) -> Numbers {
    Numbers { entry: why.entry, offset: why.offset, ..numbers(why.number) }
}

fn refused<'a, T>(number: u32) -> Want<'a, T> {
    Want { numbers: numbers(number), samples: None, names: &[] }
}

fn want<'a, T>(c: &Case, o: &'a Oracle, run: &'a Option<Run<T>>, l: &Lengths) -> Want<'a, T> {
    if !doc01::in_range(&c.frame) {
        return refused(1);
    }
    if let Read::Malformed(why) = o.read {
        return Want { numbers: malformed(why), samples: None, names: &[] };
    }
    let run = match run {
        None => return refused(3),
        Some(run) => run,
    };
    if l.names < run.names.len() {
        return refused(4);
    }
    let (mut repaired, mut left) = (0, 0);
    for r in &run.repairs {
        if r.need.marked > l.marks as u64 {
            return Want { numbers: Numbers { opcode: r.opcode, ..numbers(5) }, samples: Some(&r.before), names: &[] };
        }
        repaired += r.need.repaired;
        left += r.need.left;
    }
    let names = run.names.len();
    Want { numbers: Numbers { names, repaired, left, ..numbers(0) }, samples: Some(&run.after), names: &run.names }
}

pub fn want_f32<'a>(c: &Case, o: &'a Oracle) -> Want<'a, f32> {
    want(c, o, &o.f32, &c.f)
}

pub fn want_u16<'a>(c: &Case, o: &'a Oracle) -> Want<'a, u16> {
    want(c, o, &o.u16, &c.u)
}

pub fn want_read(o: &Oracle) -> Numbers {
    match o.read {
        Read::Whole(_) => numbers(0),
        Read::Malformed(why) => malformed(why),
    }
}

// The f32 run's names are counted without a run: the ids that it does not apply, and empty tables.
fn skipped(ops: &[Opcode]) -> usize {
    ops.iter().filter(|o| !o.is_pixel_opcode() || is_empty_table(o)).count()
}

pub fn want_row<'a>(c: &Case, o: &'a Oracle) -> (RowNumbers, Option<&'a [f32]>) {
    let plain = |number, skipped| RowNumbers { number, entry: 0, offset: 0, skipped };
    if !doc01::row_in_range(&c.frame, c.y, c.row.len()) {
        return (plain(1, 0), None);
    }
    match (&o.read, &o.row) {
        (Read::Malformed(why), _) => {
            (RowNumbers { number: why.number, entry: why.entry, offset: why.offset, skipped: 0 }, None)
        }
        (Read::Whole(_), None) => (plain(3, 0), None),
        (Read::Whole(ops), Some(row)) => (plain(0, skipped(ops)), Some(row)),
    }
}
