// One kind of work on one side, for counting or for time: the same list, window and samples for both. See
// compare/bench.
use dng_opcodes::{apply, apply_u16, parse, Opcode, PlaneImage, RowOps};
use rolbhunga::{Frame, Reading, Room};
use std::time::Instant;

const KINDS: [&str; 15] = [
    "f32-table",
    "f32-polynomial",
    "f32-gain",
    "f32-gain-rows",
    "f32-delta-row",
    "f32-scale-row",
    "f32-delta-column",
    "f32-scale-column",
    "f32-vignette",
    "f32-constant",
    "f32-list",
    "u16-constant",
    "u16-list",
    "u16-table",
    "f32-table-rows",
];

// whole region, one plane; three planes; every second row and column of one plane
const FORMS: [&str; 3] = ["", "-3", "-p2"];

// What a list of `many` opcodes is made of, each over the same small window; `read` is the scale list, only read.
const MANY: [&str; 5] = ["scale-row", "gain", "vignette", "constant", "read"];

// Marks side by side, listed as rectangles of a window of 2048 by 1536: a column, a row, 125 of 2 by 2, 31 of 4 by 4,
// one of 32 by 32 and one of 100 by 100, in which only the marks near the edge can be repaired.
const BESIDE: [&str; 6] = ["column", "row", "2-by-2", "4-by-4", "32-by-32", "100-by-100"];

extern "C" {
    fn syscall(number: i64, ...) -> i64;
}

// What a counting command counts between.
fn mark(k: i64) {
    unsafe {
        syscall(77777, k);
    }
}

fn word(b: &mut Vec<u8>, w: u32) {
    b.extend_from_slice(&w.to_be_bytes());
}

fn doubles(b: &mut Vec<u8>, d: &[f64]) {
    for x in d {
        b.extend_from_slice(&x.to_be_bytes());
    }
}

fn entry(list: &mut Vec<u8>, id: u32, body: &[u8]) {
    for x in [id, 0, 0, body.len() as u32] {
        word(list, x);
    }
    list.extend(body);
}

// The same opcode n times.
fn repeated(kind: &str, w: usize, h: usize, n: u32) -> Vec<u8> {
    let (id, body) = body(kind, w, h, 1, 1);
    let mut list = Vec::new();
    word(&mut list, n);
    for _ in 0..n {
        entry(&mut list, id, &body);
    }
    list
}

struct Work {
    list: Vec<u8>,
    frame: Frame,
    floats: Vec<f32>,
    wholes: Vec<u16>,
    marks: usize,
}

fn body(kind: &str, w: usize, h: usize, planes: usize, pitch: u32) -> (u32, Vec<u8>) {
    let mut b = Vec::new();
    let region = [0, 0, h as u32, w as u32, 0, planes as u32, pitch, pitch];
    let mut put = |id: u32, f: &dyn Fn(&mut Vec<u8>)| {
        for x in region {
            word(&mut b, x);
        }
        f(&mut b);
        (id, std::mem::take(&mut b))
    };
    let lines = |b: &mut Vec<u8>, n: usize, from: f32| {
        word(b, n as u32);
        for i in 0..n {
            b.extend_from_slice(&(from + (i % 64) as f32 / 4096.0).to_be_bytes());
        }
    };
    match kind {
        "table" | "table-rows" => put(7, &|b| {
            word(b, 65_536);
            for i in 0..65_536u32 {
                b.extend_from_slice(&((i * 7 / 8) as u16).to_be_bytes());
            }
        }),
        "polynomial" => put(8, &|b| {
            word(b, 3);
            doubles(b, &[0.001, 0.9, 0.08, 0.01]);
        }),
        "gain" | "gain-rows" => put(9, &|b| {
            word(b, 13);
            word(b, 17);
            doubles(b, &[1.0 / 12.0, 1.0 / 16.0, 0.0, 0.0]);
            word(b, 1);
            for i in 0..13 * 17 {
                b.extend_from_slice(&(1.0 + (i % 23) as f32 / 64.0).to_be_bytes());
            }
        }),
        "delta-row" => put(10, &|b| lines(b, h, 0.0)),
        "delta-column" => put(11, &|b| lines(b, w, 0.0)),
        "scale-row" => put(12, &|b| lines(b, h, 1.0)),
        "scale-column" => put(13, &|b| lines(b, w, 1.0)),
        "vignette" => {
            doubles(&mut b, &[0.3, 0.1, 0.05, 0.02, 0.01, 0.5, 0.5]);
            (3, b)
        }
        "constant" => {
            word(&mut b, 0);
            word(&mut b, 0);
            (4, b)
        }
        _ => {
            for x in [0, 500, 0] {
                word(&mut b, x);
            }
            let mut n = 12_345u32;
            for _ in 0..500 {
                for size in [h, w] {
                    n = n.wrapping_mul(1_664_525).wrapping_add(1_013_904_223);
                    word(&mut b, (n >> 8) % size as u32);
                }
            }
            (5, b)
        }
    }
}

impl Work {
    fn new(kind: &str, form: &str, w: usize, h: usize) -> Work {
        let planes = if form == "-3" { 3 } else { 1 };
        let pitch = if form == "-p2" { 2 } else { 1 };
        let (id, body) = body(&kind[4..], w, h, planes, pitch);
        let mut list = Vec::new();
        word(&mut list, 1);
        entry(&mut list, id, &body);
        let frame = Frame::new(w, h, planes).period(2);
        let n = w * h * planes;
        let mut seed = 99u32;
        let mut wholes: Vec<u16> = (0..n)
            .map(|_| {
                seed = seed.wrapping_mul(1_664_525).wrapping_add(1_013_904_223);
                (seed >> 16).max(1) as u16
            })
            .collect();
        // every thousandth pixel is bad
        for i in (0..w * h).step_by(1000) {
            wholes[i * planes] = 0;
        }
        let floats = wholes.iter().map(|&v| v as f32).collect();
        // Scratch exactly as long as is needed: the distinct positions.
        let marks = match id {
            4 => wholes.iter().step_by(planes).filter(|&&v| v == 0).count(),
            5 => {
                let at = list.len() - 500 * 8;
                let mut points: Vec<&[u8]> = list[at..].chunks(8).collect();
                points.sort_unstable();
                points.dedup();
                points.len()
            }
            _ => 0,
        };
        Work { list, frame, floats, wholes, marks }
    }

    fn ours(&self, kind: &str, f: &mut [f32], u: &mut [u16], marks: &mut [u32]) {
        let mut room = Room { marks, names: &mut [] };
        let n = self.frame.width * self.frame.planes;
        let done = if kind.ends_with("-rows") {
            let row = self.frame.row();
            f.chunks_mut(n).enumerate().all(|(y, s)| row.run(&self.list, s, y).number() == 0)
        } else if kind.starts_with("u16") {
            self.frame.run_u16(&self.list, u, &mut room).number() == 0
        } else {
            self.frame.run_f32(&self.list, f, &mut room).number() == 0
        };
        assert!(done);
    }

    fn theirs(&self, kind: &str, ops: &[Opcode], f: &mut [f32], u: &mut [u16]) {
        let g = &self.frame;
        if kind.ends_with("-rows") {
            let rows = RowOps::new(ops, g.width, g.planes, 0, g.full_width, g.full_height, 1.0).expect("taken");
            for (y, s) in f.chunks_mut(g.width * g.planes).enumerate() {
                rows.apply(y, s);
            }
        } else if kind.starts_with("u16") {
            apply_u16(ops, &mut PlaneImage::new(u, g.width, g.height, g.planes), g.period, false).expect("taken");
        } else {
            apply(ops, &mut PlaneImage::new(f, g.width, g.height, g.planes), g.period, 1.0, false);
        }
    }
}

// n points of a window of 2048 by 1536: by chance; or half of them in order, and then each of √n others as often as
// leaves so many in all, so that the scratch, which has room for the distinct ones alone, is nearly full while they
// come; or ("full") three eighths of them in order, and then an eighth as many others, out of order, again and again:
// the last quarter of the scratch fills while they come. Those of the last two lie apart, so that what is counted is
// how they are gathered.
fn points(kind: &str, n: u32) -> Vec<u32> {
    if kind == "points" {
        let mut seed = 12_345u32;
        let mut next = || {
            seed = seed.wrapping_mul(1_664_525).wrapping_add(1_013_904_223);
            seed >> 8
        };
        return (0..n).map(|_| next() % 1536 * 2048 + next() % 2048).collect();
    }
    if kind == "full" {
        let (ordered, others) = (n * 3 / 8, n / 8);
        return (0..ordered).map(|i| 37 * i).chain((0..n - ordered).map(|i| i * 7919 % others * 37 + 18)).collect();
    }
    let often = (1..).take_while(|f| f * f <= n).count() as u32;
    (0..n / 2).map(|i| 37 * i).chain((1..=often).flat_map(|f| (0..=often - f).map(move |_| 37 * f + 18))).collect()
}

// One list of these points, with exactly the room that it needs.
fn named(kind: &str, n: u32) {
    let mut at = points(kind, n);
    let mut b = Vec::new();
    for x in [0, at.len() as u32, 0] {
        word(&mut b, x);
    }
    for q in &at {
        word(&mut b, q / 2048);
        word(&mut b, q % 2048);
    }
    let mut list = Vec::new();
    word(&mut list, 1);
    entry(&mut list, 5, &b);
    at.sort_unstable();
    at.dedup();
    let mut samples = vec![1.0; 2048 * 1536];
    let mut marks = vec![0; at.len()];
    let mut room = Room { marks: &mut marks, names: &mut [] };
    let frame = Frame::new(2048, 1536, 1).period(2);
    mark(1);
    let done = frame.run_f32(&list, &mut samples, &mut room).number() == 0;
    mark(2);
    assert!(done);
}

fn rectangles(kind: &str) -> Vec<[u32; 4]> {
    let apart = |n: u32, size: u32| (0..n).map(|i| [i * 12 + 6, i * 97 % 2000 + 6, i * 12 + 6 + size, i * 97 % 2000 + 6 + size]).collect();
    match kind {
        "column" => vec![[0, 1000, 1536, 1001]],
        "row" => vec![[700, 0, 701, 2048]],
        "2-by-2" => apart(125, 2),
        "4-by-4" => apart(31, 4),
        "32-by-32" => apart(1, 32),
        _ => apart(1, 100),
    }
}

fn list_of(rectangles: &[[u32; 4]]) -> Vec<u8> {
    let mut b = Vec::new();
    for x in [0, 0, rectangles.len() as u32].iter().chain(rectangles.iter().flatten()) {
        word(&mut b, *x);
    }
    let mut list = Vec::new();
    word(&mut list, 1);
    entry(&mut list, 5, &b);
    list
}

// A repair of these, of f32 or u16 samples and with one plane or three, with exactly the room that it needs.
fn beside(kind: &str, whole: bool, planes: usize, ours: bool) {
    let (w, h) = (2048, 1536);
    let at = rectangles(kind);
    let list = list_of(&at);
    let frame = Frame::new(w, h, planes).period(2);
    let mut wholes: Vec<u16> = (0..w * h * planes).map(|i| (i % 4093) as u16).collect();
    let mut floats: Vec<f32> = wholes.iter().map(|&v| v as f32).collect();
    let marks: usize = at.iter().map(|r| ((r[2] - r[0]) * (r[3] - r[1])) as usize).sum();
    let mut marks = vec![0; marks];
    let mut room = Room { marks: &mut marks, names: &mut [] };
    let ops = parse(&list).expect("the list can be read");
    mark(1);
    let done = match (ours, whole) {
        (true, true) => frame.run_u16(&list, &mut wholes, &mut room).number() == 0,
        (true, false) => frame.run_f32(&list, &mut floats, &mut room).number() == 0,
        (false, true) => apply_u16(&ops, &mut PlaneImage::new(&mut wholes, w, h, planes), 2, false).is_some(),
        (false, false) => apply(&ops, &mut PlaneImage::new(&mut floats, w, h, planes), 2, 1.0, false).is_empty(),
    };
    mark(2);
    assert!(done);
}

// One list of rectangles, with exactly the room that it needs: three quarters of a window in order, and then n times
// the same other one, which stands behind the marks that are in order while the room is nearly full ("rows"); or n
// times one column of a window of four ("columns").
fn overlapping(kind: &str, n: u32) {
    let columns = kind == "columns";
    let (w, h) = if columns { (4, 65_536) } else { (2048, 512) };
    let again = if columns { [0, 1, h, 2] } else { [0, 0, 32, w - 1] };
    let first = if columns { [0, 0, 1, 1] } else { [128, 0, h, w] };
    let all: Vec<[u32; 4]> = std::iter::once(first).chain((0..n).map(|_| again)).collect();
    let list = list_of(&all);
    let size = |r: [u32; 4]| ((r[2] - r[0]) * (r[3] - r[1])) as usize;
    let room = size(first) + size(again);
    let mut samples = vec![1.0; (w * h) as usize];
    let mut marks = vec![0; room];
    let mut room = Room { marks: &mut marks, names: &mut [] };
    let frame = Frame::new(w as usize, h as usize, 1).period(2);
    mark(1);
    let done = frame.run_f32(&list, &mut samples, &mut room).number() == 0;
    mark(2);
    assert!(done);
}

// A list of n opcodes of one kind over a window without bad pixels, run or read once.
fn many(kind: &str, n: u32) {
    let (w, h) = (32, 24);
    let list = repeated(if kind == "read" { "scale-row" } else { kind }, w, h, n);
    let frame = Frame::new(w, h, 1).period(2);
    let mut samples: Vec<f32> = (0..w * h).map(|i| 1.0 + i as f32).collect();
    mark(1);
    let done = if kind == "read" {
        rolbhunga::read(&list) == Reading::Whole
    } else {
        frame.run_f32(&list, &mut samples, &mut Room { marks: &mut [], names: &mut [] }).number() == 0
    };
    mark(2);
    assert!(done);
}

fn main() {
    let args: Vec<String> = std::env::args().skip(1).collect();
    if args.first().is_some_and(|a| a == "many") {
        match args.len() {
            1 => MANY.iter().for_each(|kind| println!("{kind}")),
            _ if ["points", "repeats", "full"].contains(&args[1].as_str()) => named(&args[1], args[2].parse().expect("how many")),
            _ if ["rows", "columns"].contains(&args[1].as_str()) => overlapping(&args[1], args[2].parse().expect("how many")),
            _ => many(&args[1], args[2].parse().expect("how many")),
        }
        return;
    }
    if args.first().is_some_and(|a| a == "beside") {
        match args.len() {
            1 => BESIDE.iter().for_each(|kind| println!("{kind}")),
            _ => beside(&args[1], args[2] == "u16", args[3].parse().expect("how many planes"), args[4] == "ours"),
        }
        return;
    }
    let (w, h): (usize, usize) = (args[0].parse().expect("width"), args[1].parse().expect("height"));
    if args.len() == 2 {
        for form in FORMS {
            for kind in KINDS {
                // repairs and the vignette have no region
                let region = !["constant", "list", "vignette"].contains(&&kind[4..]);
                if form != "-p2" || region {
                    println!("{kind}{form} {}", w * h * if form == "-3" { 3 } else { 1 });
                }
            }
        }
        return;
    }
    let form = FORMS.iter().rev().find(|f| args[2].ends_with(**f)).expect("a form");
    let kind = args[2].strip_suffix(form).expect("a kind");
    let x = Work::new(kind, form, w, h);
    let mut marks = vec![0; x.marks];
    // The Rust's list is read before: only its run counts. Here reading is part of every call.
    let ops = parse(&x.list).expect("the list can be read");
    let mut best = u128::MAX;
    let repeats = if args.len() > 4 { 5 } else { 1 };
    for _ in 0..repeats {
        let (mut f, mut u) = (x.floats.clone(), x.wholes.clone());
        let from = Instant::now();
        mark(1);
        if args[3] == "ours" {
            x.ours(kind, &mut f, &mut u, &mut marks);
        } else {
            x.theirs(kind, &ops, &mut f, &mut u);
        }
        mark(2);
        best = best.min(from.elapsed().as_nanos());
    }
    if args.len() > 4 {
        println!("{best}");
    }
}
