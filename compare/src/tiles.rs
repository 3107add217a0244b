// Tiles give the frame (document 02, M-110): a frame cut by chance into rectangles, each run as its own window in an
// order by chance, against one run of the frame, bit for bit, in f32 and in u16. The lists have no repair, but for
// those that a preview drops; half of the cuts are previews.
use crate::check::Counts;
use crate::lists::{self, Around};
use crate::oracle::same;
use crate::previews;
use crate::rng::{f32_bits, Rng};
use rolbhunga::{Answer, Frame, Scratch, Tile};

struct Cut {
    frame: Frame,
    floats: Vec<f32>,
    wholes: Vec<u16>,
    list: Vec<u8>,
    // tables and opcodes that no form applies, for the u16 run
    tables: Vec<u8>,
    tiles: Vec<Tile>,
}

// Near 0, or such that the window and its tiles end at the limit.
fn place(r: &mut Rng, size: usize) -> usize {
    let most = 16_777_216 - size;
    match r.below(8) {
        0 => most,
        1 => most - r.below(8),
        2 => r.below(most + 1),
        3..=5 => 0,
        _ => r.below(12),
    }
}

fn frame(r: &mut Rng) -> Frame {
    let most = if r.once(20) { (80, 24) } else { (9, 7) };
    let (width, height) = (r.within(1, most.0), r.within(1, most.1));
    let planes = r.pick(&[1, 1, 1, 2, 3, 4, 8]);
    let stride = width + if r.once(2) { 0 } else { r.below(4) };
    let (x0, y0) = (place(r, width), place(r, height));
    let (full_width, full_height) = match r.below(4) {
        0 => (r.below(16_777_217), r.below(16_777_217)),
        1 => (r.below(2), r.below(2)),
        _ => (x0 + width, y0 + height),
    };
    let scale = r.pick(&[1.0, 1.0, 65535.0, 65535.0, 0.5, 0.0, f32::INFINITY, f32::NAN]);
    let (period, preview) = (r.below(4), r.once(2));
    Frame { width, height, planes, stride, x0, y0, full_width, full_height, period, scale, preview }
}

// Any cut into rectangles: the first position that is free yet, in reading order, and from there as far right and down
// as chance has it.
fn rectangles(r: &mut Rng, f: &Frame, most: usize) -> Vec<Tile> {
    let mut free = vec![true; f.width * f.height];
    let mut tiles = Vec::new();
    while let Some(at) = free.iter().position(|&b| b) {
        let (x, y) = (at % f.width, at / f.width);
        let run = (x..f.width).take_while(|&i| free[y * f.width + i]).count();
        let width = r.within(1, run.min(most));
        let height = r.within(1, (f.height - y).min(most));
        for row in y..y + height {
            free[row * f.width + x..row * f.width + x + width].fill(false);
        }
        tiles.push(f.tile(x, y, width, height));
    }
    tiles
}

fn bands(f: &Frame, rows: usize) -> Vec<Tile> {
    (0..f.height).step_by(rows).map(|y| f.tile(0, y, f.width, rows.min(f.height - y))).collect()
}

fn strips(f: &Frame, columns: usize) -> Vec<Tile> {
    (0..f.width).step_by(columns).map(|x| f.tile(x, 0, columns.min(f.width - x), f.height)).collect()
}

fn cut(r: &mut Rng, f: &Frame) -> (&'static str, Vec<Tile>) {
    match r.below(8) {
        0 => ("bands", bands(f, r.within(1, f.height))),
        1 => ("strips", strips(f, r.within(1, f.width))),
        2 => ("single pixels", rectangles(r, f, 1)),
        3 => ("the frame itself", vec![f.tile(0, 0, f.width, f.height)]),
        _ => {
            let most = r.within(1, f.width.max(f.height));
            ("rectangles", rectangles(r, f, most))
        }
    }
}

fn empty(r: &mut Rng, f: &Frame) -> Tile {
    let (x, y) = (r.below(f.width + 1), r.below(f.height + 1));
    let (width, height) = (r.below(f.width), r.below(f.height));
    if r.once(2) {
        f.tile(x, y, 0, height)
    } else {
        f.tile(x, y, width, 0)
    }
}

fn shuffle(r: &mut Rng, tiles: &mut [Tile]) {
    for i in (1..tiles.len()).rev() {
        tiles.swap(i, r.below(i + 1));
    }
}

// With any opcodes between, which a preview drops.
fn tables(r: &mut Rng, a: &Around, preview: bool) -> Vec<u8> {
    let mut l = Vec::new();
    let n = r.within(1, 3);
    lists::word(&mut l, n as u32);
    for _ in 0..n {
        let dropped = preview && r.once(2);
        let id = if dropped { lists::any_id(r) } else { r.pick(&[7, 7, 7, 1, 2, 6, 14]) };
        let body = lists::body(r, id, a);
        lists::entry(&mut l, id, 2 * dropped as u32 + r.below(2) as u32, &body);
    }
    l
}

fn no_repairs(r: &mut Rng, a: &Around, preview: bool) -> Vec<u8> {
    if preview {
        previews::repairs_flagged(&lists::list(r, a, 0))
    } else {
        lists::list(r, a, 2)
    }
}

fn made(r: &mut Rng, n: &mut Counts) -> Cut {
    let frame = frame(r);
    let a = Around { width: frame.width, height: frame.height, planes: frame.planes, x0: frame.x0, y0: frame.y0 };
    let last = ((frame.height - 1) * frame.stride + frame.width) * frame.planes;
    let length = last + if r.once(2) { 0 } else { r.below(20) };
    let (what, mut tiles) = cut(r, &frame);
    let empties = if r.once(2) { 0 } else { r.within(1, 3) };
    add(n, &format!("tiles cuts into {what}"), 1);
    add(n, "tiles cuts with gaps between rows", (frame.stride > frame.width) as u64);
    add(n, "tiles of one pixel", tiles.iter().filter(|t| t.frame.width * t.frame.height == 1).count() as u64);
    add(n, "tiles that are empty", empties as u64);
    add(n, "tiles", tiles.len() as u64);
    for _ in 0..empties {
        tiles.push(empty(r, &frame));
    }
    shuffle(r, &mut tiles);
    let list = no_repairs(r, &a, frame.preview);
    let tables = tables(r, &a, frame.preview);
    if frame.preview {
        add(n, "tiles cuts of previews", 1);
        let dropped = |l: &[u8]| previews::left(l).0.len() < l.len();
        add(n, "tiles cuts of previews that drop an opcode", (dropped(&list) || dropped(&tables)) as u64);
    }
    let floats = (0..length).map(|_| f32::from_bits(f32_bits(r))).collect();
    let wholes = (0..length).map(|_| if r.once(4) { r.next() as u16 } else { r.below(30) as u16 }).collect();
    Cut { frame, floats, wholes, list, tables, tiles }
}

fn add(n: &mut Counts, what: &str, k: u64) {
    *n.entry(what.into()).or_insert(0) += k;
}

// A tile's own period and scratch, and how many samples it is lent from its first on: up to its last, or past it.
fn own(r: &mut Rng, t: &Tile, names: usize, samples: usize) -> (Tile, Scratch, usize) {
    let mut t = *t;
    t.frame.period = r.pick(&[0, 1, 2, 65_536]);
    let left = samples.saturating_sub(t.start);
    let span = t.span().min(left);
    let lent = match r.below(3) {
        0 => span,
        1 => r.within(span, left),
        _ => left,
    };
    (t, Scratch::new(r.below(3), names + r.below(2)), lent)
}

macro_rules! tiled {
    ($name:ident, $sample:ty, $run:ident, $equal:expr) => {
        // None where the frame's run refuses; else whether the tiles leave what it leaves.
        fn $name(r: &mut Rng, c: &Cut, list: &[u8], before: &[$sample], tiles: &[Tile]) -> Option<Result<(), String>> {
            let mut room = Scratch::new(0, rolbhunga::MAX_OPCODES);
            let mut one = before.to_vec();
            let Answer::Done { names, whole, .. } = c.frame.$run(list, &mut one, &mut room.room()) else { return None };
            let equal: fn(&$sample, &$sample) -> bool = $equal;
            if c.frame.preview {
                let mut without = before.to_vec();
                let a = c.frame.preview(false).$run(&previews::left(list).0, &mut without, &mut room.room());
                let alike = one.iter().zip(&without).all(|(a, b)| equal(a, b));
                if a != (Answer::Done { names, repaired: 0, left: 0, whole }) || !alike {
                    return Some(Err(format!("a preview is not the run over what is left, which answers {a:?}")));
                }
            }
            let mut s = before.to_vec();
            for t in tiles {
                let (t, mut room, lent) = own(r, t, names, s.len());
                let start = t.start.min(s.len());
                let a = t.frame.$run(list, &mut s[start..start + lent], &mut room.room());
                if a != (Answer::Done { names, repaired: 0, left: 0, whole }) {
                    return Some(Err(format!("{t:?} answers {a:?}")));
                }
            }
            Some(match (0..s.len()).find(|&i| !equal(&s[i], &one[i])) {
                Some(i) => Err(format!("sample {i} is {:?} by tiles, {:?} in one run", s[i], one[i])),
                None => Ok(()),
            })
        }
    };
}

tiled!(tiled_f32, f32, run_f32, |a, b| same(*a, *b));
tiled!(tiled_u16, u16, run_u16, |a, b| a == b);

// Tiles that all claim the frame's own place: what they leave mostly differs, which shows that a wrong place is seen.
fn misplaced(c: &Cut) -> Vec<Tile> {
    let mut tiles = c.tiles.clone();
    for t in &mut tiles {
        (t.frame.x0, t.frame.y0) = (c.frame.x0, c.frame.y0);
    }
    tiles
}

// Cases from, from + step .. below to: what they covered, and how many differ.
pub fn sweep(seed: u64, from: u64, to: u64, step: u64) -> (Counts, u64) {
    let (mut n, mut wrong) = (Counts::new(), 0);
    let mut k = from;
    while k < to {
        let r = &mut Rng::new(seed ^ 0x7469_6c65, k);
        let c = made(r, &mut n);
        let results = [
            ("f32", tiled_f32(r, &c, &c.list, &c.floats, &c.tiles)),
            ("u16", tiled_u16(r, &c, &c.tables, &c.wholes, &c.tiles)),
        ];
        for (kind, result) in results {
            add(&mut n, &format!("tiles cases {kind}{}", if result.is_some() { "" } else { " refused" }), 1);
            if let Some(Err(why)) = result {
                wrong += 1;
                if wrong <= 3 {
                    println!("difference in tiles, case {k} of seed {seed}, {kind}: {why}");
                    let list = if kind == "f32" { &c.list } else { &c.tables };
                    println!("  {:?}\n  tiles {:?}\n  list {list:02x?}", c.frame, c.tiles);
                }
            }
        }
        if let Some(Err(_)) = tiled_f32(r, &c, &c.list, &c.floats, &misplaced(&c)) {
            add(&mut n, "tiles at the frame's place that differ, as they should", 1);
        }
        k += step;
    }
    (n, wrong)
}
