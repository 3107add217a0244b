// Black level on one side, for counting or for time: the same frame, tables and deltas for both. See compare/bench.
use normalize::{normalize, FrameInfo, PixelData, RawImage};
use rolbhunga::black::{Black, Field, Levels};
use std::time::Instant;

// The name, planes, lines and columns of the pattern, and whether there are deltas for each row and column.
const KINDS: [(&str, usize, usize, usize, bool); 8] = [
    ("2x2", 1, 2, 2, false),
    ("2x2-deltas", 1, 2, 2, true),
    ("1x1", 1, 1, 1, false),
    ("6x6", 1, 6, 6, false),
    ("6x6-deltas", 1, 6, 6, true),
    ("1x1-3", 3, 1, 1, false),
    ("1x1-3-deltas", 3, 1, 1, true),
    ("3x4096", 1, 3, 4096, false),
];

extern "C" {
    fn syscall(number: i64, ...) -> i64;
}

// What a counting command counts between.
fn mark(k: i64) {
    unsafe {
        syscall(77777, k);
    }
}

fn main() {
    let args: Vec<String> = std::env::args().skip(1).collect();
    let (w, h): (usize, usize) = (args[0].parse().expect("width"), args[1].parse().expect("height"));
    if args.len() == 2 {
        for form in ["f32", "u16"] {
            for (kind, planes, ..) in KINDS {
                println!("{form}-{kind} {}", w * h * planes);
            }
        }
        return;
    }
    let (form, kind) = args[2].split_once('-').expect("a form and a kind");
    let (_, planes, ph, pw, deltas) = *KINDS.iter().find(|k| k.0 == kind).expect("a kind");
    let n = w * h * planes;
    let wholes: Vec<u16> = (0..n).map(|i| (i * 7919 % 65_536) as u16).collect();
    let floats: Vec<f32> = wholes.iter().map(|&v| v as f32).collect();
    let table = |from: f32| -> Vec<f32> { (0..planes * ph * pw).map(|i| from + i as f32).collect() };
    let (blacks, scales) = (table(200.0), table(60_000.0).iter().map(|v| 1.0 / v).collect::<Vec<_>>());
    let list = |n: usize| -> Vec<f32> { (0..if deltas { n } else { 0 }).map(|i| (i % 7) as f32 / 4.0).collect() };
    let (x0, y0) = (3, 5);
    let (rows, columns) = (list(y0 + h), list(x0 + w));
    let levels = Levels::new(ph, pw, &blacks, &scales).deltas(&rows, &columns);
    let field = Field::new(w, h, planes).at(x0, y0);
    let plane = |t: &[f32]| t.chunks(ph * pw).map(<[f32]>::to_vec).collect();
    let (row_deltas, col_deltas) = (rows.clone(), columns.clone());
    let info = FrameInfo { pw, ph, black: plane(&blacks), scale: plane(&scales), row_deltas, col_deltas };
    let data = if form == "u16" { PixelData::U16(wholes.clone()) } else { PixelData::F32(floats.clone()) };
    let img = RawImage { width: w as u32, cpp: planes as u8, data };
    let mut out = vec![0.0; n];
    let mut best = u128::MAX;
    for _ in 0..if args.len() > 4 { 5 } else { 1 } {
        let t = Instant::now();
        mark(1);
        if args[3] == "rust" {
            out = normalize(&img, &info, (x0 as u32, y0 as u32), false);
        } else if form == "u16" {
            assert_eq!(field.from_u16(&wholes, &mut out, &levels), Black::Done);
        } else {
            assert_eq!(field.from_f32(&floats, &mut out, &levels), Black::Done);
        }
        mark(2);
        best = best.min(t.elapsed().as_nanos());
    }
    assert!(out.iter().any(|v| *v > 0.0));
    if args.len() > 4 {
        println!("{best}");
    }
}
