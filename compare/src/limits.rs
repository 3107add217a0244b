// The limits of document 01 at their exact places, which chance does not find.
use crate::cases::{Case, Lengths};
use crate::lists::{list_of, word};
use crate::rng::Rng;
use rolbhunga::Frame;

const MOST: usize = 1 << 24;

pub fn case(list: Vec<u8>, frame: Frame) -> Case {
    let n = frame.width * frame.height * frame.planes;
    let n = if n <= 1 << 22 { n } else { 16 };
    Case {
        list,
        frame,
        floats: (0..n).map(|i| ((i % 7) as f32).to_bits()).collect(),
        wholes: (0..n).map(|i| (i % 7) as u16).collect(),
        row: (0..(frame.width * frame.planes).min(1 << 20)).map(|i| ((i % 5) as f32).to_bits()).collect(),
        y: frame.y0,
        f: Lengths::default(),
        u: Lengths::default(),
        row_work: 0,
        over: 0,
    }
}

fn words(w: &[u32]) -> Vec<u8> {
    let mut b = Vec::new();
    for &w in w {
        word(&mut b, w);
    }
    b
}

const ALL: [u32; 8] = [0, 0, u32::MAX, u32::MAX, 0, 8, 1, 1];

// A region and a count, and so many elements of a size.
fn counted(n: usize, elements: usize, size: usize) -> Vec<u8> {
    let mut b = words(&ALL);
    word(&mut b, n as u32);
    b.resize(b.len() + elements * size, 1);
    b
}

fn gain(v: u32, h: u32, planes: u32, elements: usize) -> Vec<u8> {
    let mut b = words(&ALL);
    word(&mut b, v);
    word(&mut b, h);
    for x in [0.001f64, 0.001, 0.0, 0.0] {
        b.extend_from_slice(&x.to_be_bytes());
    }
    word(&mut b, planes);
    for i in 0..elements {
        b.extend_from_slice(&(1.0 + (i % 9) as f32 / 16.0).to_be_bytes());
    }
    b
}

fn bad(np: u32, nr: u32, bytes: usize) -> Vec<u8> {
    let mut b = words(&[0, np, nr]);
    b.resize(b.len() + bytes, 0);
    b
}

fn many(n: usize, id: u32, body: &[u8]) -> Vec<u8> {
    let e: Vec<(u32, Vec<u8>)> = (0..n).map(|_| (id, body.to_vec())).collect();
    list_of(&e)
}

// Listed points and rectangles that overlap, in windows about 16 times as tall as wide: taller ones are gathered by
// columns. The numbers come from a fixed sequence, near the window and somewhat outside.
fn narrow() -> Vec<(&'static str, Case)> {
    let mut r = Rng::new(16, 0);
    let mut v = Vec::new();
    for n in 0..600 {
        let width = 1 + n % 4;
        let height = [16 * width + 15, 16 * width + 16, 16 * width + 17, 90][n / 4 % 4];
        let at = [0, 3, 16_777_216][n % 3];
        let frame = Frame::new(width, height, 1 + n % 2).at(at, at).stride(width + n % 3).period([1, 2, 5][n / 16 % 3]);
        let mut near = |size: usize| (at + r.below(size + 4)).saturating_sub(2) as u32;
        let (points, rects) = (n % 7, 1 + n % 9);
        let mut b = words(&[0, points as u32, rects as u32]);
        for _ in 0..points {
            let point = [near(height), near(width)];
            b.extend(words(&point));
        }
        for _ in 0..rects {
            let (a, b0, c, d) = (near(height), near(width), near(height), near(width));
            b.extend(words(&[a.min(c), b0.min(d), a.max(c), b0.max(d)]));
        }
        let mut c = case(list_of(&[(5, b)]), frame);
        let samples = frame.stride * height * frame.planes;
        c.floats = (0..samples).map(|i| ((i % 11) as f32).to_bits()).collect();
        c.wholes = (0..samples).map(|i| (i % 11) as u16).collect();
        v.push(("a narrow window", c));
    }
    v
}

pub fn cases() -> Vec<(&'static str, Case)> {
    let small = Frame::new(3, 2, 1);
    let mut v = Vec::new();
    let mut put = |what, list, frame| v.push((what, case(list, frame)));
    put("no bytes", vec![], small);
    put("three bytes", vec![0; 3], small);
    put("no opcodes", vec![0; 4], small);
    put("4,096 warps", many(4096, 2, &[]), small);
    put("4,097 warps", many(4097, 2, &[]), small);
    put("4,096 of which the last is cut", many(4096, 4, &[0; 8])[..4 + 4096 * 24 - 1].to_vec(), small);
    put("4,096 repairs", many(4096, 4, &[0; 8]), small);
    put("4,096 tables", many(4096, 7, &counted(1, 1, 2)), small);
    put("2^24 table entries", list_of(&[(7, counted(MOST, MOST, 2))]), small);
    put("2^24 + 1 table entries", list_of(&[(7, counted(MOST + 1, MOST + 1, 2))]), small);
    put("2^24 table entries, one short", list_of(&[(7, counted(MOST, MOST - 1, 2))]), small);
    put("2^24 deltas", list_of(&[(10, counted(MOST, MOST, 4))]), small);
    put("2^24 + 1 scales", list_of(&[(13, counted(MOST + 1, MOST + 1, 4))]), small);
    put("2^24 gains", list_of(&[(9, gain(4096, 2048, 2, MOST))]), small);
    put("2^24 gains, one short", list_of(&[(9, gain(4096, 4096, 1, MOST - 1))]), small);
    put("above 2^24 gains", list_of(&[(9, gain(4096, 4097, 1, 4096 * 4097))]), small);
    put("gains with map planes 0", list_of(&[(9, gain(2, 2, 0, 4))]), small);
    put("gains with no points", list_of(&[(9, gain(0, 2, 1, 4))]), small);
    put("gains beyond 64 bits", list_of(&[(9, gain(u32::MAX, u32::MAX, u32::MAX, 4))]), small);
    put("gains whose product wraps to 0", list_of(&[(9, gain(1 << 31, 1 << 31, 4, 4))]), small);
    for (n, bytes) in [(8, 72), (8, 71), (9, 80), (0, 8), (0, 7), (u32::MAX, 80)] {
        let mut b = words(&ALL);
        word(&mut b, n);
        b.resize(b.len() + bytes, 0);
        put("polynomial degrees", list_of(&[(8, b)]), small);
    }
    for (np, nr, bytes) in [
        (1, 1, 24),
        (1, 1, 23),
        (u32::MAX, 0, 8),
        (0, u32::MAX, 16),
        (u32::MAX, u32::MAX, 64),
        (1 << 29, 0, 8),
        (0, 1 << 28, 16),
        (0, 0, 0),
    ] {
        put("counts of bad pixels", list_of(&[(5, bad(np, nr, bytes))]), small);
    }
    for n in [0, 1, 4, 5] {
        let mut b = words(&[n]);
        b.resize(4 + (6 * n as usize + 2) * 8, 0);
        put("warp planes", list_of(&[(1, b.clone())]), small);
        b.pop();
        put("warp planes, one byte short", list_of(&[(1, b)]), small);
    }
    let run = list_of(&[(4, vec![0; 8]), (10, counted(3, 3, 4)), (5, bad(1, 1, 24)), (7, counted(2, 2, 2))]);
    let whole = list_of(&[(4, vec![0; 8]), (7, counted(2, 2, 2)), (2, vec![])]);
    let rows = list_of(&[(3, 0.25f64.to_be_bytes().repeat(7)), (11, counted(3, 3, 4)), (9, gain(2, 2, 1, 4))]);
    for l in [&run, &whole, &rows] {
        for f in [
            Frame::new(65_536, 1, 1),
            Frame::new(65_537, 1, 1),
            Frame::new(1, 65_536, 1),
            Frame::new(1, 65_537, 1),
            Frame::new(2, 2, 0),
            Frame::new(2, 2, 1),
            Frame::new(2, 2, 8),
            Frame::new(2, 2, 9),
            Frame::new(2, 2, 1).stride(65_536),
            Frame::new(2, 2, 1).stride(65_537),
            Frame::new(2, 2, 1).at(16_777_216, 16_777_216),
            Frame::new(2, 2, 1).at(16_777_217, 0),
            Frame::new(2, 2, 1).at(0, 16_777_217),
            Frame::new(2, 2, 1).full(16_777_216, 16_777_216),
            Frame::new(2, 2, 1).full(16_777_217, 1),
            Frame::new(2, 2, 1).full(1, 16_777_217),
            Frame::new(2, 2, 1).period(0),
            Frame::new(2, 2, 1).period(65_536),
            Frame::new(2, 2, 1).period(65_537),
            Frame::new(0, 2, 1),
            Frame::new(2, 0, 1),
            Frame::new(2, 2, 1).stride(1),
            Frame::new(65_536, 65_536, 1),
            Frame::new(65_536, 65_536, 8),
        ] {
            put("sizes and places", l.clone(), f);
        }
    }
    // the last row that a row call takes, and the first that it does not; a row one sample too long
    for y in [16_842_751, 16_842_752] {
        let mut c = case(rows.clone(), Frame::new(2, 2, 1).at(0, 16_777_216));
        c.y = y;
        v.push(("the last row", c));
    }
    let mut c = case(rows.clone(), Frame::new(2, 2, 3));
    c.row.push(0x4000_0000);
    v.push(("a row too long", c));
    v.extend(narrow());
    v
}
