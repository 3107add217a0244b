//! Black level: the worked values of the definitions, the refusals, and samples in bytes.
use rolbhunga::black::{Black, Field, Levels};

const ONE: Field = Field { width: 1, height: 1, planes: 1, x0: 0, y0: 0 };

// One sample, with these deltas, at the image's row and column 0.
fn one(v: f32, black: f32, scale: f32, rows: &[f32], columns: &[f32]) -> f32 {
    let mut out = [7.0];
    let (blacks, scales) = ([black], [scale]);
    let l = Levels::new(1, 1, &blacks, &scales).deltas(rows, columns);
    assert_eq!(ONE.from_f32(&[v], &mut out, &l), Black::Done);
    out[0]
}

#[test]
fn values() {
    // the black goes first
    assert_eq!(one(3.0, 1.0, 2.0, &[], &[]), 4.0);
    // the row's delta before the column's, each sum rounded
    assert_eq!(one(3.0, 1e8, 1.0, &[-1e8], &[1.0]), 2.0);
    // what is not above 0 is +0
    for v in [-1.0, -0.0, f32::NAN, f32::NEG_INFINITY] {
        assert_eq!(one(v, 0.0, 1.0, &[], &[]).to_bits(), 0);
    }
    assert_eq!(one(f32::INFINITY, 0.0, 1.0, &[], &[]), f32::INFINITY);
    assert_eq!(one(1.0, 3.0, -2.0, &[], &[]), 4.0);
}

#[test]
fn positions() {
    // two planes under two lines and three columns: 100 times the plane, 10 times the line, and the column
    let black: Vec<f32> = [0, 1, 2, 10, 11, 12, 100, 101, 102, 110, 111, 112].iter().map(|&v| v as f32).collect();
    let scale: Vec<f32> = [3, 5, 7, 11, 13, 17, 19, 23, 29, 31, 37, 41].iter().map(|&v| v as f32).collect();
    let l = Levels::new(2, 3, &black, &scale);
    let mut out = [9.0; 5];
    assert_eq!(Field::new(2, 1, 2).at(2, 1).from_u16(&[13, 114, 13, 114], &mut out, &l), Black::Done);
    assert_eq!(out, [17.0, 82.0, 33.0, 124.0, 9.0]);
    // deltas go by image positions, and a missing one is 0
    let (rows, columns) = ([5.0], [10.0, 20.0, 30.0]);
    let (b, s) = ([1.0], [1.0]);
    let l = Levels::new(1, 1, &b, &s).deltas(&rows, &columns);
    let mut out = [0.0; 3];
    assert_eq!(Field::new(3, 1, 1).at(1, 4).from_f32(&[100.0, 200.0, 300.0], &mut out, &l), Black::Done);
    assert_eq!(out, [79.0, 169.0, 299.0]);
}

#[test]
fn bands_and_tiles() {
    let (w, h, planes) = (13, 9, 3);
    let table: Vec<f32> = (0..planes * 4 * 5).map(|i| i as f32 / 8.0).collect();
    let rows: Vec<f32> = (0..10).map(|i| i as f32).collect();
    let columns: Vec<f32> = (0..16).map(|i| i as f32 / 2.0).collect();
    let l = Levels::new(4, 5, &table, &table).deltas(&rows, &columns);
    let input: Vec<u16> = (0..w * h * planes).map(|i| (i * 37 % 4096) as u16).collect();
    let frame = Field::new(w, h, planes).at(3, 2);
    let mut whole = vec![0.0; input.len()];
    assert_eq!(frame.from_u16(&input, &mut whole, &l), Black::Done);
    // bands of two rows, each by a thread of its own
    let mut bands = vec![0.0; input.len()];
    std::thread::scope(|s| {
        let rows = 2 * w * planes;
        for (i, (a, b)) in input.chunks(rows).zip(bands.chunks_mut(rows)).enumerate() {
            let band = Field::new(w, a.len() / (w * planes), planes).at(3, 2 + 2 * i);
            s.spawn(move || assert_eq!(band.from_u16(a, b, &l), Black::Done));
        }
    });
    assert_eq!(whole, bands);
    // a tile of 4 by 3 at (5, 4)
    let tile: Vec<u16> = (0..3).flat_map(|y| input[((4 + y) * w + 5) * planes..][..4 * planes].to_vec()).collect();
    let mut out = vec![0.0; tile.len()];
    assert_eq!(Field::new(4, 3, planes).at(8, 6).from_u16(&tile, &mut out, &l), Black::Done);
    for (y, row) in out.chunks(4 * planes).enumerate() {
        assert_eq!(row, &whole[((4 + y) * w + 5) * planes..][..4 * planes]);
    }
}

#[test]
fn refusals() {
    let (b, s) = ([1.0; 12], [1.0; 12]);
    let l = Levels::new(2, 3, &b, &s);
    let mut out = [7.0; 4];
    let mut with = |f: Field, l: Levels, n: usize| f.from_u16(&[1; 4][..n], &mut out, &l).number();
    let two = Field::new(2, 1, 2);
    assert_eq!(with(two, l, 4), 0);
    for f in [
        Field::new(65_537, 0, 1),
        Field::new(0, 65_537, 1),
        Field::new(0, 0, 0),
        Field::new(0, 0, 9),
        Field::new(0, 0, 1).at(16_777_217, 0),
        Field::new(0, 0, 1).at(0, 16_777_217),
    ] {
        assert_eq!(with(f, Levels::new(0, 0, &[], &[]), 0), 1);
    }
    for l in [
        Levels::new(0, 3, &b, &s),
        Levels::new(2, 0, &b, &s),
        Levels::new(2, 3, &b[1..], &s),
        Levels::new(2, 3, &b, &s[1..]),
        Levels::new(1 << 31, 1 << 31, &[], &[]),
        Levels::new(usize::MAX, usize::MAX, &b, &s),
    ] {
        assert_eq!(with(two, l, 0), 60);
        assert_eq!(with(Field::new(0, 0, 4), l, 0), 60);
    }
    assert_eq!(with(two, l, 3), 61);
    assert_eq!(two.from_u16(&[1; 4], &mut [7.0; 3], &l), Black::Samples);
}

#[test]
fn bytes() {
    let (b, s) = ([1.0], [2.0]);
    let l = Levels::new(1, 1, &b, &s);
    let f = Field::new(2, 1, 1);
    let input: Vec<u8> = [3.0f32, f32::NAN].iter().flat_map(|v| v.to_le_bytes()).collect();
    let (mut out, mut work, mut made) = ([0xcc; 10], [1.0; 2], [1.0; 3]);
    let old = out;
    assert_eq!(f.bytes_from_f32(&input, &mut out, &l, &mut work[..1], &mut made), Black::Work);
    assert_eq!((out, work[0], made), (old, 0.0, [0.0; 3]));
    assert_eq!(f.bytes_from_f32(&input[1..], &mut out, &l, &mut [], &mut []), Black::Samples);
    assert_eq!(f.bytes_from_f32(&input, &mut out, &l, &mut work, &mut made), Black::Done);
    assert_eq!(out, [0, 0, 0x80, 0x40, 0, 0, 0, 0, 0xcc, 0xcc]);
    let (mut out, mut work, mut made) = ([0xcc; 9], [1; 2], [1.0; 2]);
    assert_eq!(f.bytes_from_u16(&[3, 0, 1, 1], &mut out, &l, &mut work, &mut made), Black::Done);
    assert_eq!(out, [0, 0, 0x80, 0x40, 0, 0, 0, 0x44, 0xcc]);
    assert_eq!((work, made), ([0; 2], [0.0; 2]));
}
