//! The wrappers over document 01's bench frames, the refusals, and samples in bytes.
use rolbhunga::{read, Answer, Frame, Reading, Reason, Room, RowAnswer, Scratch};

fn words(w: &[u32]) -> Vec<u8> {
    w.iter().flat_map(|w| w.to_be_bytes()).collect()
}

fn list(entries: &[(u32, Vec<u8>)]) -> Vec<u8> {
    let plain: Vec<_> = entries.iter().map(|e| (0, e.clone())).collect();
    flagged(&plain)
}

// Entries behind their flags.
fn flagged(entries: &[(u32, (u32, Vec<u8>))]) -> Vec<u8> {
    let mut l = words(&[entries.len() as u32]);
    for (flags, (id, body)) in entries {
        l.extend(words(&[*id, 0x0103_0000, *flags, body.len() as u32]));
        l.extend(body);
    }
    l
}

fn constant(c: u32) -> (u32, Vec<u8>) {
    (4, words(&[c, 0]))
}

fn table(region: [u32; 8], entries: &[u16]) -> (u32, Vec<u8>) {
    let mut b = words(&region);
    b.extend(words(&[entries.len() as u32]));
    b.extend(entries.iter().flat_map(|e| e.to_be_bytes()));
    (7, b)
}

const ALL: [u32; 8] = [0, 0, 9, 9, 0, 1, 1, 1];

fn run_f32(f: Frame, l: &[u8], samples: &mut [f32]) -> Answer {
    f.run_f32(l, samples, &mut Scratch::enough(&f).room())
}

#[test]
fn reading() {
    assert_eq!(read(&[]), refused(0, Reason::Ends, 0));
    assert_eq!(read(&[0; 4]), Reading::Whole);
    assert_eq!(read(&words(&[4097])), refused(0, Reason::TooMany, 0));
    let l = list(&[(2, vec![]), constant(0)]);
    assert_eq!(read(&l), Reading::Whole);
    assert_eq!(read(&l[..l.len() - 1]), refused(1, Reason::TooLong, 32));
}

fn refused(entry: usize, reason: Reason, offset: usize) -> Reading {
    Reading::Malformed { entry, reason, offset }
}

// One of each reason, from the calls that read a list; and in words.
#[test]
fn reasons() {
    let degree = |d| (8, words(&[0, 0, 1, 1, 0, 1, 1, 1, d]));
    let cases: [(Vec<u8>, usize, Reason, usize); 6] = [
        (words(&[1, 5]), 0, Reason::Ends, 8),
        (words(&[4097]), 0, Reason::TooMany, 0),
        (words(&[1, 4, 0, 0, 1]), 0, Reason::TooLong, 16),
        (list(&[constant(0), (4, vec![])]), 1, Reason::Inside, 44),
        (list(&[degree(8)]), 0, Reason::Count, 52),
        (list(&[degree(9)]), 0, Reason::Degree, 52),
    ];
    for (number, (l, entry, reason, offset)) in (20..).zip(cases) {
        assert_eq!((read(&l), reason.number()), (refused(entry, reason, offset), number));
        let f = Frame::new(1, 1, 1);
        assert_eq!(run_f32(f, &l, &mut [3.0]), Answer::Malformed { entry, reason, offset });
        let a = f.run_u16(&l, &mut [3], &mut Scratch::enough(&f).room());
        assert_eq!((a, a.number()), (Answer::Malformed { entry, reason, offset }, number));
        let a = f.row().run(&l, &mut [3.0], 0);
        assert_eq!((a, a.number()), (RowAnswer::Malformed { entry, reason, offset }, number));
    }
    let said = read(&words(&[1, 5])).to_string();
    let why =
        "20: the list is cut short, or its count cannot be right: it ends inside the count or a header, at byte 8";
    assert_eq!(said, format!("{why}; whole entries before: 0"));
}

#[test]
fn means() {
    let (f, l) = (Frame::new(3, 1, 1), list(&[constant(0)]));
    let mut s = [10.0, 0.0, 19.0];
    assert_eq!(run_f32(f, &l, &mut s), Answer::Done { names: 0, repaired: 1, left: 0, whole: true });
    assert_eq!(s, [10.0, 14.5, 19.0]);
    let mut u = [10, 0, 19];
    let a = f.run_u16(&l, &mut u, &mut Scratch::enough(&f).room());
    assert_eq!((a, u), (Answer::Done { names: 0, repaired: 1, left: 0, whole: true }, [10, 15, 19]));
    let left = Answer::Done { names: 0, repaired: 0, left: 1, whole: true };
    assert_eq!(run_f32(Frame::new(1, 1, 1), &l, &mut [0.0]), left);
}

#[test]
fn tables() {
    let mut s = [0.0, 1.0, 9.0];
    let l = list(&[table(ALL, &[5, 7])]);
    assert!(run_f32(Frame::new(3, 1, 1), &l, &mut s).is_whole());
    assert_eq!(s, [5.0, 7.0, 7.0]);
}

#[test]
fn an_empty_table() {
    let (f, l) = (Frame::new(1, 1, 1), list(&[table(ALL, &[])]));
    let mut scratch = Scratch::new(0, 1);
    let a = f.run_f32(&l, &mut [1.0], &mut scratch.room());
    assert_eq!(a, Answer::Done { names: 1, repaired: 0, left: 0, whole: false });
    assert_eq!(scratch.names, [7]);
    let a = f.run_u16(&l, &mut [1], &mut scratch.room());
    assert_eq!(a, Answer::Done { names: 0, repaired: 0, left: 0, whole: false });
    assert_eq!(f.row().run(&l, &mut [1.0], 0), RowAnswer::NotTaken);
}

#[test]
fn refusals() {
    let f = Frame::new(3, 1, 1);
    let l = list(&[(2, vec![]), constant(0)]);
    let mut s = [10.0, 0.0, 19.0];
    let old = s;
    let mut go = |f: Frame, l: &[u8], marks, names| {
        let mut x = Scratch::new(marks, names);
        x.marks.fill(9);
        let a = f.run_f32(l, &mut s, &mut x.room());
        assert!(x.marks.iter().all(|&m| m == 0));
        assert_eq!(s, old);
        a
    };
    assert_eq!(go(f.period(65_537), &l, 1, 1), Answer::Range);
    assert_eq!(go(Frame::new(3, 1, 9), &[], 1, 1), Answer::Range);
    assert_eq!(go(f, &l[..30], 1, 1), Answer::Malformed { entry: 1, reason: Reason::Ends, offset: 28 });
    assert_eq!(go(f, &l, 1, 0), Answer::Names);
    assert_eq!(go(f, &l, 0, 1), Answer::Marks { opcode: 1 });
    let two = list(&[constant(0), constant(1)]);
    let a = f.run_u16(&two, &mut [10, 0, 19], &mut Scratch::enough(&f).room());
    assert_eq!((a, a.number()), (Answer::NotTaken, 3));
}

// One mark is enough for every plane of a position; a run that goes on past one repair can meet 5 at the next, and
// keeps what the first wrote.
#[test]
fn one_mark() {
    let mut s = [10.0, 20.0, 0.0, 0.0, 19.0, 29.0];
    let a = Frame::new(3, 1, 2).run_f32(&list(&[constant(0)]), &mut s, &mut Scratch::new(1, 0).room());
    assert_eq!(a, Answer::Done { names: 0, repaired: 1, left: 0, whole: true });
    assert_eq!(s, [10.0, 20.0, 14.5, 24.5, 19.0, 29.0]);
    let l = list(&[constant(0), (5, words(&[0, 0, 1, 0, 0, 1, 2]))]);
    let mut s = [10.0, 0.0, 19.0];
    let a = Frame::new(3, 1, 1).run_f32(&l, &mut s, &mut Scratch::new(1, 0).room());
    assert_eq!((a, s), (Answer::Marks { opcode: 1 }, [10.0, 14.5, 19.0]));
}

#[test]
fn bytes() {
    let (f, l) = (Frame::new(3, 1, 1), list(&[constant(0)]));
    let mut marks = [3];
    let mut b = vec![0xab; 13];
    for (i, v) in [10.0f32, 0.0, 19.0].iter().enumerate() {
        b[4 * i..4 * i + 4].copy_from_slice(&v.to_le_bytes());
    }
    let before = b.clone();
    let mut room = Room { marks: &mut marks, names: &mut [] };
    assert_eq!(f.bytes_f32(&l, &mut b, &mut [1.0; 2], &mut room), Answer::Work);
    assert_eq!(b, before);
    let mut work = [1.0; 4];
    let a = f.bytes_f32(&l, &mut b, &mut work, &mut room);
    assert_eq!(a, Answer::Done { names: 0, repaired: 1, left: 0, whole: true });
    assert_eq!(&b[4..8], 14.5f32.to_le_bytes());
    assert_eq!((b[12], work), (0xab, [0.0; 4]));
    let mut b = [10, 0, 0, 0, 19, 0, 0xab];
    let mut work = [5; 3];
    assert_eq!(f.bytes_u16(&l, &mut b, &mut work, &mut room).number(), 0);
    assert_eq!((b, work), ([10, 0, 15, 0, 19, 0, 0xab], [0; 3]));
    let mut b = 2.0f32.to_le_bytes();
    let scale = list(&[(12, [words(&ALL), words(&[1]), 3.0f32.to_be_bytes().to_vec()].concat())]);
    let a = Frame::new(1, 1, 1).row().run_bytes(&scale, &mut b, 0, &mut [0.0]);
    assert_eq!((a, b), (RowAnswer::Done { skipped: 0 }, 6.0f32.to_le_bytes()));
}

#[test]
fn rows_are_the_frame() {
    let l = list(&[table([0, 1, 9, 6, 0, 1, 1, 2], &[5, 7]), (2, vec![])]);
    let f = Frame::new(4, 2, 1).at(2, 0).full(6, 2);
    let mut whole = [0.0, 1.0, 2.0, 3.0, 0.0, 0.0, 9.0, 0.0];
    let mut rows = whole;
    assert_eq!(run_f32(f, &l, &mut whole), Answer::Done { names: 1, repaired: 0, left: 0, whole: false });
    for (y, row) in rows.chunks_mut(4).enumerate() {
        assert_eq!(f.row().run(&l, row, y), RowAnswer::Done { skipped: 1 });
    }
    assert_eq!(whole, rows);
    assert_eq!(f.row().run(&l, &mut [0.0; 5], 0), RowAnswer::Range);
    assert_eq!(f.row().run(&l, &mut [0.0; 4], 16_842_752), RowAnswer::Range);
}

#[test]
fn tiles_are_the_frame() {
    // A table on every second column, columns scaled each by its own number, and a gap of one pixel after each row.
    let mut scales = words(&[0, 2, 9, 7, 0, 2, 1, 1, 4]);
    scales.extend(words(&[0.5f32, 2.0, 3.0, 4.0].map(f32::to_bits)));
    let l = list(&[table([0, 1, 9, 7, 1, 1, 1, 2], &[5, 7, 9]), (13, scales), (2, vec![])]);
    let f = Frame::new(3, 2, 2).stride(4).at(2, 1).full(9, 9);
    let before: Vec<f32> = (0..14).map(|v| v as f32).collect();
    let mut whole = before.clone();
    assert_eq!(run_f32(f, &l, &mut whole), Answer::Done { names: 1, repaired: 0, left: 0, whole: false });
    let tiles = [f.tile(2, 1, 1, 1), f.tile(0, 0, 2, 2), f.tile(1, 1, 0, 9), f.tile(2, 0, 1, 1)];
    assert_eq!((tiles[1].start, tiles[0].start, tiles[1].span(), tiles[2].span()), (0, 12, 12, 0));
    for order in [[0, 1, 2, 3], [3, 2, 1, 0], [1, 3, 0, 2]] {
        let mut tiled = before.clone();
        for t in order.map(|i| tiles[i]) {
            let a = t.run_f32(&l, &mut tiled, &mut Scratch::new(0, 1).room());
            assert_eq!(a, Answer::Done { names: 1, repaired: 0, left: 0, whole: false });
        }
        assert_eq!(whole, tiled);
        // each lent up to its last sample alone
        let mut tiled = before.clone();
        for t in order.map(|i| tiles[i]) {
            let own = &mut tiled[t.start..t.start + t.span()];
            assert_eq!(t.frame.run_f32(&l, own, &mut Scratch::new(0, 1).room()).number(), 0);
        }
        assert_eq!(whole, tiled);
    }
    let l = list(&[table([0, 1, 9, 7, 1, 1, 1, 2], &[5, 7, 9])]);
    let (mut whole, mut tiled) = ([1u16; 14], [1; 14]);
    assert_eq!(f.run_u16(&l, &mut whole, &mut Scratch::new(0, 0).room()).number(), 0);
    for t in tiles {
        assert_eq!(t.run_u16(&l, &mut tiled, &mut Scratch::new(0, 0).room()).number(), 0);
    }
    assert_eq!(whole, tiled);
    // past the limits, and past the samples
    let far = f.tile(usize::MAX, usize::MAX, usize::MAX, 2);
    assert_eq!(far.run_f32(&l, &mut [1.0], &mut Scratch::new(0, 0).room()), Answer::Range);
    assert_eq!(f.tile(0, 9, 3, 1).run_f32(&l, &mut [1.0], &mut Scratch::new(0, 0).room()).number(), 0);
}

// Two repairs, of which the whole-number form takes one: each flag, in a preview and not.
#[test]
fn previews() {
    let f = Frame::new(3, 1, 1);
    let done = Answer::Done { names: 0, repaired: 1, left: 0, whole: true };
    for flags in 0..8 {
        let l = flagged(&[(0, constant(0)), (flags, constant(10))]);
        let mut u = [10, 0, 19];
        assert_eq!(f.run_u16(&l, &mut u, &mut Scratch::enough(&f).room()), Answer::NotTaken);
        let left_out = flags & 2 == 2;
        let a = f.preview(true).run_u16(&l, &mut u, &mut Scratch::enough(&f).room());
        assert_eq!((a, u), if left_out { (done, [10, 15, 19]) } else { (Answer::NotTaken, [10, 0, 19]) });
        let mut s = [10.0, 0.0, 19.0];
        let a = run_f32(f.preview(true), &l, &mut s);
        let both = Answer::Done { names: 0, repaired: 2, left: 0, whole: true };
        assert_eq!((a, s), if left_out { (done, [10.0, 14.5, 19.0]) } else { (both, [14.5, 14.5, 19.0]) });
        assert_eq!(run_f32(f.preview(false), &l, &mut [10.0, 0.0, 19.0]), both);
    }
}

// Opcodes are numbered in the whole list; names are of what is left; a list of which nothing is left is whole.
#[test]
fn what_previews_leave() {
    let f = Frame::new(3, 1, 1).preview(true);
    let l = flagged(&[(2, constant(0)), (0, constant(0))]);
    let mut s = [10.0, 0.0, 19.0];
    let a = f.run_f32(&l, &mut s, &mut Scratch::new(0, 0).room());
    assert_eq!((a, s), (Answer::Marks { opcode: 1 }, [10.0, 0.0, 19.0]));
    let l = flagged(&[(2, (2, vec![])), (1, (99, vec![])), (3, (6, words(&[0; 4]))), (0, (2, vec![]))]);
    let mut x = Scratch { marks: vec![], names: vec![0xee; 3] };
    assert_eq!(f.run_f32(&l, &mut [], &mut x.room()), Answer::Done { names: 2, repaired: 0, left: 0, whole: false });
    assert_eq!(x.names, [0, 2, 0xee]);
    assert_eq!(f.run_f32(&l, &mut [], &mut Scratch::new(0, 1).room()), Answer::Names);
    let a = f.preview(false).run_u16(&l, &mut [], &mut x.room());
    assert_eq!((a, x.names), (Answer::Names, vec![0, 2, 0xee]));
    let l = flagged(&[(2, constant(0)), (3, (2, vec![])), (0xffff_fffe, table(ALL, &[]))]);
    assert!(run_f32(f, &l, &mut s).is_whole());
    assert_eq!(f.row().run(&l, &mut s, 0), RowAnswer::Done { skipped: 0 });
    assert_eq!(f.preview(false).row().run(&l, &mut s, 0), RowAnswer::NotTaken);
    assert_eq!(s, [10.0, 0.0, 19.0]);
}

// The ranges come first, then reading: an entry that would be left out is read.
#[test]
fn previews_read_all() {
    let l = flagged(&[(0, constant(0)), (2, (4, words(&[0])))]);
    let why = Answer::Malformed { entry: 1, reason: Reason::Inside, offset: 48 };
    let f = Frame::new(3, 1, 1).preview(true);
    assert_eq!(run_f32(f, &l, &mut [10.0, 0.0, 19.0]), why);
    assert_eq!(run_f32(f.period(65_537), &l, &mut [10.0, 0.0, 19.0]), Answer::Range);
    assert_eq!(f.row().run(&l, &mut [1.0], 0).number(), 23);
}

// Rows, tiles and bytes are previews where their frame is one.
#[test]
fn parts_of_a_preview() {
    let scales = |by: f32| (12, [words(&ALL), words(&[2, by.to_bits(), by.to_bits()])].concat());
    let l = flagged(&[(0, scales(2.0)), (2, scales(3.0))]);
    let f = Frame::new(2, 2, 1);
    for (preview, by) in [(false, 6.0), (true, 2.0)] {
        let f = f.preview(preview);
        let mut s = [1.0; 4];
        for (y, row) in s.chunks_mut(2).enumerate() {
            assert_eq!(f.row().run(&l, row, y), RowAnswer::Done { skipped: 0 });
        }
        assert_eq!(s, [by; 4]);
        let mut s = [1.0; 4];
        for t in [f.tile(1, 0, 1, 2), f.tile(0, 0, 1, 2)] {
            assert!(t.run_f32(&l, &mut s, &mut Scratch::new(0, 0).room()).is_whole());
        }
        assert_eq!(s, [by; 4]);
        let mut b = 1.0f32.to_le_bytes();
        let one = Frame::new(1, 1, 1).preview(preview);
        assert!(one.bytes_f32(&l, &mut b, &mut [0.0], &mut Scratch::new(0, 0).room()).is_whole());
        assert_eq!(b, by.to_le_bytes());
        let mut b = 1.0f32.to_le_bytes();
        assert_eq!(one.row().run_bytes(&l, &mut b, 0, &mut [0.0]).number(), 0);
        assert!(one.row().is_whole(&l));
        assert_eq!(b, by.to_le_bytes());
    }
    let l = flagged(&[(0, constant(0)), (2, constant(10))]);
    let mut b = [10, 0, 0, 0, 19, 0];
    let f = Frame::new(3, 1, 1).preview(true);
    assert!(f.bytes_u16(&l, &mut b, &mut [0; 3], &mut Scratch::new(1, 0).room()).is_whole());
    assert_eq!(b, [10, 0, 15, 0, 19, 0]);
}

fn vignette(cx: f64, cy: f64) -> (u32, Vec<u8>) {
    (3, [0.0, 0.0, 0.0, 0.0, 0.0, cx, cy].iter().flat_map(|d: &f64| d.to_be_bytes()).collect())
}

// What had no effect, and what had it: each flag, in a preview and not, in the forms that take it and by rows.
#[test]
fn verdicts() {
    let f = Frame::new(3, 1, 1);
    let nowhere = [9, 9, 9, 9, 0, 1, 1, 1];
    let cases = [
        ((2, vec![]), false),
        ((6, words(&[0; 4])), false),
        ((99, vec![]), false),
        (table(ALL, &[]), false),
        (vignette(f64::NAN, 0.5), false),
        (vignette(0.5, 0.5), true),
        (table(nowhere, &[7]), true),
        (table(ALL, &[7]), true),
        (constant(0), true),
        (constant(1), true),
    ];
    for (entry, effect) in cases {
        for flags in 0..8 {
            let l = flagged(&[(0, constant(99)), (flags, entry.clone())]);
            for preview in [false, true] {
                let f = f.preview(preview);
                let want = effect || flags & 1 == 1 || preview && flags & 2 == 2;
                let a = run_f32(f, &l, &mut [1.0, 0.0, 3.0]);
                assert_eq!((a.number(), a.is_whole()), (0, want));
                let a = f.run_u16(&l, &mut [1, 0, 3], &mut Scratch::enough(&f).room());
                assert_eq!(a.is_whole(), want && a.number() == 0);
                assert_eq!(f.row().is_whole(&l), want);
            }
        }
    }
}

// A vignette goes by the full size, whatever the window.
#[test]
fn full_sizes() {
    let l = list(&[vignette(0.5, 0.5)]);
    let whole = |f: Frame| {
        let a = run_f32(f, &l, &mut []);
        assert_eq!(a.number(), 0);
        assert_eq!(f.row().is_whole(&l), a.is_whole());
        a.is_whole()
    };
    assert!(!whole(Frame::new(0, 0, 1)));
    assert!(!whole(Frame::new(9, 9, 1).full(0, 0)));
    assert!(whole(Frame::new(0, 0, 1).full(7, 0)));
    assert!(whole(Frame::new(0, 0, 1).full(16_777_216, 16_777_216)));
    assert!(!Frame::new(0, 0, 1).full(16_777_217, 1).row().is_whole(&l));
    assert!(!Frame::new(0, 0, 1).full(1, 1 << 32).row().is_whole(&l));
}

// Refusals are never whole, and what is left unrepaired is not in the verdict; in words it stands beside it.
#[test]
fn beside_the_verdict() {
    let f = Frame::new(1, 1, 1);
    let l = list(&[constant(0)]);
    let a = run_f32(f, &l, &mut [0.0]);
    assert_eq!(a, Answer::Done { names: 0, repaired: 0, left: 1, whole: true });
    assert_eq!(a.to_string(), "0: done; skipped opcodes: 0, repaired: 0, left: 1; the frame is whole");
    assert!(!f.run_f32(&l, &mut [0.0], &mut Scratch::new(0, 0).room()).is_whole());
    assert!(!run_f32(f, &l[..3], &mut [0.0]).is_whole());
    assert!(!f.row().is_whole(&l[..3]));
    let a = run_f32(f, &list(&[(2, vec![])]), &mut [0.0]);
    assert_eq!(a.to_string(), "0: done; skipped opcodes: 1, repaired: 0, left: 0; the frame is not whole");
}
