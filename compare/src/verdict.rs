// Whether a frame is whole: document 02, M-103, read once more from the list's bytes, apart from the definitions, the
// library and the Rust, which has no verdict.
use crate::lists::{self, word};
use crate::reasons;
use crate::rng::Rng;
use rolbhunga::{ffi, Frame};

fn word_at(l: &[u8], at: usize) -> u32 {
    u32::from_be_bytes([l[at], l[at + 1], l[at + 2], l[at + 3]])
}

fn long_at(l: &[u8], at: usize) -> f64 {
    f64::from_bits((word_at(l, at) as u64) << 32 | word_at(l, at + 4) as u64)
}

// The squared distance from the centre to the farthest corner of the full image, as the Rust has it: in f64, from 0 on,
// and a corner whose distance is NaN is passed over.
fn m2(cx: f64, cy: f64, full_width: u32, full_height: u32) -> f64 {
    let (w, h) = (full_width as f64, full_height as f64);
    let (x, y) = (cx * w, cy * h);
    let mut most = 0.0;
    for corner in [(0.0, 0.0), (w, 0.0), (0.0, h), (w, h)] {
        let (dx, dy) = (corner.0 - x, corner.1 - y);
        let d = dx * dx + dy * dy;
        if d > most {
            most = d;
        }
    }
    most
}

// "not skipped, not an empty table, not a vignette whose m2 is refused"
fn had_effect(id: u32, body: &[u8], full_width: u32, full_height: u32) -> bool {
    match id {
        3 => {
            let m2 = m2(long_at(body, 40), long_at(body, 48), full_width, full_height);
            m2 > 0.0 && m2.is_finite()
        }
        7 => word_at(body, 32) > 0,
        4 | 5 | 8..=13 => true,
        _ => false,
    }
}

// By the entries that are read whole.
pub fn whole(list: &[u8], full_width: u32, full_height: u32, preview: bool, number: u32) -> bool {
    let n = match reasons::read(list) {
        Some(why) => why.entry,
        None => word_at(list, 0) as usize,
    };
    let (mut at, mut all) = (4, number == 0);
    for _ in 0..n {
        let (id, flags, body) = (word_at(list, at), word_at(list, at + 8), at + 16);
        at = body + word_at(list, at + 12) as usize;
        let counts = flags & 1 == 0 && !(preview && flags & 2 != 0);
        all &= !counts || had_effect(id, &list[body..at], full_width, full_height);
    }
    all
}

// Of a case's frame, whose numbers are in their ranges where a run answers 0.
pub fn of_frame(list: &[u8], f: &Frame, number: u32) -> bool {
    number == 0 && whole(list, f.full_width as u32, f.full_height as u32, f.preview, number)
}

fn asked(list: &[u8], full_width: u32, full_height: u32, preview: bool, number: u32) -> Result<bool, String> {
    let got =
        unsafe { ffi::rolbhunga_whole(list.as_ptr(), list.len(), full_width, full_height, preview, number) };
    let want = whole(list, full_width, full_height, preview, number);
    if got == want {
        return Ok(got);
    }
    let by = format!("{full_width} by {full_height}, preview {preview}, number {number}");
    Err(format!("whole: {got}, want {want}, at {by}"))
}

const SIZES: [(u32, u32); 8] =
    [(0, 0), (7, 0), (0, 7), (1, 1), (640, 480), (16_777_216, 16_777_216), (u32::MAX, u32::MAX), (u32::MAX, 0)];

fn size(r: &mut Rng) -> (u32, u32) {
    match r.below(4) {
        0 => (r.next() as u32, r.next() as u32),
        1 => (r.below(9) as u32, r.below(9) as u32),
        _ => r.pick(&SIZES),
    }
}

// A list with any size, both ways, and a number that is 0 or not; and a row's.
pub fn check(list: &[u8], f: &Frame, r: &mut Rng) -> Result<(), String> {
    for preview in [false, true] {
        let (w, h) = size(r);
        asked(list, w, h, preview, 0)?;
        asked(list, w, h, preview, r.pick(&[1, 3, 4, 5, 20, 24, 80, 100, 1 << 31, u32::MAX]))?;
    }
    let inside = f.full_width <= 16_777_216 && f.full_height <= 16_777_216;
    let want = inside && reasons::read(list).is_none() && of_frame(list, f, 0);
    let got = f.row().is_whole(list);
    if got != want {
        return Err(format!("whole by rows: {got}, want {want}"));
    }
    Ok(())
}

// ---- each clause of the request: an entry, and the sizes at which it had its effect

fn words(w: &[u32]) -> Vec<u8> {
    w.iter().flat_map(|w| w.to_be_bytes()).collect()
}

fn vignette(cx: f64, cy: f64) -> (u32, Vec<u8>) {
    (3, [0.0, 0.0, 0.0, 0.0, 0.0, cx, cy].iter().flat_map(|d: &f64| d.to_be_bytes()).collect())
}

fn table(region: [u32; 8], n: u32) -> (u32, Vec<u8>) {
    (7, [words(&region), words(&[n]), vec![9; 2 * n as usize]].concat())
}

type Reached = fn(u32, u32) -> bool;

fn shown() -> Vec<((u32, Vec<u8>), Reached)> {
    const ALL: [u32; 8] = [0, 0, 9, 9, 0, 1, 1, 1];
    const NONE: [u32; 8] = [9, 9, 9, 9, 0, 1, 1, 1];
    let never: Reached = |_, _| false;
    let always: Reached = |_, _| true;
    vec![
        ((1, words(&[0, 0, 0, 0, 0])), never),
        ((1, vec![]), never),
        ((2, vec![]), never),
        ((6, words(&[0, 0, 1, 1])), never),
        ((14, vec![]), never),
        ((0, vec![1, 2, 3]), never),
        ((u32::MAX, vec![]), never),
        (table(ALL, 0), never),
        (table(ALL, 1), always),
        (table(NONE, 1), always),
        (table(NONE, 0), never),
        ((4, words(&[0, 0])), always),
        ((5, words(&[0, 0, 0])), always),
        ((8, [words(&NONE), words(&[0, 0, 0])].concat()), always),
        ((10, [words(&ALL), words(&[0])].concat()), always),
        ((12, [words(&NONE), words(&[0])].concat()), always),
        (vignette(0.5, 0.5), |w, h| w > 0 || h > 0),
        (vignette(0.0, 0.0), |w, h| w > 0 || h > 0),
        (vignette(f64::NAN, 0.5), never),
        (vignette(0.5, f64::NAN), never),
        (vignette(f64::INFINITY, 0.5), never),
        // past every number where there is a height, 0 where there is none
        (vignette(0.5, f64::MAX), |w, h| w > 0 && h == 0),
        (vignette(f64::MAX, 0.5), |w, h| w == 0 && h > 0),
    ]
}

// Each of them alone, before and behind a repair, with every two flag bits and two others, at every size; how many were
// asked, and what differs first.
pub fn clauses() -> Result<u64, String> {
    let mut n = 0;
    for ((id, body), reached) in shown() {
        for flags in [0u32, 1, 2, 3, 4, 0xffff_fffc] {
            let mut own = Vec::new();
            lists::entry(&mut own, id, flags, &body);
            let mut repair = Vec::new();
            lists::entry(&mut repair, 4, 0, &words(&[0, 0]));
            for parts in [vec![&own], vec![&own, &repair], vec![&repair, &own]] {
                let mut list = Vec::new();
                word(&mut list, parts.len() as u32);
                parts.iter().for_each(|p| list.extend_from_slice(p));
                for (w, h) in SIZES {
                    for preview in [false, true] {
                        let counts = flags & 1 == 0 && !(preview && flags & 2 == 2);
                        let want = !counts || reached(w, h);
                        if asked(&list, w, h, preview, 0)? != want {
                            return Err(format!("the clause of opcode {id}, flags {flags}, {w} by {h}: not {want}"));
                        }
                        asked(&list, w, h, preview, 5)?;
                        n += 2;
                    }
                }
            }
        }
    }
    Ok(n)
}
