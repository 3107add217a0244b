// Previews (document 02, M-111), read once more, apart from the definitions and from the library: what is left of a
// list, byte for byte, and lists whose flags are set for it.
use crate::cases::{Case, Lengths};
use crate::lists::{self, word};
use crate::rng::Rng;
use rolbhunga::Frame;

fn word_at(l: &[u8], at: usize) -> u32 {
    u32::from_be_bytes([l[at], l[at + 1], l[at + 2], l[at + 3]])
}

// How many entries a list that can be read has.
pub fn count(list: &[u8]) -> usize {
    word_at(list, 0) as usize
}

// The list without the entries whose flag bit 1 is set, and of each that is left its number in the whole list. Only of
// a list that can be read.
pub fn left(list: &[u8]) -> (Vec<u8>, Vec<usize>) {
    let (mut kept, mut numbers, mut at) = (vec![0; 4], Vec::new(), 4);
    for k in 0..count(list) {
        let end = at + 16 + word_at(list, at + 12) as usize;
        if list[at + 11] & 2 == 0 {
            kept.extend_from_slice(&list[at..end]);
            numbers.push(k);
        }
        at = end;
    }
    kept[..4].copy_from_slice(&(numbers.len() as u32).to_be_bytes());
    (kept, numbers)
}

// The same list with the flags of its entries set anew, as far as they can be followed; `set` has number and old flags.
pub fn flagged(list: &[u8], mut set: impl FnMut(usize, u32) -> u32) -> Vec<u8> {
    let mut l = list.to_vec();
    for (k, at) in lists::starts(list).into_iter().enumerate() {
        let flags = set(k, word_at(list, at + 8));
        l[at + 8..at + 12].copy_from_slice(&flags.to_be_bytes());
    }
    l
}

// Flags of any value; bit 1 of half of them is set.
pub fn wild(r: &mut Rng, list: &mut Vec<u8>) {
    *list = flagged(list, |_, _| r.next() as u32);
}

// An opcode by its id, of a list whose entries can be followed.
pub fn repairs_flagged(list: &[u8]) -> Vec<u8> {
    let starts = lists::starts(list);
    flagged(list, |k, flags| if matches!(word_at(list, starts[k]), 4 | 5) { flags | 2 } else { flags })
}

// ---- lists that show what a preview is, over the samples 10, 0, 19

fn entries(of: &[(u32, u32, Vec<u8>)]) -> Vec<u8> {
    let mut l = Vec::new();
    word(&mut l, of.len() as u32);
    for (flags, id, body) in of {
        lists::entry(&mut l, *id, *flags, body);
    }
    l
}

fn words(w: &[u32]) -> Vec<u8> {
    w.iter().flat_map(|w| w.to_be_bytes()).collect()
}

const ALL: [u32; 8] = [0, 0, 9, 9, 0, 1, 1, 1];

fn constant(flags: u32, c: u32) -> (u32, u32, Vec<u8>) {
    (flags, 4, words(&[c, 0]))
}

fn table(flags: u32, all: u16) -> (u32, u32, Vec<u8>) {
    (flags, 7, [words(&ALL), words(&[1]), all.to_be_bytes().to_vec()].concat())
}

fn scale(flags: u32, by: f32) -> (u32, u32, Vec<u8>) {
    (flags, 12, [words(&ALL), words(&[1, by.to_bits()])].concat())
}

fn skipped(flags: u32, id: u32) -> (u32, u32, Vec<u8>) {
    (flags, id, words(&[0; 4]))
}

// Each list, and how many entries the scratch and the skip buffer have.
fn shown() -> Vec<(Vec<u8>, usize, usize)> {
    let mut v = Vec::new();
    for flags in [0, 1, 2, 3, 4, 0xffff_fffd, 0xffff_fffe] {
        v.push((entries(&[scale(flags, 3.0)]), 0, 0));
        v.push((entries(&[table(flags, 7)]), 0, 0));
    }
    // document 01's P8, two repairs, of which the whole-number form takes one
    v.push((entries(&[constant(0, 0), constant(2, 1)]), 3, 0));
    v.push((entries(&[constant(2, 0), constant(0, 1)]), 3, 0));
    v.push((entries(&[constant(0, 0), constant(1, 1)]), 3, 0));
    v.push((entries(&[constant(3, 0), constant(2, 1)]), 3, 0));
    // too little scratch, behind an entry that is dropped; and enough, where the one that needs more is dropped
    v.push((entries(&[skipped(2, 2), constant(0, 0)]), 0, 1));
    v.push((entries(&[constant(2, 0), constant(0, 0)]), 0, 0));
    v.push((entries(&[scale(0, 3.0), table(3, 9), scale(2, 0.0), constant(0, 0)]), 0, 0));
    v.push((entries(&[constant(2, 0), scale(0, 3.0)]), 0, 0));
    // a flagged entry that is malformed
    v.push((entries(&[constant(0, 0), (2, 4, words(&[0]))]), 3, 0));
    v.push((entries(&[(3, 8, [words(&ALL), words(&[9])].concat())]), 3, 0));
    v.push((entries(&[scale(2, 3.0), constant(2, 0)])[..40].to_vec(), 3, 0));
    // names of what is left: as many as fit, and one more
    let names = entries(&[skipped(2, 2), skipped(0, 6), skipped(1, 99), skipped(3, 1), skipped(0, 2)]);
    v.push((names.clone(), 0, 5));
    v.push((names.clone(), 0, 3));
    v.push((names, 0, 2));
    v.push((entries(&[(2, 7, [words(&ALL), words(&[0])].concat()), scale(0, 3.0)]), 0, 0));
    // nothing is left
    v.push((entries(&[constant(2, 0), skipped(3, 2), table(2, 7), scale(2, 3.0)]), 0, 0));
    v
}

// Each of them, not as a preview and as one.
pub fn cases() -> Vec<Case> {
    let mut v = Vec::new();
    for (list, marks, names) in shown() {
        for preview in [false, true] {
            let lengths = Lengths { marks, names, work: 3 };
            let floats: Vec<u32> = [10.0f32, 0.0, 19.0].map(f32::to_bits).to_vec();
            v.push(Case {
                list: list.clone(),
                frame: Frame::new(3, 1, 1).preview(preview),
                floats: floats.clone(),
                wholes: vec![10, 0, 19],
                row: floats,
                y: 0,
                f: lengths,
                u: lengths,
                row_work: 3,
                over: 0,
            });
        }
    }
    v
}
