// The fixed list of cases that a program replays where there is no Rust: FOLDER/stdin has the cases, FOLDER/stdout what
// the Rust makes of them. compare/README.md has the format.
use crate::cases::{Case, Lengths};
use crate::check::{float_bytes, float_result, whole_bytes};
use crate::oracle::{self, Oracle, Read};
use crate::rng::Rng;
use crate::{made, preview, previews};
use rolbhunga::ffi::Numbers;
use std::collections::BTreeMap;
use std::fs;

// What the skip buffer holds before each call.
const OLD: u8 = 0xee;

fn put(b: &mut Vec<u8>, n: usize) {
    b.extend_from_slice(&(n as u32).to_be_bytes());
}

fn hex(b: &[u8]) -> String {
    if b.is_empty() {
        return "-".into();
    }
    b.iter().map(|b| format!("{b:02x}")).collect()
}

struct Replay {
    form: usize,
    lengths: Lengths,
    before: Vec<u8>,
    numbers: Numbers,
    names: Vec<u8>,
    after: Vec<u8>,
}

fn written(l: &Lengths, names: &[u8]) -> Vec<u8> {
    let mut b = vec![OLD; l.names];
    b[..names.len()].copy_from_slice(names);
    b
}

// A form and 4: as a preview. Reading is none.
fn replays(c: &Case, o: &Oracle) -> Vec<Replay> {
    let mut v = Vec::new();
    let form = |n| if c.frame.preview { 4 + n } else { n };
    let nothing = Lengths::default();
    if !c.frame.preview {
        let read = oracle::want_read(o);
        v.push(Replay { form: 0, lengths: nothing, before: vec![], numbers: read, names: vec![], after: vec![] });
    }
    let w = oracle::want_f32(c, o);
    let before = float_bytes(&c.floats, 0);
    let after = w.samples.map_or(before.clone(), |s| float_bytes(&float_result(s), 0));
    v.push(Replay { form: form(1), lengths: c.f, before, numbers: w.numbers, names: written(&c.f, w.names), after });
    let w = oracle::want_u16(c, o);
    let before = whole_bytes(&c.wholes, 0);
    let after = whole_bytes(w.samples.unwrap_or(&c.wholes), 0);
    v.push(Replay { form: form(2), lengths: c.u, before, numbers: w.numbers, names: written(&c.u, w.names), after });
    let (w, row) = oracle::want_row(c, o);
    let before = float_bytes(&c.row, 0);
    let after = row.map_or(before.clone(), |s| float_bytes(&float_result(s), 0));
    let numbers = Numbers { entry: w.entry, offset: w.offset, names: w.skipped, ..oracle::numbers(w.number) };
    v.push(Replay { form: form(3), lengths: nothing, before, numbers, names: vec![], after });
    v
}

// Small, and with no number that a u32 does not hold.
fn fits(c: &Case) -> bool {
    let g = &c.frame;
    let sizes = [g.width, g.height, g.planes, g.stride, g.x0, g.y0, g.full_width, g.full_height, g.period, c.y];
    c.list.len() <= 260 && c.floats.len() <= 24 && c.row.len() <= 12 && sizes.iter().all(|&n| n <= u32::MAX as usize)
}

// What a call shows, and how many of its kind are kept.
fn shows(c: &Case, r: &Replay) -> Vec<(String, usize)> {
    let (form, number) = (r.form, r.numbers.number);
    if form == 0 || number != 0 {
        // stopped by 5, some after opcodes that changed samples
        let after = if r.before == r.after { "" } else { " after a change" };
        return vec![(format!("{form} {number}{after}"), 10)];
    }
    if r.before == r.after {
        return vec![(format!("{form} same"), 10)];
    }
    let ids: Vec<u8> = crate::lists::starts(&c.list).iter().map(|&at| c.list[at + 3]).collect();
    let odd = |b: &[u8]| {
        let v = f32::from_le_bytes([b[0], b[1], b[2], b[3]]);
        !v.is_finite() || v.is_subnormal() || v.to_bits() == 1 << 31
    };
    let mut v = match ids.as_slice() {
        [id] => vec![(format!("{form} id {id}"), 5)],
        _ => vec![(format!("{form} several"), 40)],
    };
    if form % 4 != 2 && r.after.chunks(4).any(odd) {
        v.push((format!("{form} odd"), 25));
    }
    if r.numbers.left > 0 && r.numbers.repaired > 0 {
        v.push((format!("{form} both totals"), 8));
    }
    v
}

// Previews that drop something, or would if the list could be read.
fn shows_left(c: &Case, o: &Oracle, r: &Replay) -> Vec<(String, usize)> {
    let (form, number) = (r.form, r.numbers.number);
    if matches!(o.read, Read::Malformed(_)) {
        return vec![(format!("{form} {number}"), 2)];
    }
    let (_, numbers) = previews::left(&c.list);
    if previews::count(&c.list) == numbers.len() {
        return vec![];
    }
    let changed = if r.before == r.after { "" } else { " with a change" };
    let left = numbers.len().min(2);
    vec![(format!("{form} {number}, left {left}{changed}"), 4)]
}

#[derive(Default)]
struct Stored {
    count: u32,
    calls: Vec<u8>,
    lines: String,
    seen: BTreeMap<String, usize>,
}

impl Stored {
    // Keeps a call that shows something of which there is not enough yet.
    fn offer(&mut self, c: &Case, r: &Replay, kinds: Vec<(String, usize)>) {
        let wanted = kinds.iter().any(|(k, most)| self.seen.get(k).map_or(true, |n| n < most));
        if !wanted || r.lengths.marks > 64 || r.lengths.names > 64 {
            return;
        }
        for (k, _) in kinds {
            *self.seen.entry(k).or_insert(0) += 1;
        }
        self.keep(c, r);
    }

    fn keep(&mut self, c: &Case, r: &Replay) {
        self.count += 1;
        let (g, calls) = (&c.frame, &mut self.calls);
        put(calls, r.form);
        put(calls, c.list.len());
        calls.extend_from_slice(&c.list);
        for n in [g.width, g.height, g.planes, g.stride, g.x0, g.y0, g.full_width, g.full_height, g.period] {
            put(calls, n);
        }
        put(calls, g.scale.to_bits() as usize);
        for n in [c.y, r.lengths.marks, r.lengths.names, r.before.len()] {
            put(calls, n);
        }
        calls.extend_from_slice(&r.before);
        let n = r.numbers;
        self.lines += &format!(
            "{} {} {} {} {} {} {} {} {} {}\n",
            r.form,
            n.number,
            n.entry,
            n.offset,
            n.opcode,
            n.names,
            n.repaired,
            n.left,
            hex(&r.names),
            hex(&r.after)
        );
    }
}

pub fn write(folder: &str, seed: u64) {
    let mut stored = Stored::default();
    let mut number = 0;
    while number < 40_000 && stored.calls.len() < 120_000 {
        let (c, o) = made(seed, number, true);
        number += 1;
        if fits(&c) {
            for r in replays(&c, &o) {
                stored.offer(&c, &r, shows(&c, &r));
            }
        }
    }
    for c in previews::cases() {
        for r in replays(&c, &Oracle::of(&c)) {
            stored.keep(&c, &r);
        }
    }
    for number in 0..4_000 {
        let (c, o) = preview(&made(seed, number, true).0, &mut Rng::new(!seed, number));
        if fits(&c) {
            for r in replays(&c, &o) {
                stored.offer(&c, &r, shows_left(&c, &o, &r));
            }
        }
    }
    let Stored { count, calls, lines, .. } = stored;
    let mut all = count.to_be_bytes().to_vec();
    all.extend(calls);
    fs::create_dir_all(folder).expect("the folder can be made");
    fs::write(format!("{folder}/stdin"), &all).expect("stdin can be written");
    fs::write(format!("{folder}/stdout"), &lines).expect("stdout can be written");
    println!("{count} calls, {} bytes of cases, {} bytes of answers", all.len(), lines.len());
}
