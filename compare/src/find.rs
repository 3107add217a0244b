// Holds `rolbhunga_find` to document 02, M-105, read a second time. See compare/find.
#[allow(dead_code)]
mod rng;

use rng::Rng;
use rolbhunga::{ffi, find, FindError, Which};
use std::collections::BTreeMap;
use std::env;
use std::fs;
use std::process::exit;
use std::time::Instant;

// ---- document 02, M-105, sentence by sentence

// Found, none so far, or a refusal.
type Seen = Result<Option<(u64, u64)>, u32>;

struct Walk<'a> {
    file: &'a [u8],
    big: bool,
    tag: u64,
    gone: u32,
}

impl Walk<'_> {
    fn number(&self, at: u64, bytes: u64) -> u64 {
        let part = &self.file[at as usize..(at + bytes) as usize];
        let add = |n: u64, b: &u8| n << 8 | u64::from(*b);
        if self.big { part.iter().fold(0, add) } else { part.iter().rev().fold(0, add) }
    }

    fn len(&self) -> u64 {
        self.file.len() as u64
    }

    fn entries(&self, at: u64) -> u64 {
        self.number(at, 2)
    }

    // "Four bytes or fewer stand in the entry itself"; 31 "an offset or size outside the file".
    fn value(&self, entry: u64, size: u64) -> Result<u64, u32> {
        let at = if size <= 4 { entry + 8 } else { self.number(entry + 8, 4) };
        if at + size > self.len() { Err(31) } else { Ok(at) }
    }

    // 32 "more than 64 directories"; "a directory not whole in the file, its next offset included, is 31 before any
    // entry counts"; then "its own entries", of "type 7 or 1".
    fn own(&mut self, at: u64) -> Seen {
        if self.gone == 64 {
            return Err(32);
        }
        self.gone += 1;
        if at + 2 > self.len() || at + 2 + 12 * self.entries(at) + 4 > self.len() {
            return Err(31);
        }
        for i in 0..self.entries(at) {
            let e = at + 2 + 12 * i;
            if self.number(e, 2) == self.tag && [1, 7].contains(&self.number(e + 2, 2)) {
                let count = self.number(e + 4, 4);
                return self.value(e, count).map(|at| Some((at, count)));
            }
        }
        Ok(None)
    }

    // "then its SubIFDs in order", of type "4 or 13"; offset 0 "is passed over in 330"; "a SubIFD's own chain is not
    // followed".
    fn subs(&mut self, at: u64) -> Seen {
        for i in 0..self.entries(at) {
            let e = at + 2 + 12 * i;
            if self.number(e, 2) != 330 || ![4, 13].contains(&self.number(e + 2, 2)) {
                continue;
            }
            let count = self.number(e + 4, 4);
            let array = self.value(e, 4 * count)?;
            for k in 0..count {
                let sub = self.number(array + 4 * k, 4);
                if sub != 0 {
                    let seen = self.own(sub)?;
                    if seen.is_some() {
                        return Ok(seen);
                    }
                }
            }
        }
        Ok(None)
    }

    // "Order: a directory's own entries, then its SubIFDs in order, then the next directory"; "offset 0 ends a chain
    // (also the first)".
    fn chain(&mut self, mut at: u64) -> Result<(u64, u64), u32> {
        while at != 0 {
            if let Some(found) = self.own(at)? {
                return Ok(found);
            }
            if let Some(found) = self.subs(at)? {
                return Ok(found);
            }
            at = self.number(at + 2 + 12 * self.entries(at), 4);
        }
        Err(33)
    }
}

fn second(file: &[u8], which: Which) -> Result<(u64, u64), u32> {
    let big = match file.get(..4) {
        Some(b"II\x2a\0") => false,
        Some(b"MM\0\x2a") => true,
        _ => return Err(30),
    };
    if file.len() < 8 {
        return Err(30);
    }
    let tag = match which {
        Which::List1 => 51008,
        Which::List2 => 51009,
        Which::List3 => 51022,
    };
    let mut w = Walk { file, big, tag, gone: 0 };
    let first = w.number(4, 4);
    w.chain(first)
}

// ---- files

struct Made {
    big: bool,
    bytes: Vec<u8>,
}

impl Made {
    fn new(big: bool) -> Made {
        let mut m = Made { big, bytes: Vec::new() };
        m.bytes.extend(if big { b"MM" } else { b"II" });
        m.two(42);
        m
    }

    fn two(&mut self, n: u16) {
        self.bytes.extend(if self.big { n.to_be_bytes() } else { n.to_le_bytes() });
    }

    fn four(&mut self, n: u32) {
        self.bytes.extend(if self.big { n.to_be_bytes() } else { n.to_le_bytes() });
    }

    fn entry(&mut self, tag: u16, kind: u16, count: u32, value: u32) {
        self.two(tag);
        self.two(kind);
        self.four(count);
        self.four(value);
    }

    fn directory(&mut self, entries: &[(u16, u16, u32, u32)], next: u32) {
        self.two(entries.len() as u16);
        for &(tag, kind, count, value) in entries {
            self.entry(tag, kind, count, value);
        }
        self.four(next);
    }

    fn pad(&mut self, to: usize, r: &mut Rng) {
        while self.bytes.len() < to {
            let b = if r.once(3) { 0 } else { r.next() as u8 };
            self.bytes.push(b);
        }
    }
}

const LISTS: [u16; 3] = [51008, 51009, 51022];

fn kind(r: &mut Rng, right: [u16; 2]) -> u16 {
    match r.below(10) {
        0..=6 => right[0],
        7 | 8 => right[1],
        _ => r.pick(&[0, 1, 2, 3, 4, 5, 7, 12, 13, 16, 129, 65535]),
    }
}

// An offset for so many bytes in a file of `len`: mostly `good`, else at the file's ends.
fn offset(r: &mut Rng, good: u32, size: u64, len: usize) -> u32 {
    let end = (len as u64).saturating_sub(size) as u32;
    match r.below(30) {
        0 | 1 => end,
        2 => end.wrapping_add(1),
        3 => r.pick(&[0, 1, 7, len as u32, len as u32 + 1, u32::MAX, u32::MAX - 3, 1 << 31]),
        4 => r.below(len + 2) as u32,
        _ => good,
    }
}

// A few directories with a few entries each, at places of chance, with what they name.
fn small(r: &mut Rng) -> Vec<u8> {
    let mut m = Made::new(r.once(2));
    let n = r.within(1, 5);
    let sizes: Vec<usize> = (0..n).map(|_| r.below(4)).collect();
    let mut at = if r.once(10) { r.within(6, 9) } else { 8 };
    let mut places = Vec::new();
    for s in &sizes {
        at += if r.once(3) { r.below(4) } else { 0 };
        places.push(at);
        at += 6 + 12 * s;
    }
    let value_at = at;
    let len = value_at + r.below(60);
    let arrays: Vec<u32> = (0..5).map(|_| if r.once(4) { 0 } else { places[r.below(n)] as u32 }).collect();
    let array_at = value_at + r.below(20);
    let good = places[r.below(n)] as u32;
    let good = if r.once(4) { good } else { places[0] as u32 };
    let first = offset(r, good, 6, len);
    m.four(if r.once(40) { 0 } else { first });
    for (d, s) in sizes.iter().enumerate() {
        m.pad(places[d], r);
        m.bytes.truncate(places[d]);
        let mut entries = Vec::new();
        for _ in 0..*s {
            entries.push(match r.below(8) {
                0 => (r.next() as u16, r.below(14) as u16, r.next() as u32, r.next() as u32),
                1 | 2 => {
                    let k = kind(r, [4, 13]);
                    let count = r.below(6) as u32;
                    let count = if r.once(12) { r.pick(&[1 << 30, 1 << 31, u32::MAX, 6, 20]) } else { count };
                    let good = if count == 1 { places[r.below(n)] as u32 } else { array_at as u32 };
                    let value = if r.once(8) { 0 } else { offset(r, good, 4 * u64::from(count), len) };
                    (330, k, count, value)
                }
                _ => {
                    let k = kind(r, [7, 1]);
                    let count = if r.once(3) { r.below(30) as u32 } else { r.below(6) as u32 };
                    let odd = [u32::MAX, 1 << 31, len as u32, len as u32 + 1];
                    let count = if r.once(20) { r.pick(&odd) } else { count };
                    (r.pick(&LISTS), k, count, offset(r, value_at as u32, u64::from(count), len))
                }
            });
        }
        let good = places[r.below(n)] as u32;
        let next = match r.below(4) {
            0 | 1 => 0,
            2 if d + 1 < n => places[d + 1] as u32,
            _ => offset(r, good, 6, len),
        };
        m.directory(&entries, next);
    }
    m.pad(len, r);
    // the offsets of SubIFDs, where they still fit
    let mut a = Made { big: m.big, bytes: Vec::new() };
    arrays.iter().for_each(|&o| a.four(o));
    if !r.once(6) {
        for (i, b) in a.bytes.iter().enumerate() {
            if array_at >= value_at && array_at + i < m.bytes.len() {
                m.bytes[array_at + i] = *b;
            }
        }
    }
    m.bytes
}

// About 64 directories: a chain, SubIFDs, or both, with a list in one of them or in none.
fn many(r: &mut Rng) -> Vec<u8> {
    let mut m = Made::new(r.once(2));
    let chain = r.pick(&[1, 2, 30, 62, 63, 64, 65, 66]);
    let subs = if r.once(2) { 0 } else { r.within(0, 70 - chain.min(66)) };
    let whole = 6 + 12 * 2;
    let array_at = 8 + chain * whole;
    let sub_at = array_at + 4 * subs;
    let with = r.below(chain + 8);
    m.four(8);
    for d in 0..chain {
        let own = if d == with { 51008 } else { 271 };
        let in_sub = r.below(chain) == d;
        let sub = if subs > 1 && (d == 0 || in_sub) { (330, 4, subs as u32, array_at as u32) } else { (271, 2, 0, 0) };
        let next = match d + 1 < chain {
            true => 8 + (d + 1) * whole,
            false => r.pick(&[0, 0, 8, 1 << 20]),
        };
        m.directory(&[sub, (own, 7, 3, 0)], next as u32);
    }
    let missing = r.below(subs + 20);
    for k in 0..subs {
        let to = if r.once(9) { 0 } else if k == missing { 1 << 20 } else { sub_at };
        m.four(to as u32);
    }
    let in_sub = if r.once(3) { 51008 } else { 51009 };
    m.directory(&[(in_sub, 7, 4, 0)], 8);
    m.bytes
}

// Stretches of zeros, and arrays of SubIFDs that name them from many places, again and again; some reach into what is
// not zero.
fn zeros(r: &mut Rng, len: usize) -> Vec<u8> {
    let mut m = Made::new(r.once(2));
    // where offsets are aligned, those of the leaf are met whole
    let align = r.pick(&[1, 4, 4, 4]);
    let entries = r.within(1, 40);
    let leaf = 8 + 6 + 12 * entries;
    let from = leaf + 6 + 12;
    let len = len.max(from + 64);
    m.four(8);
    m.two(entries as u16);
    let mut runs = Vec::new();
    for _ in 0..r.within(1, 4) {
        let a = r.within(from, len);
        runs.push((a, r.within(a, len)));
    }
    for _ in 0..entries {
        let (a, b) = runs[r.below(runs.len())];
        let start = if r.once(4) { r.within(from, len) } else { r.within(a, b) } / align * align;
        let end = if r.once(4) { r.within(start, len) } else { r.within(start, b.max(start)) };
        let count = (end - start) / 4 + usize::from(r.once(400));
        m.entry(330, 4, count as u32, start as u32);
    }
    m.four(if r.once(3) { 8 } else { 0 });
    m.directory(&[(if r.once(2) { 51008 } else { 51009 }, 7, 4, 0)], 0);
    // zero, but for some offsets of the leaf and some bytes of chance
    m.bytes.resize(len, 0);
    let dense = r.pick(&[0, 1, 1, 3, 20]);
    for _ in 0..dense {
        let at = r.within(from, len - 8) / align * align;
        if !r.once(9) {
            let mut a = Made { big: m.big, bytes: Vec::new() };
            a.four(leaf as u32);
            m.bytes[at..at + 4].copy_from_slice(&a.bytes);
        } else {
            m.bytes[at] = r.next() as u8;
        }
    }
    m.bytes
}

fn spoil(r: &mut Rng, file: &mut Vec<u8>) {
    if r.once(3) {
        file.truncate(r.below(file.len() + 1));
    }
    for _ in 0..r.below(3) {
        if !file.is_empty() {
            let at = r.below(file.len());
            file[at] ^= 1 << r.below(8);
        }
    }
}

fn made(seed: u64, number: u64) -> (&'static str, Vec<u8>) {
    let mut r = Rng::new(seed, number);
    let (what, mut file) = match r.below(40) {
        0..=4 => ("many", many(&mut r)),
        5 | 6 => {
            let len = r.within(100, 3000);
            ("zeros", zeros(&mut r, len))
        }
        7 if r.once(20) => {
            let len = r.within(60_000, 300_000);
            ("long zeros", zeros(&mut r, len))
        }
        _ => ("small", small(&mut r)),
    };
    if r.once(4) {
        spoil(&mut r, &mut file);
    }
    (what, file)
}

// A file that has something of everything, whose every prefix and every flip of a bit is tried.
fn sample(big: bool) -> Vec<u8> {
    let mut m = Made::new(big);
    m.four(8);
    m.directory(&[(271, 2, 6, 200), (330, 4, 2, 50), (51009, 1, 5, 128)], 82);
    m.bytes.truncate(50);
    m.four(58);
    m.four(0);
    m.directory(&[(51008, 7, 3, 0)], 0);
    m.bytes.resize(82, 0);
    m.directory(&[(330, 13, 1, 58), (51022, 7, 8, 120), (51022, 7, 1, 0)], 0);
    m.bytes.resize(136, 7);
    m.bytes
}

// ---- comparing

fn ours(file: &[u8], which: Which) -> Result<(u64, u64), u32> {
    match find(file, which) {
        Ok(list) => Ok(((list.as_ptr() as usize - file.as_ptr() as usize) as u64, list.len() as u64)),
        Err(e) => Err(e.number()),
    }
}

fn check(file: &[u8], n: &mut BTreeMap<String, u64>, what: &str) -> Result<(), String> {
    for which in Which::ALL {
        let (got, want) = (ours(file, which), second(file, which));
        let number = want.err().unwrap_or(0);
        *n.entry(format!("{what} {number}")).or_insert(0) += 1;
        if got != want {
            return Err(format!("{which:?}: {got:?}, by the second reading {want:?}"));
        }
    }
    Ok(())
}

fn print(file: &[u8]) {
    let hex: String = file.iter().map(|b| format!("{b:02x}")).collect();
    println!("  {} bytes: {}", file.len(), if file.len() <= 600 { hex } else { format!("{}..", &hex[..1200]) });
}

fn differ(what: &str, file: &[u8], why: &str) {
    println!("difference in {what}: {why}");
    print(file);
}

fn compare(cases: u64, seed: u64) {
    let (mut n, mut wrong, mut fixed) = (BTreeMap::new(), 0, 0);
    for big in [true, false] {
        let whole = sample(big);
        let mut try_one = |file: &[u8], what: &str| {
            fixed += 1;
            if let Err(why) = check(file, &mut n, what) {
                wrong += 1;
                differ(what, file, &why);
            }
        };
        for k in 0..=whole.len() {
            try_one(&whole[..k], "prefix");
        }
        for k in 0..8 * whole.len() {
            let mut file = whole.clone();
            file[k / 8] ^= 1 << (k % 8);
            try_one(&file, "flip");
        }
        // one megabyte and three, where a block of the table has hundreds of bytes
        for k in 0..8 {
            let (number, len) = (2 * k + u64::from(big), if big { 1 << 20 } else { 3 << 20 });
            try_one(&zeros(&mut Rng::new(seed ^ 0x55, number), len), "megabytes");
        }
    }
    for k in 0..cases {
        let (what, file) = made(seed, k);
        if let Err(why) = check(&file, &mut n, what) {
            wrong += 1;
            if wrong <= 3 {
                differ(&format!("case {k} of seed {seed}, {what}"), &file, &why);
            }
        }
    }
    let file = sample(true);
    for which in [0, 4, 51008, u32::MAX] {
        let r = unsafe { ffi::rolbhunga_find(file.as_ptr(), file.len(), which) };
        if (r.number, r.start, r.length) != (1, 0, 0) {
            wrong += 1;
            println!("which {which}: {r:?}");
        }
    }
    for (k, v) in &n {
        println!("{v:>10}  {k}");
    }
    println!("compared {cases} files of seed {seed} and {fixed} others, three lists each: {wrong} differ");
    exit(i32::from(wrong > 0));
}

// ---- the stored files of crates/try_find

fn words(answer: Result<(u64, u64), u32>) -> String {
    match answer {
        Ok((start, len)) => format!("0: {len} bytes at {start}"),
        Err(30) => "30: not a TIFF file".into(),
        Err(31) => "31: an offset or a size lies outside the file".into(),
        Err(32) => "32: more than 64 directories".into(),
        Err(_) => "33: not in the file".into(),
    }
}

fn store(folder: &str) {
    let mut files = vec![Vec::new(), sample(true), sample(false)];
    // every answer of every kind of file, as often as it is asked for, among the first thousands
    let mut left = BTreeMap::new();
    for k in 0..20_000 {
        let (what, file) = made(1, k);
        if file.len() > 2500 {
            continue;
        }
        let key = (what, Which::ALL.map(|w| second(&file, w).err().unwrap_or(0)));
        let seen = left.entry(key).or_insert(0);
        if *seen < 3 {
            *seen += 1;
            files.push(file);
        }
    }
    let (mut input, mut lines) = (Vec::new(), String::new());
    for file in &files {
        input.extend((file.len() as u32).to_be_bytes());
        input.extend(file);
        for (k, which) in Which::ALL.into_iter().enumerate() {
            lines += &format!("OpcodeList{}: {}\n", k + 1, words(second(file, which)));
        }
    }
    fs::write(format!("{folder}/stdin"), &input).expect("the input can be written");
    fs::write(format!("{folder}/stdout"), lines).expect("the lines can be written");
    println!("{} files, {} bytes", files.len(), input.len());
}

// ---- well-formed files, for exiftool

// What a camera's file has: a first directory with some tags, the lists there, in a SubIFD, or in a next directory.
fn formed(r: &mut Rng) -> (Vec<u8>, [Option<Vec<u8>>; 3]) {
    let mut m = Made::new(r.once(2));
    let place = r.below(3);
    let lists: [Option<Vec<u8>>; 3] = [0, 1, 2].map(|_| {
        // exiftool prints a single byte as a number
        let n = if r.once(4) { r.within(2, 4) } else { r.within(5, 90) };
        (!r.once(5)).then(|| (0..n).map(|_| r.next() as u8).collect())
    });
    let held = lists.iter().flatten().count();
    let plain = vec![(254, 4, 1, 0), (256, 4, 1, 8), (257, 4, 1, 6), (50706, 1, 4, 0)];
    let (dirs, target) = match place {
        0 => (1, 0),
        _ => (2, 1),
    };
    // where the directories stand, and the values behind them
    let own = |d: usize| if d == 0 { plain.len() + usize::from(place == 1) } else { 3 };
    let count = |d: usize| own(d) + if d == target { held } else { 0 };
    let second_at = 8 + 6 + 12 * count(0);
    let mut value_at = second_at + if dirs == 2 { 6 + 12 * count(1) } else { 0 };
    m.four(8);
    let mut tail: Vec<u8> = Vec::new();
    for d in 0..dirs {
        let mut entries = if d == 0 { plain.clone() } else { plain[..3].to_vec() };
        if d == 0 && place == 1 {
            entries.push((330, 4, 1, second_at as u32));
        }
        if d == target {
            for (k, list) in lists.iter().enumerate() {
                if let Some(list) = list {
                    let value = if list.len() <= 4 {
                        let mut four = [0; 4];
                        four[..list.len()].copy_from_slice(list);
                        if m.big { u32::from_be_bytes(four) } else { u32::from_le_bytes(four) }
                    } else {
                        tail.extend(list);
                        value_at += list.len();
                        (value_at - list.len()) as u32
                    };
                    entries.push((LISTS[k], 7, list.len() as u32, value));
                }
            }
        }
        entries.sort();
        m.directory(&entries, if d == 0 && place == 2 { second_at as u32 } else { 0 });
    }
    m.bytes.extend(tail);
    (m.bytes, lists)
}

// Writes FOLDER/K.dng, and FOLDER/K.ours1 and so on as `find` takes them out; exiftool's, K.theirs1, stand beside them
// later.
fn write_formed(folder: &str, files: u64) {
    for k in 0..files {
        let (file, lists) = formed(&mut Rng::new(105, k));
        fs::write(format!("{folder}/{k}.dng"), &file).expect("a file can be written");
        for (j, which) in Which::ALL.into_iter().enumerate() {
            let got = find(&file, which);
            let want = lists[j].as_deref().ok_or(FindError::Missing);
            assert_eq!(got, want, "file {k}, {which:?}");
            if let Ok(list) = got {
                fs::write(format!("{folder}/{k}.ours{}", j + 1), list).expect("a list can be written");
            }
        }
    }
}

// ---- what a hostile file costs

// Files of n bytes that name zeros as often as they can, in one directory that is its own next one.
fn worst(n: usize, what: &str) -> Vec<u8> {
    let mut m = Made::new(what.ends_with("MM"));
    m.four(8);
    let half = (n / 2 - 16) / 12;
    let entries = match what {
        w if w.starts_with("entries") => ((n - 64) / 12).min(65_535),
        w if w.starts_with("small") || w.starts_with("edges") => ((n - 4096) / 12).min(65_535),
        _ => half.min(65_535),
    };
    m.two(entries as u16);
    let from = 8 + 6 + 12 * entries;
    let block = n / 65_536 * 8 + 8;
    let edge = (n / block - 4) * block;
    let mut r = Rng::new(7, 0);
    for k in 0..entries {
        let (start, end) = match what {
            // no SubIFDs at all
            w if w.starts_with("entries") => {
                m.entry(271, 2, 0, 0);
                continue;
            }
            // all of the rest, again and again
            w if w.starts_with("same") => (from, n),
            // two halves, in turn, that a byte parts
            w if w.starts_with("two") => match k % 2 {
                0 => (from, from + (n - from) / 2 - 8),
                _ => (from + (n - from) / 2 + 8, n),
            },
            // from another place each time
            w if w.starts_with("places") => {
                let a = r.within(from, n);
                (a, r.within(a, n))
            }
            // nearly all of a block of the table, one more, and nearly all of a third
            w if w.starts_with("small") => (edge - block + 1, edge + 2 * block - 1),
            // the same, from shortly before another edge, behind a byte that is not zero
            w if w.starts_with("edges") => (edge - block - 6, edge + 2 * block - 1),
            // all of the rest from the end of a block on, and a few bytes across that edge, in turn
            w if w.starts_with("pair") => match k % 2 {
                0 => (from / block * block + 2 * block - 8, n),
                _ => (from / block * block + 2 * block - 8, from / block * block + 2 * block + 8),
            },
            _ => unreachable!(),
        };
        m.entry(330, 4, ((end - start) / 4) as u32, start as u32);
    }
    m.four(8);
    m.bytes.resize(n, 0);
    if what.starts_with("two") {
        m.bytes[from + (n - from) / 2] = 1;
    }
    if what.starts_with("edges") {
        m.bytes[edge - block - 7] = 1;
    }
    m.bytes
}

fn time(n: usize, only: Option<&String>) {
    let kinds = ["entries", "same", "two", "places", "pair", "small", "edges"];
    for what in kinds.into_iter().flat_map(|k| [format!("{k} MM"), format!("{k} II")]) {
        if only.map_or(false, |o| *o != what) {
            continue;
        }
        let file = worst(n, &what);
        assert!(file.len() == n);
        let t = Instant::now();
        let answer = ours(&file, Which::List1);
        println!("{what}: {answer:?}, {:.3} s", t.elapsed().as_secs_f64());
    }
}

fn number(s: Option<&String>, or: u64) -> u64 {
    s.map_or(or, |s| s.replace([',', '_'], "").parse().unwrap_or_else(|_| {
        eprintln!("find: {s} is no number");
        exit(2)
    }))
}

fn main() {
    let args: Vec<String> = env::args().skip(1).collect();
    match args.first().map(String::as_str) {
        Some("store") => store(&args[1]),
        Some("formed") => write_formed(&args[1], number(args.get(2), 200)),
        Some("worst") => time(number(args.get(1), 1_000_000) as usize, args.get(2)),
        _ => compare(number(args.first(), 1_000_000), number(args.get(1), 1)),
    }
}
