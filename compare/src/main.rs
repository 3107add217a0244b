// Compares every exported function with the Rust module on cases made by chance. See compare/run.
mod black;
mod cases;
mod check;
mod damage;
mod doc01;
mod frames;
mod limits;
mod lists;
mod oracle;
mod previews;
mod reasons;
mod rng;
mod shrink;
mod tiles;
mod verdict;

use cases::Case;
use check::Counts;
use oracle::Oracle;
use rng::Rng;
use rolbhunga::Frame;
use std::env;
use std::process::exit;
use std::thread;

// The fixed list of calls is made of plain cases; a third of the others are sharpened, by numbers of their own.
fn made(seed: u64, number: u64, plain: bool) -> (Case, Oracle) {
    let mut r = Rng::new(seed, number);
    let mut c = Case::any(&mut r);
    let mut own = Rng::new(!seed, number);
    if !plain && own.once(3) {
        lists::sharpen(&mut own, &mut c.list);
    }
    if !plain && own.once(8) {
        previews::wild(&mut own, &mut c.list);
    }
    let o = Oracle::of(&c);
    c.set_lengths(&mut r, &o);
    (c, o)
}

// The same case as a preview, its buffers by what is left.
fn preview(c: &Case, r: &mut Rng) -> (Case, Oracle) {
    let mut c = c.clone();
    c.frame.preview = true;
    let o = Oracle::of(&c);
    c.set_lengths(r, &o);
    (c, o)
}

fn report(what: &str, c: &Case, why: &str) {
    println!("difference in {what}: {why}");
    let small = if c.list.len() < 100_000 && c.floats.len() < 20_000 { shrink::shrink(c.clone()) } else { c.clone() };
    if let Some(why) = shrink::differs(&small) {
        println!("  smallest found: {why}");
        if small.list.len() < 100_000 && small.floats.len() < 20_000 {
            shrink::print(&small);
        }
    }
}

fn sweep(seed: u64, from: u64, to: u64, step: u64) -> (Counts, u64) {
    let (mut n, mut wrong) = (Counts::new(), 0);
    let mut k = from;
    while k < to {
        let (c, o) = made(seed, k, false);
        let shown = preview(&c, &mut Rng::new(seed ^ 0x7072_6576, k));
        for (what, (c, o)) in [("case", (c, o)), ("preview", shown)] {
            check::count(&c, &o, &mut n);
            if let Err(why) = check::check(&c, &o) {
                wrong += 1;
                if first() {
                    println!("{what} {k}: {why}");
                    exit(1);
                }
                if wrong <= 3 {
                    report(&format!("{what} {k} of seed {seed}"), &c, &why);
                }
            }
        }
        k += step;
    }
    (n, wrong)
}

// Damaged copies of a list with all kinds, over a window of 3 by 2: the answer, why and at which byte, from every call;
// then as a preview, and as a preview that would drop every entry.
fn damaged(seed: u64) -> (u64, u64) {
    let (mut copies, mut wrong) = (0, 0);
    for (what, list) in damage::lists() {
        let flagged = previews::flagged(&list, |_, flags| flags | 2);
        for (list, preview) in [(list.clone(), false), (list, true), (flagged, true)] {
            let mut c = limits::case(list, Frame::new(3, 2, 1).preview(preview));
            let o = Oracle::of(&c);
            c.set_lengths(&mut Rng::new(seed, copies), &o);
            copies += 1;
            if let Err(why) = check::check(&c, &o) {
                wrong += 1;
                if first() {
                    println!("{what}: {why}");
                    exit(1);
                }
                if wrong <= 3 {
                    report(what, &c, &why);
                }
            }
        }
    }
    (copies, wrong)
}

const AT_A_LIMIT: u64 = 8;

// A case at a limit with buffers exactly as long as needed and by chance; the same as previews that drop nothing, every
// second entry, and all.
fn at_limit(c: &Case, seed: u64, k: u64) -> (Case, Oracle) {
    let mut c = c.clone();
    c.frame.preview = k >= 4;
    match k {
        5 => c.list = previews::flagged(&c.list, |k, _| 2 * (k as u32 % 2)),
        6 => c.list = previews::flagged(&c.list, |k, _| 3 - 2 * (k as u32 % 2)),
        7 => c.list = previews::flagged(&c.list, |_, _| 2),
        _ => {}
    }
    let o = Oracle::of(&c);
    if matches!(k, 0 | 5 | 7) {
        c.set_exact(&o);
    } else {
        c.set_lengths(&mut Rng::new(seed, k), &o);
    }
    (c, o)
}

// FIRST=1: the first difference ends it, as compare/slips wants it.
fn first() -> bool {
    env::var_os("FIRST").is_some()
}

fn number(s: Option<&String>, or: u64) -> u64 {
    match s {
        None => or,
        Some(s) => s.replace([',', '_'], "").parse().unwrap_or_else(|_| {
            eprintln!("compare: {s} is no number");
            exit(2)
        }),
    }
}

fn main() {
    let args: Vec<String> = env::args().skip(1).collect();
    if args.first().map(String::as_str) == Some("frames") {
        frames::write(&args[1], number(args.get(2), 1));
        return;
    }
    if args.first().map(String::as_str) == Some("black") {
        exit((black::sweep(number(args.get(2), 1), number(args.get(1), 1_000_000)) > 0) as i32);
    }
    let (cases, seed) = (number(args.first(), 1_000_000), number(args.get(1), 1));
    let jobs = number(env::var("JOBS").ok().as_ref(), 1).max(1);
    if first() {
        // slips show early, and the limits are long lists
        sweep(seed, 0, cases, 1);
    }
    let mut wrong = 0;
    let mut fixed = 0;
    let mut hold = |what: &str, c: &Case, o: &Oracle| {
        fixed += 1;
        if let Err(why) = check::check(c, o) {
            wrong += 1;
            if first() {
                println!("{what}: {why}");
                exit(1);
            }
            report(what, c, &why);
        }
    };
    for c in previews::cases() {
        hold("a preview", &c, &Oracle::of(&c));
    }
    for (what, c) in limits::cases() {
        for k in 0..AT_A_LIMIT {
            let (c, o) = at_limit(&c, seed, k);
            hold(what, &c, &o);
        }
    }
    println!("limits: {fixed} cases, {wrong} differ");
    match verdict::clauses() {
        Ok(n) => println!("verdicts: {n} asked, clause by clause, 0 differ"),
        Err(why) => {
            wrong += 1;
            println!("difference in verdicts: {why}");
        }
    }
    let (copies, astray) = damaged(seed);
    println!("damaged copies: {copies}, {astray} differ");
    wrong += astray;
    let threads: Vec<_> = (0..jobs).map(|j| thread::spawn(move || sweep(seed, j, cases, jobs))).collect();
    let mut all = Counts::new();
    for t in threads {
        let (n, w) = t.join().expect("a sweep ends");
        wrong += w;
        for (k, v) in n {
            *all.entry(k).or_insert(0) += v;
        }
    }
    let cuts = cases / 10;
    let threads: Vec<_> = (0..jobs).map(|j| thread::spawn(move || tiles::sweep(seed, j, cuts, jobs))).collect();
    for t in threads {
        let (n, w) = t.join().expect("a sweep ends");
        wrong += w;
        for (k, v) in n {
            *all.entry(k).or_insert(0) += v;
        }
    }
    for (k, v) in &all {
        println!("{v:>12}  {k}");
    }
    let rest = format!("{fixed} at the limits, {copies} damaged copies, {cuts} cuts into tiles");
    println!("compared {cases} cases of seed {seed}, seven calls each, twice, {rest}: {wrong} differ");
    wrong += black::sweep(seed, cases);
    if wrong > 0 {
        exit(1);
    }
}
