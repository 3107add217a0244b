// Makes a case that differs as small as it gets by simple steps: entries left out, buffers cut, numbers made 0 or 1.
use crate::cases::Case;
use crate::check::check;
use crate::lists::starts;
use crate::oracle::Oracle;

pub fn differs(c: &Case) -> Option<String> {
    // The oracle asserts what it takes for granted of the Rust.
    check(c, &Oracle::of(c)).err()
}

fn without_entry(c: &Case, k: usize) -> Option<Case> {
    let s = starts(&c.list);
    let from = *s.get(k)?;
    let to = s.get(k + 1).copied().unwrap_or(c.list.len()).min(c.list.len());
    let mut d = c.clone();
    d.list.drain(from..to);
    let n = u32::from_be_bytes([c.list[0], c.list[1], c.list[2], c.list[3]]).wrapping_sub(1);
    d.list[..4].copy_from_slice(&n.to_be_bytes());
    Some(d)
}

fn smaller(c: &Case) -> Vec<Case> {
    let mut v = Vec::new();
    for k in 0..starts(&c.list).len().min(64) {
        v.extend(without_entry(c, k));
    }
    let mut put = |f: &dyn Fn(&mut Case)| {
        let mut d = c.clone();
        f(&mut d);
        v.push(d);
    };
    for to in [0, 1, c.frame.width / 2, c.frame.width.saturating_sub(1)] {
        put(&|d| d.frame.width = to.min(d.frame.width));
    }
    for to in [0, 1, c.frame.height / 2, c.frame.height.saturating_sub(1)] {
        put(&|d| d.frame.height = to.min(d.frame.height));
    }
    put(&|d| d.frame.planes = 1);
    put(&|d| d.frame.stride = d.frame.width);
    put(&|d| d.frame.x0 = 0);
    put(&|d| d.frame.y0 = 0);
    put(&|d| d.frame.full_width = d.frame.width);
    put(&|d| d.frame.full_height = d.frame.height);
    put(&|d| d.frame.period = 1);
    put(&|d| d.frame.scale = 1.0);
    put(&|d| d.frame.preview = false);
    put(&|d| d.y = 0);
    put(&|d| d.over = 0);
    for n in [0, c.floats.len() / 2, c.floats.len().saturating_sub(1)] {
        put(&|d| d.floats.truncate(n));
        put(&|d| d.wholes.truncate(n));
    }
    for n in [0, c.row.len() / 2, c.row.len().saturating_sub(1)] {
        put(&|d| d.row.truncate(n));
    }
    for n in [0, 1] {
        put(&|d| d.f.marks = n);
        put(&|d| d.f.names = n);
        put(&|d| d.u.marks = n);
        put(&|d| d.u.names = n);
    }
    put(&|d| d.f.work = d.floats.len());
    put(&|d| d.u.work = d.wholes.len());
    put(&|d| d.row_work = d.row.len());
    for i in 0..c.floats.len().min(64) {
        put(&|d| d.floats[i] = 0);
        put(&|d| d.floats[i] = 0x3f80_0000);
    }
    for i in 0..c.wholes.len().min(64) {
        put(&|d| d.wholes[i] = 0);
    }
    for i in 0..c.row.len().min(64) {
        put(&|d| d.row[i] = 0);
    }
    for i in (4..c.list.len().min(400)).step_by(4) {
        put(&|d| {
            let e = (i + 4).min(d.list.len());
            d.list[i..e].fill(0)
        });
    }
    for n in [1, 4, 8] {
        put(&|d| d.list.truncate(d.list.len().saturating_sub(n)));
    }
    v
}

// How much there is of a case, so that each step makes it less.
fn weight(c: &Case) -> usize {
    let g = &c.frame;
    let sizes = [g.width, g.height, g.planes, g.stride, g.x0, g.y0, g.full_width, g.full_height, g.period, c.y];
    let numbers: usize = sizes.iter().map(|n| n.saturating_add(1).ilog2() as usize).sum();
    let filled = |n: usize, zeros: usize| 4 * n - zeros;
    numbers
        + (g.scale != 1.0) as usize
        + g.preview as usize
        + 8 * c.list.len()
        - c.list.iter().filter(|b| **b == 0).count()
        + filled(c.floats.len(), c.floats.iter().filter(|b| **b == 0).count())
        - c.floats.iter().filter(|b| **b == 0x3f80_0000).count() / 2
        + filled(c.wholes.len(), c.wholes.iter().filter(|b| **b == 0).count())
        + filled(c.row.len(), c.row.iter().filter(|b| **b == 0).count())
        + [c.f.marks, c.f.names, c.u.marks, c.u.names, c.over].iter().sum::<usize>()
        + c.f.work.abs_diff(c.floats.len())
        + c.u.work.abs_diff(c.wholes.len())
        + c.row_work.abs_diff(c.row.len())
}

pub fn shrink(mut c: Case) -> Case {
    for _ in 0..400 {
        let now = weight(&c);
        let next = smaller(&c).into_iter().filter(|d| weight(d) < now).find(|d| differs(d).is_some());
        match next {
            Some(d) => c = d,
            None => break,
        }
    }
    c
}

pub fn print(c: &Case) {
    let hex = |b: &[u8]| b.iter().map(|b| format!("{b:02x}")).collect::<String>();
    let words = |b: &[u32]| b.iter().map(|b| format!("{b:08x} ")).collect::<String>();
    println!("  list {}", hex(&c.list));
    println!("  {:?} scale bits {:08x}", c.frame, c.frame.scale.to_bits());
    println!("  floats {}", words(&c.floats));
    println!("  wholes {:?}", c.wholes);
    println!("  row {} of {}", c.y, words(&c.row));
    println!("  f32 {:?}", c.f);
    println!("  u16 {:?}", c.u);
    println!("  row work {}, bytes left over {}", c.row_work, c.over);
}
