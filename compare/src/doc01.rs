// Document 01 read a second time, apart from the Rust and from the definitions: the ranges, and what a repair marks,
// repairs and leaves. The Rust has neither limits nor totals.
use dng_opcodes::Opcode;
use rolbhunga::Frame;

// 'Taken and left'.
pub fn in_range(f: &Frame) -> bool {
    [f.width, f.height, f.stride, f.period].iter().all(|&n| n <= 65_536)
        && (1..=8).contains(&f.planes)
        && [f.x0, f.y0, f.full_width, f.full_height].iter().all(|&n| n <= 16_777_216)
}

pub fn row_in_range(f: &Frame, y: usize, samples: usize) -> bool {
    f.width <= 65_536
        && (1..=8).contains(&f.planes)
        && [f.x0, f.full_width, f.full_height].iter().all(|&n| n <= 16_777_216)
        && y <= 16_842_751
        && samples <= f.width * f.planes
}

#[derive(Clone, Copy, Default, PartialEq, Debug)]
pub struct Need {
    pub marked: u64,
    pub repaired: u64,
    pub left: u64,
}

// What a repair does to a window of so many samples; `plane0` tells whether a sample equals the constant.
pub fn need(op: &Opcode, f: &Frame, samples: usize, plane0: &dyn Fn(u32, usize) -> bool) -> Need {
    let (w, h, p) = (f.width, f.height, f.planes);
    if w == 0 || h == 0 || f.stride < w || samples < ((h - 1) * f.stride + w) * p {
        return Need::default();
    }
    let mut marked = vec![false; w * h];
    match op {
        Opcode::FixBadPixelsConstant { constant, .. } => {
            for y in 0..h {
                for x in 0..w {
                    marked[y * w + x] = plane0(*constant, (y * f.stride + x) * p);
                }
            }
        }
        Opcode::FixBadPixelsList { points, rects, .. } => {
            for &(row, column) in points {
                let (y, x) = (row as i64 - f.y0 as i64, column as i64 - f.x0 as i64);
                if (0..h as i64).contains(&y) && (0..w as i64).contains(&x) {
                    marked[y as usize * w + x as usize] = true;
                }
            }
            for &(top, left, bottom, right) in rects {
                let inside = |from: u32, to: u32, at: usize, n: usize| {
                    let a = (from as usize).max(at) - at;
                    let e = (to as usize).min(at + n).max(at) - at;
                    a..e.max(a)
                };
                for y in inside(top, bottom, f.y0, h) {
                    for x in inside(left, right, f.x0, w) {
                        marked[y * w + x] = true;
                    }
                }
            }
        }
        _ => {}
    }
    let d = f.period.max(1) as i64;
    let mut n = Need::default();
    for y in 0..h as i64 {
        for x in 0..w as i64 {
            if !marked[y as usize * w + x as usize] {
                continue;
            }
            n.marked += 1;
            let mut sound = false;
            for dy in -1..=1 {
                for dx in -1..=1 {
                    let (yy, xx) = (y + dy * d, x + dx * d);
                    if (dx, dy) != (0, 0) && (0..h as i64).contains(&yy) && (0..w as i64).contains(&xx) {
                        sound |= !marked[yy as usize * w + xx as usize];
                    }
                }
            }
            if sound {
                n.repaired += 1;
            } else {
                n.left += 1;
            }
        }
    }
    n
}
