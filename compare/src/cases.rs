// A case: a list, a frame, samples of both kinds, a row, and how long the lent buffers are.
use crate::lists::{self, Around};
use crate::oracle::Oracle;
use crate::rng::{f32_bits, Rng, F32};
use rolbhunga::Frame;

#[derive(Clone, Copy, Default, Debug)]
pub struct Lengths {
    pub marks: usize,
    pub names: usize,
    pub work: usize,
}

#[derive(Clone)]
pub struct Case {
    pub list: Vec<u8>,
    pub frame: Frame,
    // patterns, so that every NaN keeps its own
    pub floats: Vec<u32>,
    pub wholes: Vec<u16>,
    pub row: Vec<u32>,
    pub y: usize,
    pub f: Lengths,
    pub u: Lengths,
    pub row_work: usize,
    // bytes past the last whole sample in the byte forms
    pub over: usize,
}

fn place(r: &mut Rng) -> usize {
    match r.below(12) {
        0 => 16_777_216,
        1 => 16_777_216 - r.below(8),
        2 => r.below(16_777_217),
        3..=6 => 0,
        _ => r.below(12),
    }
}

fn frame(r: &mut Rng, size: usize) -> Frame {
    let (width, height) = match size {
        0 => (r.below(5), r.below(4)),
        1 => (r.within(1, 9), r.within(1, 6)),
        2 => (r.within(1, 40), r.within(1, 12)),
        _ => {
            if r.once(2) {
                (65_536 - r.below(2), r.within(1, 2))
            } else {
                (r.within(1, 2), 65_536 - r.below(2))
            }
        }
    };
    let planes = r.pick(&[1, 1, 1, 1, 2, 3, 3, 4, 8]);
    let stride = match r.below(10) {
        0 => width.saturating_sub(1),
        1 => 0,
        2..=4 => (width + r.below(4)).min(65_536),
        _ => width,
    };
    let (x0, y0) = if r.once(2) { (0, 0) } else { (place(r), place(r)) };
    let (full_width, full_height) = match r.below(6) {
        0 => (place(r), place(r)),
        1 => (r.below(2), r.below(2)),
        _ => ((x0 + width).min(16_777_216), (y0 + height).min(16_777_216)),
    };
    let period = r.pick(&[0, 1, 1, 1, 2, 2, 2, 3, 5, 65_536]);
    let scale = match r.below(12) {
        0 => f32::from_bits(r.pick(&F32)),
        1 => f32::from_bits(r.next() as u32),
        2..=4 => 65535.0,
        5 => 0.5,
        _ => 1.0,
    };
    let mut f = Frame { width, height, planes, stride, x0, y0, full_width, full_height, period, scale, preview: false };
    if r.once(12) {
        out_of_range(r, &mut f);
    }
    f
}

// One number at its limit or past it.
fn out_of_range(r: &mut Rng, f: &mut Frame) {
    let size = r.pick(&[65_537, 65_538, 1 << 32, usize::MAX, 65_536]);
    let place = r.pick(&[16_777_217, 16_777_218, 1 << 32, usize::MAX, 16_777_216]);
    match r.below(9) {
        // at its limit only where the data is short enough
        0 => f.width = if size == 65_536 { 65_537 } else { size },
        1 => f.height = size,
        2 => f.planes = r.pick(&[0, 9, 8, 10, usize::MAX]),
        3 => f.stride = size,
        4 => f.x0 = place,
        5 => f.y0 = place,
        6 => f.full_width = place,
        7 => f.full_height = place,
        _ => f.period = size,
    }
}

fn length(r: &mut Rng, f: &Frame, most: usize) -> usize {
    let whole = f
        .stride
        .checked_mul(f.height)
        .and_then(|n| n.checked_mul(f.planes))
        .filter(|&n| n <= most)
        .unwrap_or(64);
    let rows = f.height.saturating_sub(1).saturating_mul(f.stride).saturating_add(f.width);
    let tight = rows.checked_mul(f.planes).filter(|&n| n <= most && f.height > 0).unwrap_or(64);
    match r.below(16) {
        0 => 0,
        1 => r.below(whole + 1),
        2 => tight.saturating_sub(1 + r.below(3)),
        3 => whole + r.within(1, 9),
        4..=7 => tight,
        _ => whole.max(tight),
    }
}

fn float(r: &mut Rng, scale: f32, wild: bool) -> u32 {
    if wild {
        return f32_bits(r);
    }
    match r.below(16) {
        0 => f32_bits(r),
        1..=4 => (r.below(65536) as f32 / scale).to_bits(),
        5 => (-(r.below(9) as f32) / scale).to_bits(),
        _ => (r.below(4) as f32 / scale).to_bits(),
    }
}

fn whole(r: &mut Rng) -> u16 {
    match r.below(8) {
        0 => r.next() as u16,
        1 => 65535 - r.below(3) as u16,
        _ => r.below(5) as u16,
    }
}

impl Case {
    // The lengths of the buffers are set afterwards, from what the list needs.
    pub fn any(r: &mut Rng) -> Case {
        let size = match r.below(16_000) {
            0 => 3,
            n if n < 640 => 2,
            n if n < 6400 => 0,
            _ => 1,
        };
        let frame = frame(r, size);
        let a = Around {
            width: frame.width.min(65_537),
            height: frame.height.min(65_537),
            planes: frame.planes.min(9),
            x0: frame.x0.min(16_777_217),
            y0: frame.y0.min(16_777_217),
        };
        let kind = r.below(4);
        let mut list = lists::list(r, &a, kind);
        if r.once(4) {
            for _ in 0..r.within(1, 2) {
                lists::damage(r, &mut list);
            }
        }
        let n = length(r, &frame, if size == 3 { 1 << 21 } else { 8192 });
        let wild = r.once(8);
        let floats = (0..n).map(|_| float(r, frame.scale, wild)).collect();
        let wholes = (0..n).map(|_| whole(r)).collect();
        let most = frame.width.checked_mul(frame.planes).filter(|&n| n <= 1 << 20).unwrap_or(8);
        let n = match r.below(10) {
            0 => most + r.within(1, 3),
            1 => r.below(most + 1),
            _ => most,
        };
        let row = (0..n).map(|_| float(r, frame.scale, wild)).collect();
        let y = match r.below(16) {
            0 => r.pick(&[16_842_751, 16_842_752, usize::MAX, 1 << 32]),
            1 => r.below(16_842_752),
            _ => frame.y0.min(16_777_216) + r.below(frame.height.min(65_536) + 2),
        };
        Case {
            list,
            frame,
            floats,
            wholes,
            row,
            y,
            f: Lengths::default(),
            u: Lengths::default(),
            row_work: 0,
            over: 0,
        }
    }

    // Each buffer at what a repair or the names need, one less, or more.
    pub fn set_lengths(&mut self, r: &mut Rng, o: &Oracle) {
        let (repairs, names) = o.needs_f32();
        self.f = lengths(r, &repairs, names, self.floats.len());
        let (repairs, names) = o.needs_u16();
        self.u = lengths(r, &repairs, names, self.wholes.len());
        self.row_work = near(r, self.row.len());
        self.over = r.below(4);
    }

    // Every buffer as long as is needed, and no longer.
    pub fn set_exact(&mut self, o: &Oracle) {
        let exact = |needs: (Vec<crate::doc01::Need>, usize), n: usize| Lengths {
            marks: needs.0.iter().map(|n| n.marked as usize).max().unwrap_or(0),
            names: needs.1,
            work: n,
        };
        let (f, u) = (exact(o.needs_f32(), self.floats.len()), exact(o.needs_u16(), self.wholes.len()));
        self.f = f;
        self.u = u;
        self.row_work = self.row.len();
        self.over = 0;
    }
}

fn near(r: &mut Rng, n: usize) -> usize {
    match r.below(8) {
        0 => n.saturating_sub(1),
        1 => n + r.within(1, 5),
        _ => n,
    }
}

// The scratch by the largest repair, or by one of them.
fn lengths(r: &mut Rng, repairs: &[crate::doc01::Need], names: usize, samples: usize) -> Lengths {
    let marked = |n: &crate::doc01::Need| n.marked as usize;
    let marks = if repairs.is_empty() || !r.once(3) {
        repairs.iter().map(marked).max().unwrap_or(0)
    } else {
        marked(&repairs[r.below(repairs.len())])
    };
    Lengths { marks: near(r, marks), names: near(r, names), work: near(r, samples) }
}
