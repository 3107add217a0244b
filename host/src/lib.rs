//! DNG opcode lists, run on image samples.
//!
//! Every call is safe for every argument: a number that is out of its range, a malformed list or a buffer that is too
//! small is an [`Answer`]; no run panics. The work is done by a library whose functions are proved to meet their
//! contracts; this crate only lends it slices and reads its answers.
//!
//! ```
//! use rolbhunga::{Answer, Frame, Scratch};
//!
//! // One FixBadPixelsConstant with the constant 0: count, id, version, flags, body length, constant, phase.
//! let words: [u32; 7] = [1, 4, 0x0103_0000, 0, 8, 0, 0];
//! let list: Vec<u8> = words.iter().flat_map(|w| w.to_be_bytes()).collect();
//!
//! let mut samples = [10.0, 0.0, 19.0];
//! let frame = Frame::new(3, 1, 1);
//! let mut scratch = Scratch::enough(&frame);
//! let answer = frame.run_f32(&list, &mut samples, &mut scratch.room());
//! assert_eq!(answer, Answer::Done { names: 0, repaired: 1, left: 0, whole: true });
//! assert_eq!(samples, [10.0, 14.5, 19.0]);
//! ```
pub mod black;

use std::fmt;

pub mod ffi;
mod find;

pub use find::{find, FindError, Which};

/// The number of the answer [`Answer::Work`].
pub const WORK: u32 = 100;

/// The opcodes that a list can have at most, so that so many bytes of names are always enough.
pub const MAX_OPCODES: usize = 4096;

// What full_width and full_height can be at most.
const MAX_FULL: usize = 16_777_216;

/// Why a list is malformed.
#[derive(Debug, Clone, Copy, PartialEq, Eq, Hash)]
pub enum Reason {
    /// 20: the list ends inside its count or inside an entry's header.
    Ends,
    /// 21: more than 4,096 entries.
    TooMany,
    /// 22: the body of an entry is longer than the rest of the list.
    TooLong,
    /// 23: the body of an entry ends inside a field of fixed size.
    Inside,
    /// 24: a count or dimension breaks its limit, or what it counts does not fit the body.
    Count,
    /// 25: the degree of a polynomial is above 8.
    Degree,
}

impl Reason {
    const ALL: [Reason; 6] =
        [Reason::Ends, Reason::TooMany, Reason::TooLong, Reason::Inside, Reason::Count, Reason::Degree];

    /// Document 02's number of the reason.
    pub fn number(self) -> u32 {
        20 + self as u32
    }

    fn of(number: u32) -> Option<Reason> {
        Reason::ALL.into_iter().find(|r| r.number() == number)
    }
}

impl fmt::Display for Reason {
    fn fmt(&self, f: &mut fmt::Formatter<'_>) -> fmt::Result {
        f.write_str(match self {
            Reason::Ends => "the list is cut short, or its count cannot be right: it ends inside the count or a header",
            Reason::TooMany => "the number of entries cannot be right: it is above 4096",
            Reason::TooLong => "the list is cut short, or a length cannot be right: a body is longer than the rest",
            Reason::Inside => "a length cannot be right for its entry's kind: the body ends inside a field",
            Reason::Count => "a count cannot be right: it breaks its limit, or the body is shorter than it says",
            Reason::Degree => "a degree cannot be right: it is above 8",
        })
    }
}

fn malformed(f: &mut fmt::Formatter<'_>, entry: usize, reason: Reason, offset: usize) -> fmt::Result {
    write!(f, "{}: {reason}, at byte {offset}; whole entries before: {entry}", reason.number())
}

/// What a run answers. On `Range` to `Names` and on `Work` samples and names are as they were; on `Marks` the samples
/// are as after the opcodes before, and the names are as they were. The scratch holds only zeros after every call. The
/// number 6 is withdrawn: no answer has it.
#[derive(Debug, Clone, Copy, PartialEq, Eq)]
pub enum Answer {
    /// 0: done. The skip buffer starts with `names` bytes, one for each skipped opcode (its id, 0 for an unknown one).
    /// `whole` is the verdict, of which neither the names nor the totals tell: [`Answer::is_whole`].
    Done { names: usize, repaired: u64, left: u64, whole: bool },
    /// 1: a number of the frame is out of its range.
    Range,
    /// 20 to 25: the list is malformed, after `entry` entries that were read whole. `offset` is the byte, from the
    /// list's first, of the field that could not be read or accepted. 2 is divided: no answer has it.
    Malformed { entry: usize, reason: Reason, offset: usize },
    /// 3: the form does not take this list.
    NotTaken,
    /// 4: the skip buffer is shorter than the skipped opcodes.
    Names,
    /// 5: the repair `opcode` marks more positions than there is room for; nothing of it is written. Opcodes are
    /// numbered in the whole list, also in a preview.
    Marks { opcode: usize },
    // 6 is withdrawn
    /// 100, of the forms over bytes alone: the work room has fewer entries than the bytes have samples.
    Work,
}

impl Answer {
    /// The papers' number of the answer.
    pub fn number(self) -> u32 {
        match self {
            Answer::Done { .. } => 0,
            Answer::Range => 1,
            Answer::Malformed { reason, .. } => reason.number(),
            Answer::NotTaken => 3,
            Answer::Names => 4,
            Answer::Marks { .. } => 5,
            Answer::Work => WORK,
        }
    }

    /// The verdict: the run answers 0, and every opcode of the list, or of what a preview leaves of it, that has not
    /// the flag bit 0, "optional", had its effect. One that is skipped, an empty MapTable, and a vignette whose
    /// distance to the farthest corner of the full image is not above 0 and finite had none; one whose region selects
    /// no sample had it. Positions that stay unrepaired (`left`) are not in it.
    ///
    /// ```
    /// use rolbhunga::{Answer, Frame, Scratch};
    ///
    /// // A WarpFisheye, which no run applies: with flags 0, then with flags 1, which permit it.
    /// let run = |flags: u32| {
    ///     let words: [u32; 5] = [1, 2, 0x0103_0000, flags, 0];
    ///     let list: Vec<u8> = words.iter().flat_map(|w| w.to_be_bytes()).collect();
    ///     Frame::new(1, 1, 1).run_u16(&list, &mut [7], &mut Scratch::new(0, 1).room())
    /// };
    /// assert_eq!(run(0), Answer::Done { names: 1, repaired: 0, left: 0, whole: false });
    /// assert!(run(1).is_whole());
    /// ```
    pub fn is_whole(self) -> bool {
        matches!(self, Answer::Done { whole: true, .. })
    }

    fn of(n: ffi::Numbers, whole: bool) -> Answer {
        match n.number {
            0 => Answer::Done { names: n.names, repaired: n.repaired, left: n.left, whole },
            1 => Answer::Range,
            3 => Answer::NotTaken,
            4 => Answer::Names,
            5 => Answer::Marks { opcode: n.opcode },
            WORK => Answer::Work,
            other => match Reason::of(other) {
                Some(reason) => Answer::Malformed { entry: n.entry, reason, offset: n.offset },
                None => unreachable!("no answer has the number {other}"),
            },
        }
    }
}

impl fmt::Display for Answer {
    fn fmt(&self, f: &mut fmt::Formatter<'_>) -> fmt::Result {
        match *self {
            Answer::Done { names, repaired, left, whole } => {
                let not = if whole { "" } else { "not " };
                write!(f, "0: done; skipped opcodes: {names}, repaired: {repaired}, left: {left}; ")?;
                write!(f, "the frame is {not}whole")
            }
            Answer::Range => f.write_str("1: a number is outside its range"),
            Answer::Malformed { entry, reason, offset } => malformed(f, entry, reason, offset),
            Answer::NotTaken => f.write_str("3: the form does not take the list"),
            Answer::Names => f.write_str("4: more skipped opcodes than names fit"),
            Answer::Marks { opcode } => write!(f, "5: more bad pixels than the scratch holds, at opcode {opcode}"),
            Answer::Work => f.write_str("100: the work room is too small"),
        }
    }
}

/// What a row call answers. On all but `Done` the row is as it was. A row has no verdict: [`Row::is_whole`] gives the
/// frame's.
#[derive(Debug, Clone, Copy, PartialEq, Eq)]
pub enum RowAnswer {
    /// 0: done. `skipped` opcodes of the list are named by the f32 run and not applied.
    Done { skipped: usize },
    /// 1: a number of the row is out of its range.
    Range,
    /// 20 to 25: the list is malformed, after `entry` entries that were read whole. `offset` is the byte, from the
    /// list's first, of the field that could not be read or accepted. 2 is divided: no answer has it.
    Malformed { entry: usize, reason: Reason, offset: usize },
    /// 3: the list has a repair or an empty table.
    NotTaken,
    /// 100, of the form over bytes alone.
    Work,
}

impl RowAnswer {
    /// The papers' number of the answer.
    pub fn number(self) -> u32 {
        match self {
            RowAnswer::Done { .. } => 0,
            RowAnswer::Range => 1,
            RowAnswer::Malformed { reason, .. } => reason.number(),
            RowAnswer::NotTaken => 3,
            RowAnswer::Work => WORK,
        }
    }

    fn of(n: ffi::RowNumbers) -> RowAnswer {
        match n.number {
            0 => RowAnswer::Done { skipped: n.skipped },
            1 => RowAnswer::Range,
            3 => RowAnswer::NotTaken,
            WORK => RowAnswer::Work,
            other => match Reason::of(other) {
                Some(reason) => RowAnswer::Malformed { entry: n.entry, reason, offset: n.offset },
                None => unreachable!("no answer of a row has the number {other}"),
            },
        }
    }
}

impl fmt::Display for RowAnswer {
    fn fmt(&self, f: &mut fmt::Formatter<'_>) -> fmt::Result {
        match *self {
            RowAnswer::Done { skipped } => write!(f, "0: done; skipped opcodes: {skipped}"),
            RowAnswer::Range => f.write_str("1: a number is outside its range"),
            RowAnswer::Malformed { entry, reason, offset } => malformed(f, entry, reason, offset),
            RowAnswer::NotTaken => f.write_str("3: the form does not take the list"),
            RowAnswer::Work => f.write_str("100: the work room is too small"),
        }
    }
}

/// What reading a list answers.
///
/// ```
/// use rolbhunga::{read, Reading, Reason};
///
/// // One entry, of which only the id is there.
/// let answer = read(&[0, 0, 0, 1, 0, 0, 0, 5]);
/// assert_eq!(answer, Reading::Malformed { entry: 0, reason: Reason::Ends, offset: 8 });
/// assert!(answer.to_string().contains("at byte 8"));
/// ```
#[derive(Debug, Clone, Copy, PartialEq, Eq)]
pub enum Reading {
    /// 0: every entry can be read.
    Whole,
    /// 20 to 25: malformed, after `entry` entries that were read whole. `offset` is the byte, from the list's first, of
    /// the field that could not be read or accepted: of 22 the length, of several counts the first. It is at most the
    /// list's length.
    Malformed { entry: usize, reason: Reason, offset: usize },
}

impl Reading {
    /// The papers' number of the answer.
    pub fn number(self) -> u32 {
        match self {
            Reading::Whole => 0,
            Reading::Malformed { reason, .. } => reason.number(),
        }
    }
}

impl fmt::Display for Reading {
    fn fmt(&self, f: &mut fmt::Formatter<'_>) -> fmt::Result {
        match *self {
            Reading::Whole => f.write_str("0: every entry can be read"),
            Reading::Malformed { entry, reason, offset } => malformed(f, entry, reason, offset),
        }
    }
}

/// Reads a list, big-endian as in a DNG file.
pub fn read(list: &[u8]) -> Reading {
    // The list is lent for the call and only read.
    let n = unsafe { ffi::rolbhunga_read(list.as_ptr(), list.len()) };
    match n.number {
        0 => Reading::Whole,
        other => match Reason::of(other) {
            Some(reason) => Reading::Malformed { entry: n.entry, reason, offset: n.offset },
            None => unreachable!("no answer of reading has the number {other}"),
        },
    }
}

// The verdict of a frame whose run answered `number`. No run answers 0 to a size that is past the limits.
fn whole(list: &[u8], full_width: usize, full_height: usize, preview: bool, number: u32) -> bool {
    let fits = full_width <= MAX_FULL && full_height <= MAX_FULL;
    // The list is lent for the call and only read.
    fits && unsafe {
        ffi::rolbhunga_whole(list.as_ptr(), list.len(), full_width as u32, full_height as u32, preview, number)
    }
}

/// The buffers that a run is lent: the scratch for a repair, which is 4 bytes a marked position and nothing else and
/// holds only zeros after every call, and the skip buffer.
pub struct Room<'a> {
    pub marks: &'a mut [u32],
    pub names: &'a mut [u8],
}

/// A [`Room`] of its own.
#[derive(Debug, Clone)]
pub struct Scratch {
    pub marks: Vec<u32>,
    pub names: Vec<u8>,
}

impl Scratch {
    /// A scratch with so many entries of each kind.
    pub fn new(marks: usize, names: usize) -> Scratch {
        Scratch { marks: vec![0; marks], names: vec![0; names] }
    }

    /// A scratch that no list outgrows on this frame: the answers 4 and 5 cannot come. It has an entry of 4 bytes for
    /// every position, which for the largest frames is more than most machines have; [`Scratch::new`] takes less. A
    /// frame whose width or height passes the limits, which every run refuses, gets only the names.
    pub fn enough(frame: &Frame) -> Scratch {
        let fits = frame.width <= 65_536 && frame.height <= 65_536;
        Scratch::new(if fits { frame.width * frame.height } else { 0 }, MAX_OPCODES)
    }

    /// The scratch, lent.
    pub fn room(&mut self) -> Room<'_> {
        Room { marks: &mut self.marks, names: &mut self.names }
    }
}

/// The window of an image that a run changes, and how it does so. Made by [`Frame::new`] for a whole, tightly packed
/// image; the other numbers are set one by one.
///
/// ```
/// use rolbhunga::Frame;
///
/// // Four columns and two rows at (8, 6) of an image of 64 by 48, rows 16 pixels apart, values from 0 to 1.
/// let frame = Frame::new(4, 2, 3).stride(16).at(8, 6).full(64, 48).period(2).scale(65535.0);
/// assert_eq!(frame.width, 4);
/// ```
#[derive(Debug, Clone, Copy, PartialEq)]
pub struct Frame {
    pub width: usize,
    pub height: usize,
    pub planes: usize,
    pub stride: usize,
    pub x0: usize,
    pub y0: usize,
    pub full_width: usize,
    pub full_height: usize,
    pub period: usize,
    pub scale: f32,
    pub preview: bool,
}

impl Frame {
    /// A whole image of `planes` samples to a pixel, its rows without gaps, period 1 and scale 1, and no preview.
    pub fn new(width: usize, height: usize, planes: usize) -> Frame {
        Frame {
            width,
            height,
            planes,
            stride: width,
            x0: 0,
            y0: 0,
            full_width: width,
            full_height: height,
            period: 1,
            scale: 1.0,
            preview: false,
        }
    }

    /// Rows lie `stride` pixels apart.
    pub fn stride(mut self, stride: usize) -> Frame {
        self.stride = stride;
        self
    }

    /// The window's corner is the image's (x0, y0).
    pub fn at(mut self, x0: usize, y0: usize) -> Frame {
        self.x0 = x0;
        self.y0 = y0;
        self
    }

    /// The image that the list describes has this size.
    pub fn full(mut self, full_width: usize, full_height: usize) -> Frame {
        self.full_width = full_width;
        self.full_height = full_height;
        self
    }

    /// The distance of the neighbours that a repair takes the mean of: 2 for a Bayer image. 0 counts as 1.
    pub fn period(mut self, period: usize) -> Frame {
        self.period = period;
        self
    }

    /// What a sample is multiplied by to reach the list's 16-bit values: 1 for stored values, 65535 for values from 0
    /// to 1.
    pub fn scale(mut self, scale: f32) -> Frame {
        self.scale = scale;
        self
    }

    /// Whether the runs are previews, which leave out the opcodes whose flag bit 1 says that a preview may skip them.
    /// The list is read whole all the same; forms, names, totals and verdict then speak of the opcodes that are left,
    /// and the number in [`Answer::Marks`] still counts the whole list.
    ///
    /// ```
    /// use rolbhunga::{Answer, Frame, Scratch};
    ///
    /// // Two repairs, of 0 and of 10, the second with flags 2: the whole-number form takes one.
    /// let words: [u32; 13] = [2, 4, 0x0103_0000, 0, 8, 0, 0, 4, 0x0103_0000, 2, 8, 10, 0];
    /// let list: Vec<u8> = words.iter().flat_map(|w| w.to_be_bytes()).collect();
    /// let mut samples = [10, 0, 19];
    /// let frame = Frame::new(3, 1, 1);
    /// let mut scratch = Scratch::enough(&frame);
    /// assert_eq!(frame.run_u16(&list, &mut samples, &mut scratch.room()), Answer::NotTaken);
    /// let answer = frame.preview(true).run_u16(&list, &mut samples, &mut scratch.room());
    /// assert_eq!(answer, Answer::Done { names: 0, repaired: 1, left: 0, whole: true });
    /// assert_eq!(samples, [10, 15, 19]);
    /// ```
    pub fn preview(mut self, preview: bool) -> Frame {
        self.preview = preview;
        self
    }

    /// The window of one row of this frame, and a preview where this is one.
    pub fn row(&self) -> Row {
        Row {
            width: self.width,
            planes: self.planes,
            x0: self.x0,
            full_width: self.full_width,
            full_height: self.full_height,
            scale: self.scale,
            preview: self.preview,
        }
    }

    /// The rectangle of `width` columns and `height` rows from this frame's column `x` and row `y` on.
    pub fn tile(&self, x: usize, y: usize, width: usize, height: usize) -> Tile {
        // What saturates is past the limits, and refused by every run.
        Tile {
            frame: Frame { width, height, ..*self }.at(self.x0.saturating_add(x), self.y0.saturating_add(y)),
            start: y.saturating_mul(self.stride).saturating_add(x).saturating_mul(self.planes),
        }
    }

    fn window(&self) -> ffi::Window {
        ffi::Window {
            width: self.width,
            height: self.height,
            planes: self.planes,
            stride: self.stride,
            x0: self.x0,
            y0: self.y0,
            full_width: self.full_width,
            full_height: self.full_height,
        }
    }

    fn settings(&self) -> ffi::Settings {
        ffi::Settings { period: self.period, scale: self.scale, preview: self.preview }
    }

    fn answer(&self, list: &[u8], n: ffi::Numbers) -> Answer {
        Answer::of(n, whole(list, self.full_width, self.full_height, self.preview, n.number))
    }

    /// Runs a list on f32 samples.
    pub fn run_f32(&self, list: &[u8], samples: &mut [f32], room: &mut Room<'_>) -> Answer {
        // Every slice is lent for the call alone, and no two of them overlap.
        self.answer(list, unsafe {
            ffi::rolbhunga_run_f32(
                list.as_ptr(),
                list.len(),
                samples.as_mut_ptr(),
                samples.len(),
                self.window(),
                self.settings(),
                room.marks.as_mut_ptr(),
                room.marks.len(),
                room.names.as_mut_ptr(),
                room.names.len(),
            )
        })
    }

    /// Runs a list on u16 samples. The scale counts as 1.
    pub fn run_u16(&self, list: &[u8], samples: &mut [u16], room: &mut Room<'_>) -> Answer {
        // As for `run_f32`.
        self.answer(list, unsafe {
            ffi::rolbhunga_run_u16(
                list.as_ptr(),
                list.len(),
                samples.as_mut_ptr(),
                samples.len(),
                self.window(),
                self.period,
                self.preview,
                room.marks.as_mut_ptr(),
                room.marks.len(),
                room.names.as_mut_ptr(),
                room.names.len(),
            )
        })
    }

    /// Runs a list on f32 samples that stand in bytes, little-endian. `work` has an entry for each whole sample and
    /// holds only zeros afterwards; bytes left over stay. After a run a NaN is the pattern 7fc00000 hex.
    pub fn bytes_f32(&self, list: &[u8], bytes: &mut [u8], work: &mut [f32], room: &mut Room<'_>) -> Answer {
        // As for `run_f32`.
        self.answer(list, unsafe {
            ffi::rolbhunga_bytes_f32(
                list.as_ptr(),
                list.len(),
                bytes.as_mut_ptr(),
                bytes.len(),
                self.window(),
                self.settings(),
                work.as_mut_ptr(),
                work.len(),
                room.marks.as_mut_ptr(),
                room.marks.len(),
                room.names.as_mut_ptr(),
                room.names.len(),
            )
        })
    }

    /// Runs a list on u16 samples that stand in bytes, little-endian. `work` as for [`Frame::bytes_f32`].
    pub fn bytes_u16(&self, list: &[u8], bytes: &mut [u8], work: &mut [u16], room: &mut Room<'_>) -> Answer {
        // As for `run_f32`.
        self.answer(list, unsafe {
            ffi::rolbhunga_bytes_u16(
                list.as_ptr(),
                list.len(),
                bytes.as_mut_ptr(),
                bytes.len(),
                self.window(),
                self.period,
                self.preview,
                work.as_mut_ptr(),
                work.len(),
                room.marks.as_mut_ptr(),
                room.marks.len(),
                room.names.as_mut_ptr(),
                room.names.len(),
            )
        })
    }
}

/// A rectangle of a frame, as a value: a frame of its own, with its own x0 and y0 and the other's stride, planes,
/// full sizes, period, scale and preview, and where its first sample lies among the other's. [`Frame::tile`] makes it.
///
/// **Tiles give the frame.** Take a list without repairs, as every list of the row form is and every list of tables
/// on u16 samples; a frame inside the limits with a width of at least 1 and a stride of at least its width; samples
/// up to its last pixel at least; and skip buffers with room. Cut the frame into tiles that cover it without overlap,
/// each inside the limits; empty ones may be among them. Run one after another, in any order, each answers 0, and
/// together they leave the samples that the one run of the frame leaves, bit for bit, NaN for NaN. A tile may be lent
/// the samples from its first on up to its last, or anywhere past it; a period and scratch of its own change nothing.
///
/// This is proved of the calls (`law_promises`, `tile-calls`). Bands of whole rows are such a cut (`law_tiles`,
/// `bands-cut`).
///
/// ```
/// use rolbhunga::{Frame, Scratch};
///
/// // One ScalePerColumn over columns 0 to 3: by 2, 3 and 4.
/// let mut words = vec![1, 13, 0x0103_0000, 0, 48, 0, 0, 2, 3, 0, 1, 1, 1, 3];
/// words.extend([2.0f32, 3.0, 4.0].map(f32::to_bits));
/// let list: Vec<u8> = words.iter().flat_map(|w: &u32| w.to_be_bytes()).collect();
///
/// let frame = Frame::new(3, 2, 1);
/// let mut scratch = Scratch::new(0, 0);
/// let (mut whole, mut tiled) = ([1.0; 6], [1.0; 6]);
/// frame.run_f32(&list, &mut whole, &mut scratch.room());
/// for tile in [frame.tile(2, 0, 1, 2), frame.tile(0, 0, 2, 2)] {
///     tile.run_f32(&list, &mut tiled, &mut scratch.room());
/// }
/// assert_eq!(whole, [2.0, 3.0, 4.0, 2.0, 3.0, 4.0]);
/// assert_eq!(whole, tiled);
/// ```
#[derive(Debug, Clone, Copy, PartialEq)]
pub struct Tile {
    pub frame: Frame,
    pub start: usize,
}

impl Tile {
    /// How many samples there are from the tile's first up to its last.
    pub fn span(&self) -> usize {
        let f = &self.frame;
        match (f.width, f.height) {
            (0, _) | (_, 0) => 0,
            (w, h) => (h - 1).saturating_mul(f.stride).saturating_add(w).saturating_mul(f.planes),
        }
    }

    /// Runs a list on the tile, among the frame's f32 samples.
    pub fn run_f32(&self, list: &[u8], samples: &mut [f32], room: &mut Room<'_>) -> Answer {
        let start = self.start.min(samples.len());
        self.frame.run_f32(list, &mut samples[start..], room)
    }

    /// Runs a list on the tile, among the frame's u16 samples.
    pub fn run_u16(&self, list: &[u8], samples: &mut [u16], room: &mut Room<'_>) -> Answer {
        let start = self.start.min(samples.len());
        self.frame.run_u16(list, &mut samples[start..], room)
    }
}

/// The window of one row: [`Frame::row`] makes it. A row has no height, no stride, no y0 and no period of its own.
///
/// ```
/// use rolbhunga::{Frame, RowAnswer};
///
/// let mut row = [1.0, 2.0];
/// let answer = Frame::new(2, 1, 1).row().run(&[0, 0, 0, 0], &mut row, 0);
/// assert_eq!(answer, RowAnswer::Done { skipped: 0 });
/// ```
#[derive(Debug, Clone, Copy, PartialEq)]
pub struct Row {
    pub width: usize,
    pub planes: usize,
    pub x0: usize,
    pub full_width: usize,
    pub full_height: usize,
    pub scale: f32,
    pub preview: bool,
}

impl Row {
    fn window(&self) -> ffi::RowWindow {
        ffi::RowWindow {
            width: self.width,
            planes: self.planes,
            x0: self.x0,
            full_width: self.full_width,
            full_height: self.full_height,
        }
    }

    /// The verdict of a frame whose rows were all run by this list and answered [`RowAnswer::Done`], as
    /// [`Answer::is_whole`] has it; asked once. A malformed list, and a full size past the limits, which every row
    /// refuses, are never whole.
    ///
    /// ```
    /// use rolbhunga::Frame;
    ///
    /// let row = Frame::new(2, 1, 1).row();
    /// assert!(row.is_whole(&[0, 0, 0, 0]));
    /// assert!(!row.is_whole(&[0, 0, 0, 1]));
    /// ```
    pub fn is_whole(&self, list: &[u8]) -> bool {
        whole(list, self.full_width, self.full_height, self.preview, read(list).number())
    }

    /// Runs a list on the image's row `y`, as the f32 run would. `row` has at most width·planes samples.
    pub fn run(&self, list: &[u8], row: &mut [f32], y: usize) -> RowAnswer {
        // Both slices are lent for the call alone.
        RowAnswer::of(unsafe {
            ffi::rolbhunga_run_row(
                list.as_ptr(),
                list.len(),
                row.as_mut_ptr(),
                row.len(),
                self.window(),
                y,
                self.scale,
                self.preview,
            )
        })
    }

    /// The same on samples that stand in bytes, little-endian. `work` as for [`Frame::bytes_f32`].
    pub fn run_bytes(&self, list: &[u8], bytes: &mut [u8], y: usize, work: &mut [f32]) -> RowAnswer {
        // As for `run`.
        RowAnswer::of(unsafe {
            ffi::rolbhunga_bytes_row(
                list.as_ptr(),
                list.len(),
                bytes.as_mut_ptr(),
                bytes.len(),
                self.window(),
                y,
                self.scale,
                self.preview,
                work.as_mut_ptr(),
                work.len(),
            )
        })
    }
}
