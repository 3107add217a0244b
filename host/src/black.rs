//! Black level before list 2: from each sample the black of its image position is taken, and the rest is scaled.
//!
//! Sample v of plane k at image row y and image column x becomes (v − black)·scale, at least 0; a NaN becomes 0, and a
//! zero is +0. Black is the entry of the pattern, plus the row's delta, plus the column's, each sum rounded to f32. A
//! part of a frame, with its own `x0` and `y0`, becomes what it becomes in the frame, so bands may go to threads.
//!
//! ```
//! use rolbhunga::black::{Black, Field, Levels};
//!
//! // Four pixels of a Bayer image, its black 256 but for one colour; white lies 4096 above.
//! let black = [256.0, 256.0, 256.0, 128.0];
//! let scale = [1.0 / 4096.0; 4];
//! let levels = Levels::new(2, 2, &black, &scale);
//! let mut out = [0.0; 4];
//! assert_eq!(Field::new(2, 2, 1).from_u16(&[4352, 256, 100, 2176], &mut out, &levels), Black::Done);
//! assert_eq!(out, [1.0, 0.0, 0.0, 0.5]);
//! ```
use crate::WORK;

/// What a call answers. On all but `Done` the output is as it was; what stands behind the frame's samples always is.
#[derive(Debug, Clone, Copy, PartialEq, Eq)]
pub enum Black {
    /// 0: done.
    Done,
    /// 1: a number of the field is out of its range.
    Range,
    /// 60: the pattern's height or width is 0, or a table is too short.
    Tables,
    /// 61: input or output has fewer samples than the field.
    Samples,
    /// 100, of the forms over bytes alone: a room has fewer entries than the field has samples.
    Work,
}

impl Black {
    /// Document 02's number of the answer.
    pub fn number(self) -> u32 {
        match self {
            Black::Done => 0,
            Black::Range => 1,
            Black::Tables => 60,
            Black::Samples => 61,
            Black::Work => WORK,
        }
    }

    fn of(number: u32) -> Black {
        match number {
            0 => Black::Done,
            1 => Black::Range,
            60 => Black::Tables,
            61 => Black::Samples,
            WORK => Black::Work,
            other => unreachable!("no answer has the number {other}"),
        }
    }
}

/// The tables of black and of scale, and the deltas. The pattern starts at the image's corner and repeats.
#[derive(Debug, Clone, Copy, PartialEq)]
pub struct Levels<'a> {
    pub height: usize,
    pub width: usize,
    /// A table for each plane, one behind another, each row after row.
    pub blacks: &'a [f32],
    pub scales: &'a [f32],
    /// A delta for each image row; an empty list adds nothing, a missing entry 0.
    pub rows: &'a [f32],
    /// A delta for each image column.
    pub columns: &'a [f32],
}

impl<'a> Levels<'a> {
    /// A pattern of `height` lines and `width` columns, with no deltas.
    pub fn new(height: usize, width: usize, blacks: &'a [f32], scales: &'a [f32]) -> Levels<'a> {
        Levels { height, width, blacks, scales, rows: &[], columns: &[] }
    }

    /// The deltas of image rows and of image columns.
    pub fn deltas(mut self, rows: &'a [f32], columns: &'a [f32]) -> Levels<'a> {
        self.rows = rows;
        self.columns = columns;
        self
    }

    fn pattern(&self) -> ffi::Pattern {
        ffi::Pattern { height: self.height, width: self.width }
    }
}

/// The frame, its rows without gaps.
#[derive(Debug, Clone, Copy, PartialEq, Eq)]
pub struct Field {
    pub width: usize,
    pub height: usize,
    pub planes: usize,
    pub x0: usize,
    pub y0: usize,
}

impl Field {
    /// `width` by `height` pixels of `planes` samples, from the image's corner on.
    pub fn new(width: usize, height: usize, planes: usize) -> Field {
        Field { width, height, planes, x0: 0, y0: 0 }
    }

    /// The field's corner is the image's (x0, y0).
    pub fn at(mut self, x0: usize, y0: usize) -> Field {
        self.x0 = x0;
        self.y0 = y0;
        self
    }

    fn field(&self) -> ffi::Field {
        ffi::Field { width: self.width, height: self.height, planes: self.planes, x0: self.x0, y0: self.y0 }
    }

    /// From f32 samples.
    pub fn from_f32(&self, input: &[f32], out: &mut [f32], l: &Levels<'_>) -> Black {
        // Every slice is lent for the call alone, and what is written overlaps nothing.
        Black::of(unsafe {
            ffi::rolbhunga_black_f32(
                input.as_ptr(),
                input.len(),
                out.as_mut_ptr(),
                out.len(),
                self.field(),
                l.pattern(),
                l.blacks.as_ptr(),
                l.blacks.len(),
                l.scales.as_ptr(),
                l.scales.len(),
                l.rows.as_ptr(),
                l.rows.len(),
                l.columns.as_ptr(),
                l.columns.len(),
            )
        })
    }

    /// From u16 samples, widened.
    pub fn from_u16(&self, input: &[u16], out: &mut [f32], l: &Levels<'_>) -> Black {
        // As for `from_f32`.
        Black::of(unsafe {
            ffi::rolbhunga_black_u16(
                input.as_ptr(),
                input.len(),
                out.as_mut_ptr(),
                out.len(),
                self.field(),
                l.pattern(),
                l.blacks.as_ptr(),
                l.blacks.len(),
                l.scales.as_ptr(),
                l.scales.len(),
                l.rows.as_ptr(),
                l.rows.len(),
                l.columns.as_ptr(),
                l.columns.len(),
            )
        })
    }

    /// From f32 samples in bytes into f32 samples in bytes, both little-endian. Each room has an entry for each of the
    /// field's samples, and holds only zeros afterwards.
    pub fn bytes_from_f32(
        &self,
        input: &[u8],
        out: &mut [u8],
        l: &Levels<'_>,
        work: &mut [f32],
        made: &mut [f32],
    ) -> Black {
        // As for `from_f32`.
        Black::of(unsafe {
            ffi::rolbhunga_bytes_black_f32(
                input.as_ptr(),
                input.len(),
                out.as_mut_ptr(),
                out.len(),
                self.field(),
                l.pattern(),
                l.blacks.as_ptr(),
                l.blacks.len(),
                l.scales.as_ptr(),
                l.scales.len(),
                l.rows.as_ptr(),
                l.rows.len(),
                l.columns.as_ptr(),
                l.columns.len(),
                work.as_mut_ptr(),
                work.len(),
                made.as_mut_ptr(),
                made.len(),
            )
        })
    }

    /// The same from u16 samples in bytes.
    pub fn bytes_from_u16(
        &self,
        input: &[u8],
        out: &mut [u8],
        l: &Levels<'_>,
        work: &mut [u16],
        made: &mut [f32],
    ) -> Black {
        // As for `from_f32`.
        Black::of(unsafe {
            ffi::rolbhunga_bytes_black_u16(
                input.as_ptr(),
                input.len(),
                out.as_mut_ptr(),
                out.len(),
                self.field(),
                l.pattern(),
                l.blacks.as_ptr(),
                l.blacks.len(),
                l.scales.as_ptr(),
                l.scales.len(),
                l.rows.as_ptr(),
                l.rows.len(),
                l.columns.as_ptr(),
                l.columns.len(),
                work.as_mut_ptr(),
                work.len(),
                made.as_mut_ptr(),
                made.len(),
            )
        })
    }
}

/// The C functions. What [`crate::ffi`] asks of pointers is asked here.
pub mod ffi {
    #[repr(C)]
    #[derive(Clone, Copy)]
    pub struct Field {
        pub width: usize,
        pub height: usize,
        pub planes: usize,
        pub x0: usize,
        pub y0: usize,
    }

    #[repr(C)]
    #[derive(Clone, Copy)]
    pub struct Pattern {
        pub height: usize,
        pub width: usize,
    }

    extern "C" {
        pub fn rolbhunga_black_f32(
            input: *const f32,
            input_len: usize,
            out: *mut f32,
            out_len: usize,
            field: Field,
            pattern: Pattern,
            blacks: *const f32,
            blacks_len: usize,
            scales: *const f32,
            scales_len: usize,
            rows: *const f32,
            rows_len: usize,
            columns: *const f32,
            columns_len: usize,
        ) -> u32;

        pub fn rolbhunga_black_u16(
            input: *const u16,
            input_len: usize,
            out: *mut f32,
            out_len: usize,
            field: Field,
            pattern: Pattern,
            blacks: *const f32,
            blacks_len: usize,
            scales: *const f32,
            scales_len: usize,
            rows: *const f32,
            rows_len: usize,
            columns: *const f32,
            columns_len: usize,
        ) -> u32;

        pub fn rolbhunga_bytes_black_f32(
            input: *const u8,
            input_len: usize,
            out: *mut u8,
            out_len: usize,
            field: Field,
            pattern: Pattern,
            blacks: *const f32,
            blacks_len: usize,
            scales: *const f32,
            scales_len: usize,
            rows: *const f32,
            rows_len: usize,
            columns: *const f32,
            columns_len: usize,
            work: *mut f32,
            work_len: usize,
            made: *mut f32,
            made_len: usize,
        ) -> u32;

        pub fn rolbhunga_bytes_black_u16(
            input: *const u8,
            input_len: usize,
            out: *mut u8,
            out_len: usize,
            field: Field,
            pattern: Pattern,
            blacks: *const f32,
            blacks_len: usize,
            scales: *const f32,
            scales_len: usize,
            rows: *const f32,
            rows_len: usize,
            columns: *const f32,
            columns_len: usize,
            work: *mut u16,
            work_len: usize,
            made: *mut f32,
            made_len: usize,
        ) -> u32;
    }
}
