//! The C functions as include/rolbhunga.h has them. A slice crosses as its first element and its length.
//!
//! # Safety
//!
//! Every pointer is not null and aligned, and is valid for as many elements as the length behind it says, through the
//! whole call; what a `*mut` lends overlaps nothing else that is lent. Nothing more is asked: the elements and the
//! numbers may have any values.

#[repr(C)]
#[derive(Clone, Copy)]
pub struct Window {
    pub width: usize,
    pub height: usize,
    pub planes: usize,
    pub stride: usize,
    pub x0: usize,
    pub y0: usize,
    pub full_width: usize,
    pub full_height: usize,
}

#[repr(C)]
#[derive(Clone, Copy)]
pub struct RowWindow {
    pub width: usize,
    pub planes: usize,
    pub x0: usize,
    pub full_width: usize,
    pub full_height: usize,
}

#[repr(C)]
#[derive(Clone, Copy)]
pub struct Settings {
    pub period: usize,
    pub scale: f32,
    pub preview: bool,
}

#[repr(C)]
#[derive(Clone, Copy, Debug, PartialEq, Eq)]
pub struct Numbers {
    pub number: u32,
    pub entry: usize,
    pub offset: usize,
    pub opcode: usize,
    pub names: usize,
    pub repaired: u64,
    pub left: u64,
}

#[repr(C)]
#[derive(Clone, Copy, Debug, PartialEq, Eq)]
pub struct RowNumbers {
    pub number: u32,
    pub entry: usize,
    pub offset: usize,
    pub skipped: usize,
}

#[repr(C)]
#[derive(Clone, Copy, Debug, PartialEq, Eq)]
pub struct FindNumbers {
    pub number: u32,
    pub start: usize,
    pub length: usize,
}

extern "C" {
    pub fn rolbhunga_read(list: *const u8, list_len: usize) -> Numbers;

    pub fn rolbhunga_find(file: *const u8, file_len: usize, which: u32) -> FindNumbers;

    pub fn rolbhunga_run_f32(
        list: *const u8,
        list_len: usize,
        samples: *mut f32,
        samples_len: usize,
        window: Window,
        settings: Settings,
        marks: *mut u32,
        marks_len: usize,
        names: *mut u8,
        names_len: usize,
    ) -> Numbers;

    pub fn rolbhunga_run_u16(
        list: *const u8,
        list_len: usize,
        samples: *mut u16,
        samples_len: usize,
        window: Window,
        period: usize,
        preview: bool,
        marks: *mut u32,
        marks_len: usize,
        names: *mut u8,
        names_len: usize,
    ) -> Numbers;

    pub fn rolbhunga_whole(
        list: *const u8,
        list_len: usize,
        full_width: u32,
        full_height: u32,
        preview: bool,
        number: u32,
    ) -> bool;

    pub fn rolbhunga_run_row(
        list: *const u8,
        list_len: usize,
        row: *mut f32,
        row_len: usize,
        window: RowWindow,
        y: usize,
        scale: f32,
        preview: bool,
    ) -> RowNumbers;

    pub fn rolbhunga_bytes_f32(
        list: *const u8,
        list_len: usize,
        bytes: *mut u8,
        bytes_len: usize,
        window: Window,
        settings: Settings,
        work: *mut f32,
        work_len: usize,
        marks: *mut u32,
        marks_len: usize,
        names: *mut u8,
        names_len: usize,
    ) -> Numbers;

    pub fn rolbhunga_bytes_u16(
        list: *const u8,
        list_len: usize,
        bytes: *mut u8,
        bytes_len: usize,
        window: Window,
        period: usize,
        preview: bool,
        work: *mut u16,
        work_len: usize,
        marks: *mut u32,
        marks_len: usize,
        names: *mut u8,
        names_len: usize,
    ) -> Numbers;

    pub fn rolbhunga_bytes_row(
        list: *const u8,
        list_len: usize,
        bytes: *mut u8,
        bytes_len: usize,
        window: RowWindow,
        y: usize,
        scale: f32,
        preview: bool,
        work: *mut f32,
        work_len: usize,
    ) -> RowNumbers;
}
