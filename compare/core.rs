// What dng_opcodes.rs needs of the crate flashraw_core besides its file bytes.rs: an error type, a Result, and the
// functions of par.rs as they are without threads (the file itself asks for a newer edition). compare/tools puts the
// path of bytes.rs in front of this: `#[path = ..] pub mod bytes;`.
pub use bytes::ByteOrder;

#[derive(Debug)]
pub struct Error;

impl Error {
    pub fn corrupt(_: impl Into<String>) -> Error {
        Error
    }

    pub fn corrupt_at(_: impl Into<String>, _: u64) -> Error {
        Error
    }
}

pub type Result<T> = std::result::Result<T, Error>;

pub mod par {
    pub fn for_each_row_chunk<T>(data: &mut [T], row_len: usize, rows: usize, _parallel: bool, f: impl Fn(usize, &mut [T])) {
        if row_len == 0 || data.is_empty() {
            return;
        }
        for (i, c) in data.chunks_mut(row_len * rows.max(1)).enumerate() {
            f(i * rows.max(1), c);
        }
    }

    pub fn map<I, O>(items: Vec<I>, _parallel: bool, f: impl Fn(I) -> O) -> Vec<O> {
        items.into_iter().map(f).collect()
    }
}
