//! The opcode lists inside a DNG file.
use crate::ffi;
use std::error::Error;
use std::fmt;

/// Which list is asked for.
#[derive(Debug, Clone, Copy, PartialEq, Eq)]
pub enum Which {
    /// OpcodeList1, tag 51008, for the stored samples.
    List1,
    /// OpcodeList2, tag 51009, for the linear samples.
    List2,
    /// OpcodeList3, tag 51022, for the demosaiced samples.
    List3,
}

impl Which {
    /// All three, in order.
    pub const ALL: [Which; 3] = [Which::List1, Which::List2, Which::List3];

    fn number(self) -> u32 {
        match self {
            Which::List1 => 1,
            Which::List2 => 2,
            Which::List3 => 3,
        }
    }
}

/// Why a list was not found.
#[derive(Debug, Clone, Copy, PartialEq, Eq)]
pub enum FindError {
    /// 30: the file does not start as TIFF does.
    NotTiff,
    /// 31: an offset or a size lies outside the file.
    Outside,
    /// 32: more than 64 directories.
    TooMany,
    /// 33: no such list in the file.
    Missing,
}

impl FindError {
    /// Document 02's number of the refusal.
    pub fn number(self) -> u32 {
        match self {
            FindError::NotTiff => 30,
            FindError::Outside => 31,
            FindError::TooMany => 32,
            FindError::Missing => 33,
        }
    }
}

impl fmt::Display for FindError {
    fn fmt(&self, f: &mut fmt::Formatter<'_>) -> fmt::Result {
        f.write_str(match self {
            FindError::NotTiff => "not a TIFF file",
            FindError::Outside => "an offset or a size lies outside the file",
            FindError::TooMany => "more than 64 directories",
            FindError::Missing => "no such list in the file",
        })
    }
}

impl Error for FindError {}

/// Finds a list in a DNG file, of whatever bytes: the first one in the order of the directories, as a part of the file.
///
/// ```
/// use rolbhunga::{find, FindError, Which};
///
/// // MM, 42, a directory at 8 with one entry: OpcodeList1, type 7, four bytes, which stand in the entry itself.
/// let file = [77, 77, 0, 42, 0, 0, 0, 8, 0, 1, 199, 64, 0, 7, 0, 0, 0, 4, 0, 0, 0, 0, 0, 0, 0, 0];
/// assert_eq!(find(&file, Which::List1), Ok(&[0, 0, 0, 0][..]));
/// assert_eq!(find(&file, Which::List2), Err(FindError::Missing));
/// ```
pub fn find(file: &[u8], which: Which) -> Result<&[u8], FindError> {
    // The file is lent for the call alone.
    let n = unsafe { ffi::rolbhunga_find(file.as_ptr(), file.len(), which.number()) };
    match n.number {
        0 => Ok(&file[n.start..n.start + n.length]),
        30 => Err(FindError::NotTiff),
        31 => Err(FindError::Outside),
        32 => Err(FindError::TooMany),
        33 => Err(FindError::Missing),
        other => unreachable!("no answer to a search has the number {other}"),
    }
}
