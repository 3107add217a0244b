//! The lists inside a DNG file: one file for each answer, in both byte orders.
use rolbhunga::{ffi, find, FindError, Which};

// Two and four bytes in either order.
fn two(big: bool, n: u16) -> [u8; 2] {
    if big { n.to_be_bytes() } else { n.to_le_bytes() }
}

fn four(big: bool, n: u32) -> [u8; 4] {
    if big { n.to_be_bytes() } else { n.to_le_bytes() }
}

fn head(big: bool, first: u32) -> Vec<u8> {
    [if big { b"MM" } else { b"II" }, &two(big, 42)[..], &four(big, first)].concat()
}

// A directory: (tag, type, count, value) for each entry.
fn directory(big: bool, entries: &[(u16, u16, u32, u32)], next: u32) -> Vec<u8> {
    let mut d = two(big, entries.len() as u16).to_vec();
    for (tag, kind, count, value) in entries {
        d.extend([&two(big, *tag)[..], &two(big, *kind), &four(big, *count), &four(big, *value)].concat());
    }
    d.extend(four(big, next));
    d
}

fn in_both_orders(test: impl Fn(bool)) {
    test(true);
    test(false);
}

#[test]
fn a_list_in_the_first_directory() {
    in_both_orders(|big| {
        let mut file = head(big, 8);
        file.extend(directory(big, &[(51008, 7, 6, 38), (51009, 1, 2, 0)], 0));
        file.extend([1, 2, 3, 4, 5, 6]);
        let list = find(&file, Which::List1).unwrap();
        assert_eq!(list, [1, 2, 3, 4, 5, 6]);
        // the caller's own bytes
        assert_eq!(list.as_ptr(), file[38..].as_ptr());
        assert_eq!(find(&file, Which::List2), Ok(&[0, 0][..]));
        assert_eq!(find(&file, Which::List3), Err(FindError::Missing));
        assert_eq!(find(&file[..43], Which::List1), Err(FindError::Outside));
    });
}

#[test]
fn a_list_in_a_subifd_and_behind_a_chain() {
    in_both_orders(|big| {
        let mut file = head(big, 8);
        file.extend(directory(big, &[(330, 13, 1, 26)], 44));
        file.extend(directory(big, &[(51008, 7, 1, 0)], 99_999));
        file.extend(directory(big, &[(51022, 7, 0, 0)], 0));
        assert_eq!(find(&file, Which::List1).map(|l| l.as_ptr()), Ok(file[36..].as_ptr()));
        assert_eq!(find(&file, Which::List3), Ok(&[][..]));
        assert_eq!(find(&file, Which::List2), Err(FindError::Missing));
    });
}

#[test]
fn refusals() {
    assert_eq!(find(&[], Which::List1), Err(FindError::NotTiff));
    assert_eq!(find(b"II\x2a\0\x08\0\0", Which::List1), Err(FindError::NotTiff));
    assert_eq!(find(b"II\x2b\0\x08\0\0\0\0\0\0\0", Which::List1), Err(FindError::NotTiff));
    in_both_orders(|big| {
        assert_eq!(find(&head(big, 0), Which::List1), Err(FindError::Missing));
        assert_eq!(find(&head(big, 8), Which::List1), Err(FindError::Outside));
        let file = [head(big, 8), directory(big, &[], 8)].concat();
        assert_eq!(find(&file, Which::List1), Err(FindError::TooMany));
    });
}

#[test]
fn numbers_and_words() {
    let all = [FindError::NotTiff, FindError::Outside, FindError::TooMany, FindError::Missing];
    assert_eq!(all.map(FindError::number), [30, 31, 32, 33]);
    let e: Box<dyn std::error::Error> = Box::new(FindError::Outside);
    assert_eq!(e.to_string(), "an offset or a size lies outside the file");
}

#[test]
fn a_number_that_asks_for_no_list() {
    let file = head(true, 0);
    for which in [0, 4, u32::MAX] {
        let n = unsafe { ffi::rolbhunga_find(file.as_ptr(), file.len(), which) };
        assert_eq!((n.number, n.start, n.length), (1, 0, 0));
        let n = unsafe { ffi::rolbhunga_find(file.as_ptr(), 0, which) };
        assert_eq!(n.number, 1);
    }
}
