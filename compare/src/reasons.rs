// Why a list is refused, and at which byte: document 02, M-100, with document 01's layouts, read once more, apart from
// the definitions and from the library. A reader goes from field to field; a field that is not whole is an error at
// its first byte.

#[derive(Debug, Clone, Copy, PartialEq, Eq)]
pub struct Refusal {
    pub number: u32,
    // the entries read whole before
    pub entry: usize,
    pub offset: usize,
}

// What a field is refused with: the number, and the offset from the list's first byte.
type Field<T> = Result<T, (u32, usize)>;

// The bytes of a list from `at` up to `end`; a field that would pass `end` is refused with `cut`.
struct Reader<'a> {
    list: &'a [u8],
    at: usize,
    end: usize,
    cut: u32,
}

impl Reader<'_> {
    fn left(&self) -> usize {
        self.end - self.at
    }

    // Where a field of so many bytes starts.
    fn field(&mut self, size: usize) -> Field<usize> {
        if self.left() < size {
            return Err((self.cut, self.at));
        }
        self.at += size;
        Ok(self.at - size)
    }

    // A u32, and where it stands.
    fn word(&mut self) -> Field<(u32, usize)> {
        let at = self.field(4)?;
        let b = &self.list[at..at + 4];
        Ok((u32::from_be_bytes([b[0], b[1], b[2], b[3]]), at))
    }

    fn words(&mut self, n: usize) -> Field<()> {
        (0..n).try_for_each(|_| self.word().map(|_| ()))
    }

    fn doubles(&mut self, n: usize) -> Field<()> {
        (0..n).try_for_each(|_| self.field(8).map(|_| ()))
    }
}

const COUNT: u32 = 24;
const DEGREE: u32 = 25;
const MOST: u128 = 16_777_216;

// `n` elements of `size` bytes behind the last field; `at` is where the count stands, the first of several.
fn counted(r: &Reader, n: u128, size: u128, at: usize) -> Field<()> {
    if n > MOST || n * size > r.left() as u128 {
        return Err((COUNT, at));
    }
    Ok(())
}

fn body(r: &mut Reader, id: u32) -> Field<()> {
    match id {
        3 => r.doubles(7),
        4 => r.words(2),
        5 => {
            r.words(1)?;
            let (np, at) = r.word()?;
            let (nr, _) = r.word()?;
            if 8 * np as u128 + 16 * nr as u128 > r.left() as u128 {
                return Err((COUNT, at));
            }
            Ok(())
        }
        6 => r.words(4),
        7 | 10..=13 => {
            r.words(8)?;
            let (n, at) = r.word()?;
            counted(r, n as u128, if id == 7 { 2 } else { 4 }, at)
        }
        8 => {
            r.words(8)?;
            let (degree, at) = r.word()?;
            if degree > 8 {
                return Err((DEGREE, at));
            }
            counted(r, degree as u128 + 1, 8, at)
        }
        9 => {
            r.words(8)?;
            let (v, at) = r.word()?;
            let (h, _) = r.word()?;
            r.doubles(4)?;
            let (planes, _) = r.word()?;
            let gains = v as u128 * h as u128 * planes.max(1) as u128;
            if gains == 0 {
                return Err((COUNT, at));
            }
            counted(r, gains, 4, at)
        }
        // a warp's body is never refused, and no other is read
        _ => Ok(()),
    }
}

fn entry(r: &mut Reader) -> Field<()> {
    let (id, _) = r.word()?;
    r.words(2)?;
    let (len, at) = r.word()?;
    if len as usize > r.left() {
        return Err((22, at));
    }
    let start = r.field(len as usize)?;
    body(&mut Reader { list: r.list, at: start, end: r.at, cut: 23 }, id)
}

pub fn read(list: &[u8]) -> Option<Refusal> {
    let mut r = Reader { list, at: 0, end: list.len(), cut: 20 };
    let refused = |entry, (number, offset)| Some(Refusal { number, entry, offset });
    let n = match r.word() {
        Ok((n, at)) if n > 4096 => return refused(0, (21, at)),
        Ok((n, _)) => n as usize,
        Err(e) => return refused(0, e),
    };
    for k in 0..n {
        if let Err(e) = entry(&mut r) {
            return refused(k, e);
        }
    }
    None
}
