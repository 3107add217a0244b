// What `Calib::norm` and `normalize` of process.rs need of their crate, whose other files are not at hand: an image,
// its calibration as it is given, and the function of par.rs as it is without threads. compare/tools puts the text of
// the struct `Calib` and of the two functions behind this, as it stands in the published file.
pub enum PixelData {
    U16(Vec<u16>),
    F32(Vec<f32>),
}

impl PixelData {
    fn len(&self) -> usize {
        match self {
            PixelData::U16(d) => d.len(),
            PixelData::F32(d) => d.len(),
        }
    }
}

pub struct RawImage {
    pub width: u32,
    pub cpp: u8,
    pub data: PixelData,
}

impl RawImage {
    #[inline(always)]
    fn sample(&self, x: u32, y: u32, c: u32) -> f32 {
        let i = (y as usize * self.width as usize + x as usize) * self.cpp as usize + c as usize;
        match &self.data {
            PixelData::U16(d) => d[i] as f32,
            PixelData::F32(d) => d[i],
        }
    }
}

// The tables and deltas of each plane.
pub struct FrameInfo {
    pub pw: usize,
    pub ph: usize,
    pub black: Vec<Vec<f32>>,
    pub scale: Vec<Vec<f32>>,
    pub row_deltas: Vec<f32>,
    pub col_deltas: Vec<f32>,
}

impl Calib {
    fn new(info: &FrameInfo, c: usize) -> Self {
        Calib {
            pw: info.pw,
            ph: info.ph,
            black: info.black[c].clone(),
            scale: info.scale[c].clone(),
            row_deltas: info.row_deltas.clone(),
            col_deltas: info.col_deltas.clone(),
        }
    }
}

mod par {
    type Chunk<'a, T> = &'a mut [T];

    pub fn for_each_row_chunk<T>(data: Chunk<T>, row_len: usize, rows: usize, _: bool, f: impl Fn(usize, Chunk<T>)) {
        if row_len == 0 || data.is_empty() {
            return;
        }
        for (i, c) in data.chunks_mut(row_len * rows.max(1)).enumerate() {
            f(i * rows.max(1), c);
        }
    }
}
