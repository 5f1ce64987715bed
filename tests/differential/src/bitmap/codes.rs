//! Makes bitmap data: single codes, good bitmaps of random codes, pictures.

use crate::prng::Prng;

/// The largest length of a short and of a long run.
pub const SHORT: u16 = 63;
pub const LONG: u16 = 16_383;

/// One code of the run-length code.
#[derive(Clone, Copy)]
pub enum Code {
    /// One pixel of a colour that is not 0.
    Pixel(u8),
    Zeros(u16),
    LongZeros(u16),
    Run(u16, u8),
    LongRun(u16, u8),
    EndOfLine,
}

impl Code {
    pub fn put(self, data: &mut Vec<u8>) {
        let low = |length: u16| length as u8;
        let high = |length: u16| (length >> 8) as u8;
        match self {
            Code::Pixel(color) => data.push(color),
            Code::Zeros(length) => data.extend([0, low(length)]),
            Code::LongZeros(length) => data.extend([0, 0x40 | high(length), low(length)]),
            Code::Run(length, color) => data.extend([0, 0x80 | low(length), color]),
            Code::LongRun(length, color) => data.extend([0, 0xC0 | high(length), low(length), color]),
            Code::EndOfLine => data.extend([0, 0]),
        }
    }
}

pub fn bytes_of(codes: &[Code]) -> Vec<u8> {
    let mut data = Vec::new();
    for code in codes {
        code.put(&mut data);
    }
    data
}

/// Where each line of a bitmap's data starts: after each end of line but the one at the end.
pub fn line_starts(data: &[u8]) -> Vec<usize> {
    let mut starts = vec![0];
    let mut at = 0;
    while at + 2 < data.len() {
        let ended = data[at..].starts_with(&[0, 0]);
        at += match (data[at], data[at + 1]) {
            (0, 0x40..=0xBF) => 3,
            (0, 0xC0..) => 4,
            (0, _) => 2,
            _ => 1,
        };
        if ended {
            starts.push(at);
        }
    }
    starts
}

/// Every kind of run of one length and colour. A pixel is a run of 1; a short run of zeros has 1 at least.
pub fn runs(length: u16, color: u8) -> Vec<Code> {
    let mut runs = vec![Code::LongZeros(length), Code::LongRun(length, color)];
    if length <= SHORT {
        runs.push(Code::Run(length, color));
    }
    if (1..=SHORT).contains(&length) {
        runs.push(Code::Zeros(length));
    }
    if length == 1 && color != 0 {
        runs.push(Code::Pixel(color));
    }
    runs
}

fn color(p: &mut Prng) -> u8 {
    let any = p.byte();
    p.pick(&[0, 1, 2, 7, 0x40, 0x80, 0xC0, 0xFF, any])
}

/// A code of length 0.
pub fn empty_run(p: &mut Prng) -> Code {
    let color = color(p);
    p.pick(&[Code::LongZeros(0), Code::Run(0, color), Code::LongRun(0, color)])
}

/// Some run of up to `most` pixels, 1 at least, and its length.
pub fn some_run(p: &mut Prng, most: u16) -> (Code, u16) {
    let most = most.min(LONG);
    let length = match p.below(6) {
        0 => most,
        1 => most.min(p.between(SHORT as usize - 1, SHORT as usize + 2) as u16),
        2 => p.between(1, most as usize) as u16,
        _ => p.between(1, most.min(5) as usize) as u16,
    };
    let color = color(p);
    (p.pick(&runs(length, color)), length)
}

/// Data of a bitmap of these dimensions that is accepted: any runs, with codes of length 0 between them.
pub fn good_data(p: &mut Prng, width: u16, height: u16) -> Vec<u8> {
    let mut data = Vec::new();
    let empty_runs = p.once_in(3);
    for line in 1..=height {
        let mut left = width;
        while left > 0 {
            let (code, length) = some_run(p, left);
            code.put(&mut data);
            left -= length;
            if empty_runs && p.once_in(4) {
                empty_run(p).put(&mut data);
            }
        }
        if line < height || width == 0 || p.once_in(2) {
            Code::EndOfLine.put(&mut data);
        }
    }
    while empty_runs && p.once_in(2) {
        empty_run(p).put(&mut data);
    }
    data
}

/// Any codes, whatever they make.
pub fn any_codes(p: &mut Prng) -> Vec<u8> {
    let mut data = Vec::new();
    for _ in 0..p.between(0, 12) {
        let code = match p.below(5) {
            0 => Code::EndOfLine,
            1 => empty_run(p),
            _ => some_run(p, 4).0,
        };
        code.put(&mut data);
    }
    data
}

/// The shortest codes for a picture, as a drawing program writes them, every line ended.
pub fn encoded(pixels: &[u8], width: usize) -> Vec<u8> {
    let mut data = Vec::new();
    for line in pixels.chunks(width) {
        for run in line.chunk_by(|a, b| a == b) {
            for part in run.chunks(LONG as usize) {
                shortest(part.len() as u16, part[0], &mut data);
            }
        }
        Code::EndOfLine.put(&mut data);
    }
    data
}

fn shortest(length: u16, color: u8, data: &mut Vec<u8>) {
    match (color, length) {
        (0, 1..=SHORT) => Code::Zeros(length).put(data),
        (0, _) => Code::LongZeros(length).put(data),
        (_, 1..=2) => data.extend(vec![color; length as usize]),
        (_, 3..=SHORT) => Code::Run(length, color).put(data),
        _ => Code::LongRun(length, color).put(data),
    }
}

/// Lines of letters: strokes of one colour with softer edges, on an empty ground.
pub fn text_like(p: &mut Prng, width: usize, height: usize) -> Vec<u8> {
    let mut pixels = vec![0; width * height];
    for top in (40..height.saturating_sub(60)).step_by(90) {
        for left in (width / 8..width * 7 / 8).step_by(36) {
            if !p.once_in(6) {
                letter(p, &mut pixels[top * width + left..], width);
            }
        }
    }
    pixels
}

/// A few upright strokes and bars in a cell of 30 by 48.
fn letter(p: &mut Prng, pixels: &mut [u8], width: usize) {
    for _ in 0..p.between(2, 4) {
        let (x, y) = (p.between(1, 20), p.between(0, 24));
        let (w, h) = if p.once_in(2) { (p.between(3, 7), 24) } else { (p.between(6, 9), p.between(3, 6)) };
        for row in y..y + h {
            pixels[row * width + x - 1] = 2;
            pixels[row * width + x..][..w].fill(1);
            pixels[row * width + x + w] = 3;
        }
    }
}

/// Every pixel of its own.
pub fn noisy(p: &mut Prng, width: usize, height: usize) -> Vec<u8> {
    p.bytes(width * height)
}
