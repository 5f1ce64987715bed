//! An hour of captions, made as an author makes them: letters and accents that are drawn once and placed one by one.

use crate::bitmap::codes::{encoded, text_like};
use crate::generate::{segment, END, ODS, PCS, PDS, WDS};
use crate::prng::Prng;

/// The sets of an hour: one every three seconds.
pub const HOUR: usize = 1_200;
/// The letters and accents that are drawn, and their pixels.
const LETTERS: usize = 80;
const ACCENTS: usize = 8;
const LETTER: (u8, u8) = (48, 110);
const ACCENT: (u8, u8) = (30, 24);

/// One drawn sign: its dimensions and its data.
struct Sign {
    size: (u8, u8),
    data: Vec<u8>,
}

fn letter(p: &mut Prng) -> Sign {
    let pixels = text_like(p, LETTER.0 as usize, LETTER.1 as usize);
    Sign { size: LETTER, data: encoded(&pixels, LETTER.0 as usize) }
}

/// A slope of a few colours.
fn accent(p: &mut Prng) -> Sign {
    let (width, height) = (ACCENT.0 as usize, ACCENT.1 as usize);
    let (thick, slant) = (p.between(3, 8), p.below(2));
    let color = |i: usize| {
        let (x, y) = (i % width, i / width);
        let edge = if slant == 0 { y } else { height - y };
        if (edge..edge + thick).contains(&x) {
            1 + (x - edge) as u8 % 3
        } else {
            0
        }
    };
    let pixels: Vec<u8> = (0..width * height).map(color).collect();
    Sign { size: ACCENT, data: encoded(&pixels, width) }
}

/// A stream of as many sets.
pub fn captions(p: &mut Prng, sets: usize) -> Vec<u8> {
    let mut font: Vec<Sign> = (0..LETTERS).map(|_| letter(p)).collect();
    font.extend((0..ACCENTS).map(|_| accent(p)));
    let mut stream = Vec::new();
    for set in 0..sets {
        caption(p, &font, set as u32 * 270_000, &mut stream);
    }
    stream
}

/// One set: 20 to 60 placements of up to 30 letters and accents. Now and then a tail stands after the placements.
fn caption(p: &mut Prng, font: &[Sign], pts: u32, stream: &mut Vec<u8>) {
    let letters = p.between(10, 26);
    let mut signs: Vec<usize> = (0..letters).map(|_| p.below(LETTERS)).collect();
    signs.extend((0..p.between(1, 4)).map(|_| LETTERS + p.below(ACCENTS)));
    let placements = p.between(20, 60);
    let mut pcs = vec![7, 0x80, 4, 0x38, 0x10, 0, 1, 0x80, 0, 0, placements as u8];
    let mut x = 40;
    for number in 0..placements {
        // an accent stands above the letter before it
        let accent = number > 0 && p.once_in(6);
        let id = if accent { p.between(letters, signs.len() - 1) } else { number % letters };
        x += if accent { 0 } else { 30 };
        let y = if accent { 740 } else { 768 };
        let [id, x, y] = [id as u16, x, y].map(u16::to_be_bytes);
        pcs.extend([id, [0, 0], x, y].concat());
    }
    if p.once_in(10) {
        pcs.extend(p.bytes(8));
    }
    stream.extend(segment(PCS, pts, 0, &pcs));
    stream.extend(segment(WDS, pts, 0, &[1, 0, 0, 0, 0, 0, 7, 0x80, 4, 0x38]));
    let entries: Vec<u8> = (0..16).flat_map(|id| [id, 16 + 14 * id, 128, 128, 255]).collect();
    stream.extend(segment(PDS, pts, 0, &[&[0, 0], &entries[..]].concat()));
    objects(p, font, &signs, pts, stream);
    stream.extend(segment(END, pts, 0, &[]));
}

/// The objects of a set. Every eighth comes in two fragments, the second of them after those of some other objects.
fn objects(p: &mut Prng, font: &[Sign], signs: &[usize], pts: u32, stream: &mut Vec<u8>) {
    let mut waiting = Vec::new();
    for (id, sign) in signs.iter().enumerate() {
        let Sign { size: (width, height), data } = &font[*sign];
        let [high, low] = (id as u16).to_be_bytes();
        let declared = (data.len() as u32 + 4).to_be_bytes();
        let first = |flag: u8, data: &[u8]| {
            let head = [high, low, 0, flag, declared[1], declared[2], declared[3], 0, *width, 0, *height];
            segment(ODS, pts, 0, &[&head[..], data].concat())
        };
        if id % 8 == 7 {
            let (front, rest) = data.split_at(data.len() / 2);
            stream.extend(first(0x80, front));
            waiting.push(segment(ODS, pts, 0, &[&[high, low, 0, 0x40, 0, 0, 0][..], rest].concat()));
        } else {
            stream.extend(first(0xC0, data));
        }
        if p.once_in(3) {
            waiting.drain(..).for_each(|fragment| stream.extend(fragment));
        }
    }
    waiting.into_iter().for_each(|fragment| stream.extend(fragment));
}
