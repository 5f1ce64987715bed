//! The inputs of the layer: short data exhaustively, every length of a run, the limits, random and damaged data.

use super::check;
use super::codes::*;
use crate::generate::damaged;
use crate::prng::Prng;
use crate::run::{Group, Run};
use crate::shrink::Form;
use std::ops::Range;

pub fn groups() -> Vec<Group> {
    let group = |name, inputs| Group { name, inputs };
    vec![
        group("every data of up to 3 bytes, 0 to 3 by 0 to 3", every_short_data),
        group(
            "every data of 4 bytes out of 24, 5 out of 12, 6 out of 8, 0 to 3 by 0 to 3",
            every_telling_data,
        ),
        group("every run of every kind, at widths around its length", every_run),
        group("pairs of runs of telling lengths", pairs_of_runs),
        group("little data, dimensions up to 65,535", little_data),
        group("lines of up to 65,535 pixels, up to 65,535 lines", largest),
        group("good bitmaps", good_bitmaps),
        group("good data at other dimensions", other_dimensions),
        group("damaged bitmaps", damaged_bitmaps),
        group("any codes in small bitmaps", random_codes),
        group("1920 by 1080: text, noise, and damaged copies", pictures),
    ]
}

fn bitmap(run: &mut Run, width: u16, height: u16, data: &[u8]) {
    let [a, b] = width.to_be_bytes();
    let [c, d] = height.to_be_bytes();
    compare(run, &[&[a, b, c, d], data].concat());
}

fn compare(run: &mut Run, input: &[u8]) {
    run.compare(Form::Bitmap, "bitmap", input, check);
}

/// The longest group by far: its halves are compared side by side.
fn every_short_data(run: &mut Run) {
    if run.recorder.is_some() {
        return short_data_at(run, &(0..4));
    }
    run.compare_parts(&[0..2, 2..4], short_data_at);
}

fn short_data_at(run: &mut Run, widths: &Range<u8>) {
    let all: Vec<u8> = (0..=255).collect();
    for len in 0..=3 {
        every_data(run, len, &all, widths);
    }
}

/// Bytes at which something changes: 00, runs of 0 to 4 pixels of each kind, the largest of each kind.
const TELLING: [u8; 24] = [
    0x00, 0x01, 0x40, 0x80, 0xC0, 0x02, 0x81, 0x03, 0x41, 0x42, 0x82, 0x83, 0x04, 0x05, 0x3F, 0x43, 0x7F,
    0x84, 0xBF, 0xC1, 0xC2, 0xC3, 0xFE, 0xFF,
];

fn every_telling_data(run: &mut Run) {
    every_data(run, 4, &TELLING, &(0..4));
    every_data(run, 5, &TELLING[..12], &(0..4));
    every_data(run, 6, &TELLING[..8], &(0..4));
}

/// Every data of `len` bytes of an alphabet, at these widths and heights of 0 to 3.
fn every_data(run: &mut Run, len: usize, alphabet: &[u8], widths: &Range<u8>) {
    for (width, height) in widths.clone().flat_map(|w| (0..4).map(move |h| (w, h))) {
        let mut letters = vec![0; len];
        let mut input = vec![0, width, 0, height];
        input.resize(4 + len, alphabet[0]);
        loop {
            compare(run, &input);
            let Some(at) = letters.iter().rposition(|letter| letter + 1 < alphabet.len()) else { break };
            letters[at] += 1;
            letters[at + 1..].fill(0);
            for i in at..len {
                input[4 + i] = alphabet[letters[i]];
            }
        }
    }
}

/// Alone, and before the end of the line.
fn every_run(run: &mut Run) {
    for length in 0..=LONG {
        for code in runs(length, 1 + (length % 255) as u8) {
            for width in [length.saturating_sub(1), length, length + 1] {
                bitmap(run, width, 1, &bytes_of(&[code]));
                bitmap(run, width, 1, &bytes_of(&[code, Code::EndOfLine]));
            }
        }
    }
}

fn pairs_of_runs(run: &mut Run) {
    let lengths = [0, 1, 2, 7, 8, 9, 62, 63, 64, 65, 127, 128, 255, 256, 257, 512, 16_382, 16_383];
    for first in lengths {
        for second in lengths {
            for a in runs(first, 0x40) {
                for b in runs(second, 0x00) {
                    two_runs(run, first, second, a, b);
                }
            }
        }
    }
}

/// On one line that is as long, shorter or longer; on two lines.
fn two_runs(run: &mut Run, first: u16, second: u16, a: Code, b: Code) {
    let both = first + second;
    for width in [both.saturating_sub(1), both, both + 1] {
        bitmap(run, width, 1, &bytes_of(&[a, b]));
    }
    bitmap(run, both, 2, &bytes_of(&[a, b, Code::EndOfLine, b, a]));
    bitmap(run, first, 2, &bytes_of(&[a, Code::EndOfLine, b]));
}

/// The Rust reserves width times height bytes first: where they are not to be had, the bitmap is left out.
fn little_data(run: &mut Run) {
    let mut p = Prng::named(run.seed, "little data");
    let sides = [0, 1, 2, 255, 256, 257, 16_384, 32_767, 32_768, 65_534, 65_535];
    for (width, height) in sides.iter().flat_map(|w| sides.iter().map(move |h| (*w, *h))) {
        let reserved = Vec::<u8>::new().try_reserve_exact(width as usize * height as usize);
        if reserved.is_err() {
            print!("no memory for {width} by {height}, left out; ");
            continue;
        }
        for data in [&[][..], &[0], &[5], &[0, 0], &[0, 0x40, 0], &[0, 0x80, 7], &[0, 0xFF, 0xFF, 9]] {
            bitmap(run, width, height, data);
        }
        for _ in 0..20 {
            bitmap(run, width, height, &any_codes(&mut p));
        }
    }
}

/// Accepted ones at the largest width, the largest height and both with the other 0; each also cut by a byte.
fn largest(run: &mut Run) {
    let mut p = Prng::named(run.seed, "largest");
    let sizes = [
        (65_535, 0),
        (65_535, 1),
        (65_535, 3),
        (65_534, 2),
        (0, 65_535),
        (1, 65_535),
        (2, 65_534),
        (300, 9_000),
    ];
    for (width, height) in sizes {
        for _ in 0..2 {
            let data = good_data(&mut p, width, height);
            bitmap(run, width, height, &data);
            bitmap(run, width, height, &data[..data.len().saturating_sub(1)]);
            bitmap(run, width, height.wrapping_sub(1), &data);
        }
    }
}

/// Mostly small, now and then up to 300.
fn side(p: &mut Prng) -> u16 {
    let most = p.pick(&[3, 9, 9, 20, 20, 70, 70, 300]);
    p.between(0, most) as u16
}

fn good_bitmaps(run: &mut Run) {
    let mut p = Prng::named(run.seed, "good bitmaps");
    for _ in 0..run.streams / 4 {
        let (width, height) = (side(&mut p), side(&mut p));
        let data = good_data(&mut p, width, height);
        bitmap(run, width, height, &data);
    }
}

fn other_dimensions(run: &mut Run) {
    let mut p = Prng::named(run.seed, "other dimensions");
    for _ in 0..run.streams / 4 {
        let (width, height) = (side(&mut p), side(&mut p));
        let data = good_data(&mut p, width, height);
        let (wider, higher) = p.pick(&[(1, 0), (-1, 0), (0, 1), (0, -1), (1, 1), (-1, 1)]);
        bitmap(run, width.saturating_add_signed(wider), height.saturating_add_signed(higher), &data);
    }
}

fn damaged_bitmaps(run: &mut Run) {
    let mut p = Prng::named(run.seed, "damaged bitmaps");
    for _ in 0..run.streams {
        let (width, height) = (side(&mut p), side(&mut p));
        let data = good_data(&mut p, width, height.min(40));
        bitmap(run, width, height.min(40), &damaged(&mut p, &data));
    }
}

fn random_codes(run: &mut Run) {
    let mut p = Prng::named(run.seed, "random codes");
    for _ in 0..run.streams * 4 {
        let (width, height) = (p.below(7) as u16, p.below(5) as u16);
        bitmap(run, width, height, &any_codes(&mut p));
    }
}

fn pictures(run: &mut Run) {
    let mut p = Prng::named(run.seed, "pictures");
    let (width, height) = (1_920, 1_080);
    for picture in [text_like, noisy] {
        for _ in 0..4 {
            let pixels = picture(&mut p, width, height);
            let data = encoded(&pixels, width);
            bitmap(run, width as u16, height as u16, &data);
            bitmap(run, width as u16, height as u16, &data[..data.len() - 2]);
            for _ in 0..25 {
                bitmap(run, width as u16, height as u16, &damaged(&mut p, &data));
            }
        }
    }
}
