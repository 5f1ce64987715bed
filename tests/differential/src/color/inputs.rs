//! The inputs of the layer: every colour, every id, and random palettes.

use super::{check_color, check_palettes};
use crate::generate::byte;
use crate::prng::Prng;
use crate::run::{Group, Run};
use crate::shrink::Form;

pub fn groups() -> Vec<Group> {
    let group = |name, inputs| Group { name, inputs };
    vec![
        group("every Y, Cb and Cr", every_color),
        group("every palette id and named id", every_id),
        group("every entry id, every alpha", every_entry),
        group("no palettes, no entries, up to 65,535 entries", counts),
        group("random palettes", random_palettes),
    ]
}

fn every_color(run: &mut Run) {
    for y in 0..=255 {
        for cb in 0..=255 {
            for cr in 0..=255 {
                run.compare(Form::Color, "color", &[y, cb, cr], check_color);
            }
        }
    }
}

fn palettes(run: &mut Run, input: &[u8]) {
    run.compare(Form::Palettes, "palettes", input, check_palettes);
}

/// A segment as it stands in an input.
fn segment(id: u8, entries: &[u8]) -> Vec<u8> {
    let count = (entries.len() / 5) as u16;
    let [high, low] = count.to_be_bytes();
    [&[id, high, low], entries].concat()
}

fn every_id(run: &mut Run) {
    for named in 0..=255 {
        for id in 0..=255 {
            palettes(run, &[&[named], &segment(id, &[id, 0x51, 0xF0, 0x5A, named])[..]].concat());
        }
    }
}

fn every_entry(run: &mut Run) {
    for id in 0..=255 {
        for alpha in 0..=255 {
            palettes(run, &[&[7], &segment(7, &[id, 0x51, 0xF0, 0x5A, alpha])[..]].concat());
        }
    }
}

fn counts(run: &mut Run) {
    let mut p = Prng::named(run.seed, "counts");
    palettes(run, &[7]);
    for count in [0, 1, 2, 255, 256, 257, 13_106, 65_535] {
        let entries = p.bytes(5 * count);
        palettes(run, &[&[7], &segment(7, &entries)[..], &segment(8, &entries), &segment(7, &[])].concat());
    }
    let all: Vec<u8> = (0..=255).flat_map(|id| [id, p.byte(), p.byte(), p.byte(), p.byte()]).collect();
    palettes(run, &[&[7], &segment(7, &all)[..]].concat());
}

/// Up to five segments, mostly of the named id, with entry ids that come again.
fn random_palettes(run: &mut Run) {
    let mut p = Prng::named(run.seed, "random palettes");
    for _ in 0..run.streams / 5 {
        let named = byte(&mut p);
        let mut input = vec![named];
        for _ in 0..p.between(0, 5) {
            let id = if p.once_in(4) { byte(&mut p) } else { named };
            let ids = p.pick(&[2, 5, 256]);
            let most = p.pick(&[3, 10, 60]);
            let entries: Vec<u8> = (0..p.between(0, most)).flat_map(|_| entry(&mut p, ids)).collect();
            input.extend(segment(id, &entries));
        }
        palettes(run, &input);
    }
}

fn entry(p: &mut Prng, ids: usize) -> [u8; 5] {
    let any = p.byte();
    let alpha = p.pick(&[0, 255, any]);
    [p.below(ids) as u8, byte(p), byte(p), byte(p), alpha]
}
