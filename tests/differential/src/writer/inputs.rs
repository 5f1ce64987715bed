//! The inputs of the layer: streams of the layers of segments and sets, and fields that no stream has.

use super::fields::{Body, Fields};
use super::{check, check_input};
use crate::generate::{byte, CROPPED, TELLING};
use crate::library::{PcsRecord, PlacementRecord, WindowRecord};
use crate::prng::Prng;
use crate::run::{Group, Run, Sink};
use crate::segments::inputs as segments;
use crate::sets::inputs as sets;
use crate::shrink::Form;

pub fn groups() -> Vec<Group> {
    let group = |name, inputs| Group { name, inputs };
    vec![
        group("every kind, bodies of 0 to 48 bytes", |run| streams(run, segments::every_kind)),
        group("every state and palette update flag", |run| streams(run, segments::every_state)),
        group("every crop flag, and crops in up to 3 placements", |run| streams(run, segments::crops)),
        group("every window count, palette length and fragment flag", |run| {
            streams(run, segments::other_bodies)
        }),
        group("every cut of a stream, 1 to 12 bytes left over", |run| streams(run, segments::cuts)),
        group("every pair and triple of short segments", |run| streams(run, segments::triples)),
        group("counts and bodies at their limits", |run| streams(run, segments::limits)),
        group("streams of 65,535 segments and more", |run| streams(run, segments::long_streams)),
        group("good streams", |run| streams(run, segments::good_streams)),
        group("damaged streams", |run| streams(run, segments::damaged_streams)),
        group("hours of captions", |run| streams(run, sets::hours)),
        group("good sets", |run| streams(run, sets::good)),
        group("random segments of sets", |run| streams(run, sets::random)),
        group("0 to 300 placements and windows, and more", counts),
        group("every cell at its limits", cells),
        group("every crop flag and fragment flag, with and without what it announces", marks),
        group("every byte as an unknown kind", kinds),
        group("bodies around 65,535 bytes", largest),
        group("random fields", random_fields),
    ]
}

/// The random streams are fewer than those of their own layers.
fn streams(run: &mut Run, make: fn(&mut Sink)) {
    run.compare_streams(run.streams / 2, make, "writes", check);
}

fn compare(run: &mut Run, body: Body) {
    let fields = Fields { times: (0x0102_0304, 0x0506_0708), body };
    run.compare(Form::Bytes, "fields", &fields.to_input(), check_input);
}

/// A composition whose cells all differ.
const PCS: PcsRecord = [0x0102, 0x0304, 5, 0x0607, 8, 9, 10];

/// A placement, with a crop exactly where the flag asks for it.
fn placement(p: &mut Prng) -> PlacementRecord {
    let any = byte(p) as u16;
    let flag = p.pick(&[0, CROPPED as u16, any]);
    placement_of(p, flag, (flag == CROPPED as u16) as u16)
}

/// A placement with the given flag and mark.
fn placement_of(p: &mut Prng, flag: u16, present: u16) -> PlacementRecord {
    let mut record = std::array::from_fn(|_| p.next() as u16);
    (record[1], record[2], record[5]) = (p.byte() as u16, flag, present);
    record
}

fn window(p: &mut Prng) -> WindowRecord {
    let mut record = std::array::from_fn(|_| p.next() as u16);
    record[0] = p.byte() as u16;
    record
}

fn counts(run: &mut Run) {
    let mut p = Prng::named(run.seed, "counts");
    for count in (0..=300).chain([511, 512, 513, 767, 65_535, 65_536, 65_537]) {
        compare(run, Body::Pcs(PCS, (0..count).map(|_| placement(&mut p)).collect()));
        compare(run, Body::Wds((0..count).map(|_| window(&mut p)).collect()));
    }
}

/// One cell after the other at numbers around the widths of 1, 2 and 3 bytes, and at flags.
fn cells(run: &mut Run) {
    let mut p = Prng::named(run.seed, "cells");
    let placements = [0x00, 0x40, 0xC0].map(|flag| placement_of(&mut p, flag, (flag == 0x40) as u16));
    let windows = vec![window(&mut p), window(&mut p)];
    let entries = vec![[1, 2, 3, 4, 5], [6, 7, 8, 9, 10]];
    each_cell(run, 2, Body::Pcs(PCS, placements.to_vec()));
    each_cell(run, 2, Body::Wds(windows));
    each_cell(run, 1, Body::Pds([1, 2], entries));
    for (flag, present) in [(0x00, 0), (0x40, 0), (0x80, 1), (0xC0, 1)] {
        each_cell(run, 4, Body::Ods([0x0102, 3, flag, 0x04_0506, present, 0x0708, 0x090A], vec![]));
    }
}

/// The numbers that a cell of `width` bytes is set to.
fn each_cell(run: &mut Run, width: usize, body: Body) {
    let around = [0x100, 0x1_0000, 0x100_0000, 0x1_0000_0000u64];
    let mut values: Vec<u64> = TELLING.iter().map(|flag| *flag as u64).collect();
    values.extend(around.iter().flat_map(|power| [power - 1, *power, power + 1, power + 0x40, power + 0x80]));
    values.retain(|value| *value < 1 << (8 * width));
    let whole = Fields { times: (1, 2), body }.to_input();
    for at in (9..whole.len()).step_by(width) {
        for value in &values {
            let mut input = whole.clone();
            input[at..at + width].copy_from_slice(&value.to_be_bytes()[8 - width..]);
            run.compare(Form::Bytes, "fields", &input, check_input);
        }
    }
}

fn marks(run: &mut Run) {
    let mut p = Prng::named(run.seed, "marks");
    for flag in 0..=256 {
        for present in [0, 1, 2, 3, 0x40, 0x100, 0x101] {
            let one = placement_of(&mut p, flag, present);
            compare(run, Body::Pcs(PCS, vec![one]));
            compare(run, Body::Pcs(PCS, vec![placement(&mut p), one, placement(&mut p)]));
            for data in [0, 1, 4, 5] {
                let cells = [7, 8, flag as u32, 9, present as u32, 10, 11];
                compare(run, Body::Ods(cells, p.bytes(data)));
            }
        }
    }
}

/// Bodies of 0 to 30 bytes: those of known kinds could be read as such.
fn kinds(run: &mut Run) {
    let mut p = Prng::named(run.seed, "unknown kinds");
    for kind in 0..=255 {
        for len in 0..=30 {
            compare(run, Body::Other(kind, vec![0; len]));
            compare(run, Body::Other(kind, p.bytes(len)));
        }
    }
    compare(run, Body::End);
}

fn largest(run: &mut Run) {
    let mut p = Prng::named(run.seed, "largest");
    for entries in (13_103..=13_110).chain([26_213, 26_214, 30_000]) {
        compare(run, Body::Pds([1, 2], vec![[7; 5]; entries]));
    }
    for len in (65_520..=65_540).chain([65_549, 70_000, 131_071, 131_072, 131_080]) {
        let data = p.bytes(len);
        for (flag, present) in [(0x00, 0), (0x40, 0), (0x80, 1), (0xC0, 1), (0x40, 1), (0xC0, 0)] {
            compare(run, Body::Ods([1, 2, flag, 3, present, 4, 5], data.clone()));
        }
        for kind in [0x00, 0x13, 0x14, 0x16, 0x80, 0x81, 0xFF] {
            compare(run, Body::Other(kind, data.clone()));
        }
    }
}

fn random_fields(run: &mut Run) {
    let mut p = Prng::named(run.seed, "random fields");
    for _ in 0..run.streams / 2 {
        let times = (p.next() as u32, p.next() as u32);
        let fields = Fields { times, body: random_body(&mut p) };
        run.compare(Form::Bytes, "fields", &fields.to_input(), check_input);
    }
}

/// Mostly writable.
fn random_body(p: &mut Prng) -> Body {
    let many = if p.once_in(50) { p.between(0, 260) } else { p.between(0, 6) };
    match p.below(6) {
        0 => {
            let mut pcs = PCS.map(|_| p.next() as u16);
            [2, 4, 5, 6].iter().for_each(|at| pcs[*at] = wide_byte(p));
            Body::Pcs(pcs, (0..many).map(|_| random_placement(p)).collect())
        }
        1 => Body::Wds((0..many).map(|_| random_window(p)).collect()),
        2 => Body::Pds([byte(p), byte(p)], (0..many).map(|_| [0; 5].map(|_| byte(p))).collect()),
        3 => random_ods(p, many),
        4 => Body::Other(byte(p), p.bytes(many)),
        _ => Body::End,
    }
}

/// A byte, now and then a number that is too large for one.
fn wide_byte(p: &mut Prng) -> u16 {
    byte(p) as u16 + if p.once_in(60) { 0x100 << p.below(8) } else { 0 }
}

fn random_placement(p: &mut Prng) -> PlacementRecord {
    let mut record = placement(p);
    if p.once_in(60) {
        let at = p.pick(&[1, 2, 5]);
        record[at] = wide_byte(p);
    }
    record
}

fn random_window(p: &mut Prng) -> WindowRecord {
    let mut record = window(p);
    record[0] = wide_byte(p);
    record
}

fn random_ods(p: &mut Prng, data: usize) -> Body {
    let any = byte(p) as u32;
    let flag = p.pick(&[0x80, 0xC0, 0x40, any]);
    let present = (flag == 0x80 || flag == 0xC0) as u32;
    let short = |p: &mut Prng| p.next() as u32 & 0xFFFF;
    let declared = p.next() as u32 >> p.between(8, 31);
    let mut cells = [short(p), p.byte() as u32, flag, declared, present, short(p), short(p)];
    if p.once_in(10) {
        cells[p.below(7)] = p.next() as u32 >> p.below(32);
    }
    Body::Ods(cells, p.bytes(data))
}
