//! The inputs of the layer: short sequences exhaustively, the limit of 64 objects, random sets and damaged copies.

use super::{check, check_browsing, examples};
use crate::captions::{captions, HOUR};
use crate::generate::*;
use crate::prng::Prng;
use crate::run::{Group, Run, Sink};

pub fn groups() -> Vec<Group> {
    let group = |name, inputs| Group { name, inputs };
    vec![
        group("every sequence of up to 5 segments out of 13", |run| streams(run, every_sequence)),
        group("every set of up to 4 fragments out of 15", |run| streams(run, every_set)),
        group("every cut of three sets, 1 to 12 bytes left over", |run| streams(run, cuts)),
        group("63 to 66 objects, and one fragment more", |run| streams(run, many_objects)),
        group("objects of up to 16 MiB", |run| streams(run, large_objects)),
        group("1,000 sets", |run| streams(run, many_sets)),
        group("hours of captions", |run| run.compare_streams(run.streams, hours, "browse", check_browsing)),
        group("good sets", |run| streams(run, good)),
        group("damaged sets", |run| streams(run, damaged_sets)),
        group("random segments", |run| streams(run, random)),
        group("the worked examples", |run| streams(run, examples::streams)),
    ]
}

fn streams(run: &mut Run, make: fn(&mut Sink)) {
    run.compare_streams(run.streams, make, "sets", check);
}

/// A composition without placements.
pub fn pcs(pts: u32) -> Vec<u8> {
    segment(PCS, pts, 0, &[0, 4, 0, 1, 0x10, 0, 1, 0x80, 0, 0, 0])
}

pub fn end() -> Vec<u8> {
    segment(END, 9, 0, &[])
}

/// A fragment; dimensions stand in it where the flag says so.
pub fn ods(id: u16, version: u8, flag: u8, declared: u32, data: &[u8]) -> Vec<u8> {
    let mut body = id.to_be_bytes().to_vec();
    body.extend([version, flag]);
    body.extend(&declared.to_be_bytes()[1..]);
    if flag == 0x80 || flag == 0xC0 {
        body.extend([0, 2, 0, 1 + version]);
    }
    body.extend(data);
    segment(ODS, 5, 0, &body)
}

/// Every sequence of `len` letters, between a front and a back.
fn every(to: &mut Sink, alphabet: &[Vec<u8>], len: usize, front: &[u8], back: &[u8]) {
    let mut letters = vec![0; len];
    loop {
        let mut stream = front.to_vec();
        for letter in &letters {
            stream.extend(&alphabet[*letter]);
        }
        stream.extend(back);
        to.stream(&stream);
        let Some(at) = letters.iter().rposition(|letter| letter + 1 < alphabet.len()) else { break };
        letters[at] += 1;
        letters[at + 1..].fill(0);
    }
}

fn every_sequence(to: &mut Sink) {
    let mut alphabet = vec![pcs(7), end(), plain(WDS, &[0]), plain(PDS, &[1, 2]), plain(0x99, &[1])];
    for id in [1, 2] {
        alphabet.push(ods(id, 0, 0xC0, 5, &[0x11]));
        alphabet.push(ods(id, 1, 0x80, 6, &[0x22]));
        alphabet.push(ods(id, 2, 0x40, 0, &[0x33]));
        alphabet.push(ods(id, 3, 0x00, 0, &[]));
    }
    for len in 0..=5 {
        every(to, &alphabet, len, &[], &[]);
    }
}

/// Fragments of two ids with declared lengths that fit and that do not, between a PCS and an END.
fn every_set(to: &mut Sink) {
    let mut alphabet = vec![plain(0x99, &[])];
    for id in [1, 0x0100] {
        alphabet.push(ods(id, 0, 0xC0, 5, &[0x11]));
        alphabet.push(ods(id, 0, 0xC0, 3, &[]));
        alphabet.push(ods(id, 1, 0x80, 6, &[0x22]));
        alphabet.push(ods(id, 1, 0x80, 4, &[]));
        alphabet.push(ods(id, 2, 0x40, 77, &[0x33]));
        alphabet.push(ods(id, 2, 0x40, 6, &[]));
        alphabet.push(ods(id, 3, 0x41, 6, &[0x44]));
    }
    for len in 0..=4 {
        every(to, &alphabet, len, &pcs(1), &end());
    }
}

fn cuts(to: &mut Sink) {
    let mut p = Prng::named(to.seed, "cuts of sets");
    let three: Vec<u8> = (0..3).flat_map(|_| set(&mut p)).collect();
    for len in 0..=three.len() {
        to.stream(&three[..len]);
        to.stream(&three[len..]);
    }
    for left_over in 1..=12 {
        to.stream(&[&three[..], &end()[..left_over]].concat());
    }
}

/// Sets of objects with one or two fragments each, then nothing or one fragment more: new, known, or loose.
pub fn many_objects(to: &mut Sink) {
    for count in 63..=66u16 {
        for shape in 0..4 {
            let whole = |id: u16| ods(id, 1, 0xC0, 6, &id.to_be_bytes());
            let first = |id: u16| ods(id, 1, 0x80, 6, &id.to_be_bytes()[..1]);
            let last = |id: u16| ods(id, 1, 0x40, 0, &id.to_be_bytes()[1..]);
            let mut body = pcs(3);
            for id in 0..count {
                match shape {
                    0 => body.extend(whole(id)),
                    1 => body.extend([first(id), last(id)].concat()),
                    2 => body.extend(first(id)),
                    _ => body.extend(if id == 5 { first(id) } else { ods(id, 1, 0xC0, 3, &[]) }),
                }
            }
            if shape == 2 {
                (0..count).for_each(|id| body.extend(last(id)));
            }
            let more = [vec![], whole(0), whole(5), whole(999), first(5), last(0), last(5), last(999)];
            for one in more {
                to.stream(&[&body[..], &one, &end()].concat());
                to.stream(&[&pcs(1), &end(), &body[..], &one, &end(), &pcs(2), &end()].concat());
                to.stream(&[&pcs(1), &one[..], &body[24..], &end()].concat());
            }
        }
    }
}

/// Full fragments, up to the largest declared length.
fn large_objects(to: &mut Sink) {
    let full = |id, flag, declared| ods(id, 0, flag, declared, &vec![id as u8 + flag; 65_524]);
    to.stream(&[pcs(0), full(1, 0xC0, 65_528), end()].concat());
    for middle in [0, 1, 20, 254] {
        let length = 4 + 65_524 * (middle as u32 + 2);
        for declared in [length - 1, length, length + 1] {
            let mut stream = [pcs(0), full(1, 0x80, declared)].concat();
            (0..middle).for_each(|_| stream.extend(full(1, 0, 0)));
            stream.extend([full(1, 0x40, 0), full(2, 0xC0, 65_528), end()].concat());
            to.stream(&stream);
        }
    }
}

fn many_sets(to: &mut Sink) {
    let mut stream = Vec::new();
    for number in 0..1_000 {
        stream.extend(pcs(number * 90));
        if number % 2 == 0 {
            stream.extend(ods(7, 0, 0xC0, 6, &number.to_be_bytes()[2..]));
        }
        stream.extend(end());
    }
    to.stream(&stream);
    stream.extend(end());
    to.stream(&stream);
}

/// An hour as it is, cut at its end, with a fault, and with a set more that is refused.
pub fn hours(to: &mut Sink) {
    let mut p = Prng::named(to.seed, "hours of captions");
    let hour = captions(&mut p, HOUR);
    to.stream(&hour);
    to.stream(&hour[..hour.len() - 1]);
    to.stream(&damaged(&mut p, &hour));
    to.stream(&[&hour[..], &pcs(1), &ods(1, 0, 0x80, 4, &[]), &end()].concat());
    let evening = captions(&mut p, HOUR / 8);
    for _ in 0..(to.streams / 25_000).max(1) {
        to.stream(&damaged(&mut p, &evening));
    }
}

/// A set that is accepted, its fragments mixed. Composition and windows may have tails.
fn set(p: &mut Prng) -> Vec<u8> {
    let count = p.pick(&[0, 0, 1, 2, 3]);
    let mut composition = pcs_body(p, count);
    composition.extend(tail(p));
    let mut stream = segment(PCS, p.next() as u32, p.next() as u32, &composition);
    let mut chains: Vec<Vec<Vec<u8>>> = Vec::new();
    let objects = if p.once_in(40) { p.between(4, 64) } else { p.between(0, 4) };
    for number in 0..objects {
        chains.push(chain(p, number as u16));
    }
    let mut windows = p.once_in(2);
    while chains.iter().any(|chain| !chain.is_empty()) || windows {
        match p.below(12) {
            0 if windows => {
                stream.extend(plain(WDS, &[wds_body(p, 2), tail(p)].concat()));
                windows = false;
            }
            1 => stream.extend(plain(PDS, &pds_body(p, 2))),
            2 => stream.extend(plain(0x77, &[1, 2, 3])),
            _ => {
                let at = if chains.is_empty() { continue } else { p.below(chains.len()) };
                if !chains[at].is_empty() {
                    stream.extend(chains[at].remove(0));
                }
            }
        }
    }
    stream.extend(segment(END, p.next() as u32, 0, &[]));
    stream
}

/// Mostly nothing, else some bytes.
fn tail(p: &mut Prng) -> Vec<u8> {
    let len = if p.once_in(4) { p.between(1, 20) } else { 0 };
    p.bytes(len)
}

/// The fragments of one object, whose lengths agree.
fn chain(p: &mut Prng, id: u16) -> Vec<Vec<u8>> {
    let id = if p.once_in(2) { id } else { id.swap_bytes() ^ 0x8080 };
    let fragments = p.between(1, 4);
    let parts: Vec<Vec<u8>> = (0..fragments)
        .map(|_| {
            let len = p.pick(&[0, 1, 2, 9, 40]);
            p.bytes(len)
        })
        .collect();
    let declared = 4 + parts.iter().map(Vec::len).sum::<usize>() as u32;
    let version = p.below(200) as u8;
    let mut chain = Vec::new();
    for (at, part) in parts.iter().enumerate() {
        let (flag, length) = match (at, at + 1 == fragments) {
            (0, true) => (0xC0, declared),
            (0, false) => (0x80, declared),
            (_, true) => (0x40, p.below(1 << 24) as u32),
            (_, false) => (p.pick(&[0x00, 0x41, 0x81, 0xFF, 0x3F]), p.below(1 << 24) as u32),
        };
        chain.push(ods(id, if at == 0 { version } else { 0 }, flag, length, part));
    }
    chain
}

pub fn good(to: &mut Sink) {
    let mut p = Prng::named(to.seed, "good sets");
    for _ in 0..to.streams / 25 {
        let count = p.between(0, 3);
        let stream: Vec<u8> = (0..count).flat_map(|_| set(&mut p)).collect();
        to.stream(&stream);
    }
}

fn damaged_sets(to: &mut Sink) {
    let mut p = Prng::named(to.seed, "damaged sets");
    for _ in 0..to.streams / 10 {
        let count = p.between(1, 2);
        let mut stream: Vec<u8> = (0..count).flat_map(|_| set(&mut p)).collect();
        if p.once_in(2) {
            stream = damaged(&mut p, &stream);
        } else {
            move_segment(&mut p, &mut stream);
        }
        to.stream(&stream);
    }
}

/// Leaves out, doubles or moves one segment, or changes one byte of its body's front.
fn move_segment(p: &mut Prng, stream: &mut Vec<u8>) {
    let starts = starts(stream);
    let at = p.below(starts.len());
    let (from, to) = (starts[at], starts.get(at + 1).copied().unwrap_or(stream.len()));
    let one = stream[from..to].to_vec();
    match p.below(4) {
        0 => drop(stream.drain(from..to)),
        1 => drop(stream.splice(from..from, one)),
        2 => {
            let place = p.pick(&starts);
            let place = if place > from { place - (to - from) } else { place };
            stream.drain(from..to);
            drop(stream.splice(place..place, one));
        }
        _ => {
            let inside = from + 13 + p.below(8);
            if inside < to {
                stream[inside] = byte(p);
            }
        }
    }
}

/// A PCS and any segments that are read, ids of objects small, then mostly an END.
pub fn random(to: &mut Sink) {
    let mut p = Prng::named(to.seed, "random segments");
    for _ in 0..to.streams / 10 {
        let mut stream = pcs(p.next() as u32);
        for _ in 0..p.between(0, 12) {
            let flag = p.pick(&[0x80, 0xC0, 0x40, 0x40, 0x00, 0xFF]);
            let id = p.below(3) as u16;
            let data = p.below(3);
            match p.below(30) {
                0 => stream.extend(good_segment(&mut p)),
                1 => stream.extend([end(), pcs(4)].concat()),
                _ => stream.extend(ods(id, 1, flag, 4 + p.below(5) as u32, &p.bytes(data))),
            }
        }
        if !p.once_in(20) {
            stream.extend(end());
        }
        to.stream(&stream);
    }
}
