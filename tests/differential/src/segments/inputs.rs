//! The inputs of the layer: short ones exhaustively, the limits, random streams and damaged copies.

use super::{check_body, check_stream};
use crate::generate::*;
use crate::prng::Prng;
use crate::run::{Group, Run, Sink};
use crate::sets::inputs as sets;
use crate::shrink::Form;

pub fn groups() -> Vec<Group> {
    let group = |name, inputs| Group { name, inputs };
    vec![
        group("every mark", |run| streams(run, every_mark)),
        group("every input of up to 2 bytes", |run| streams(run, shortest)),
        group("every stored size", |run| streams(run, every_stored_size)),
        group("every kind, bodies of 0 to 48 bytes", |run| streams(run, every_kind)),
        group("every state and palette update flag", |run| streams(run, every_state)),
        group("every crop flag, and crops in up to 3 placements", |run| streams(run, crops)),
        group("every window count, palette length and fragment flag", |run| streams(run, other_bodies)),
        group("every cut of a stream, 1 to 12 bytes left over", |run| streams(run, cuts)),
        group("every pair and triple of short segments", |run| streams(run, triples)),
        group("counts and bodies at their limits", |run| streams(run, limits)),
        group("bodies longer than a segment's", long_bodies),
        group("streams of 65,535 segments and more", |run| streams(run, long_streams)),
        group("hours of captions", |run| streams(run, sets::hours)),
        group("random bodies", random_bodies),
        group("good streams", |run| streams(run, good_streams)),
        group("damaged streams", |run| streams(run, damaged_streams)),
        group("streams of random bodies", |run| streams(run, random_streams)),
    ]
}

fn streams(run: &mut Run, make: fn(&mut Sink)) {
    run.compare_streams(run.streams, make, "stream", check_stream);
}

fn body(run: &mut Run, kind: u8, bytes: &[u8]) {
    let command = format!("body {kind:02X}");
    run.compare(Form::Bytes, &command, bytes, |b, tally| check_body(kind, b, tally));
}

fn every_mark(to: &mut Sink) {
    let mut head = plain(END, &[]);
    for mark in 0..=u16::MAX {
        head[..2].copy_from_slice(&mark.to_be_bytes());
        to.stream(&head);
    }
}

fn shortest(to: &mut Sink) {
    to.stream(&[]);
    for first in 0..=255 {
        to.stream(&[first]);
        for second in 0..=255 {
            to.stream(&[first, second]);
        }
    }
}

/// Every announced size over 40 bytes of body.
fn every_stored_size(to: &mut Sink) {
    for kind in [PCS, WDS, PDS, ODS, END, 0x99] {
        for size in 0..=u16::MAX {
            to.stream(&segment_of_size(kind, 1, 2, size, &[0; 40]));
        }
    }
}

pub fn every_kind(to: &mut Sink) {
    let mut p = Prng::named(to.seed, "every kind");
    for kind in 0..=255 {
        for len in 0..=48 {
            for fill in [0x00, 0x01, 0x40, 0x80, 0xC0, 0xFF] {
                to.stream(&plain(kind, &vec![fill; len]));
            }
            let any = p.bytes(len);
            to.stream(&plain(kind, &any));
            to.stream(&segment_of_size(kind, 1, 2, len as u16 + 1, &any));
        }
    }
}

pub fn every_state(to: &mut Sink) {
    let mut p = Prng::named(to.seed, "every state");
    let mut body = pcs_body(&mut p, 1);
    for state in 0..=255 {
        for update in 0..=255 {
            (body[7], body[8]) = (state, update);
            to.stream(&plain(PCS, &body));
        }
    }
}

/// Every crop flag of one placement; six flags in each of up to three; each body cut at every length, and with a tail.
pub fn crops(to: &mut Sink) {
    let mut p = Prng::named(to.seed, "crops");
    for flag in 0..=255 {
        pcs_with_flags(to, &mut p, &[flag]);
    }
    let flags = [0x00, 0x40, 0x41, 0x80, 0xC0, 0xFF];
    for a in flags {
        for b in flags {
            pcs_with_flags(to, &mut p, &[a, b]);
            for c in flags {
                pcs_with_flags(to, &mut p, &[a, b, c]);
            }
        }
    }
}

fn pcs_with_flags(to: &mut Sink, p: &mut Prng, flags: &[u8]) {
    let mut whole = p.bytes(10);
    whole.push(flags.len() as u8);
    for flag in flags {
        whole.extend(placement(p, *flag));
    }
    whole.extend(p.bytes(17));
    for len in 0..=whole.len() {
        to.stream(&plain(PCS, &whole[..len]));
    }
}

pub fn other_bodies(to: &mut Sink) {
    let mut p = Prng::named(to.seed, "other bodies");
    for count in 0..=255 {
        let mut windows = wds_body(&mut p, count);
        windows.push(0x77);
        let exact = windows.len() - 1;
        for len in [exact - 1, exact, exact + 1] {
            to.stream(&plain(WDS, &windows[..len]));
        }
    }
    for len in 0..=1_300 {
        to.stream(&plain(PDS, &p.bytes(len)));
    }
    for flag in 0..=255 {
        let fragment = ods_body(&mut p, flag, 13);
        for len in 0..=fragment.len() {
            to.stream(&plain(ODS, &fragment[..len]));
        }
    }
}

pub fn cuts(to: &mut Sink) {
    let mut p = Prng::named(to.seed, "cuts");
    let mut whole = Vec::new();
    for kind in [PCS, WDS, PDS, ODS, 0x99, END] {
        whole.extend(plain(kind, &good_body(&mut p, kind)));
    }
    for len in 0..=whole.len() {
        to.stream(&whole[..len]);
        to.stream(&whole[len..]);
    }
    for good in [plain(END, &[]), plain(0x99, &[1, 2, 3]), whole] {
        for left_over in 1..=12 {
            for from in [plain(END, &[]), vec![0; 12], p.bytes(12)] {
                to.stream(&[&good[..], &from[..left_over]].concat());
            }
        }
    }
}

/// Short segments, good ones and one for each way to be refused, in every order of up to three.
pub fn triples(to: &mut Sink) {
    let mut p = Prng::named(to.seed, "triples");
    let mut shorts = vec![
        plain(END, &[]),
        plain(END, &[0]),
        segment_of_size(END, 0, 0, 5, &[]),
        b"XX".to_vec(),
        b"PG".to_vec(),
        plain(0x00, &[]),
        plain(0xFF, b"PG"),
        plain(PDS, &[1]),
        plain(PDS, &[1, 2]),
        plain(PDS, &[1, 2, 3]),
        plain(WDS, &[]),
        plain(WDS, &[0]),
        plain(WDS, &[1]),
        plain(ODS, &[0, 1, 2, 0x40, 0, 0, 9]),
        plain(ODS, &[0, 1, 2, 0x80, 0, 0, 9]),
        segment_of_size(0x99, 3, 4, 13, &[]),
    ];
    for count in [0, 1, 2] {
        let body = pcs_body(&mut p, count);
        shorts.push(plain(PCS, &body));
        shorts.push(plain(PCS, &body[..body.len() - 1]));
    }
    let mut bad_magic = plain(END, &[]);
    bad_magic[1] = b'g';
    shorts.push(bad_magic);
    for a in &shorts {
        for b in &shorts {
            to.stream(&[&a[..], b].concat());
            for c in &shorts {
                to.stream(&[&a[..], b, c].concat());
            }
        }
    }
}

/// Counts of 0, 254 and 255; bodies of 65,535 bytes of every kind, and a record more or less.
pub fn limits(to: &mut Sink) {
    let mut p = Prng::named(to.seed, "limits");
    for count in [0, 1, 254, 255] {
        for flag in [0x00, CROPPED] {
            let mut body = p.bytes(10);
            body.push(count);
            for _ in 0..count {
                body.extend(placement(&mut p, flag));
            }
            around(to, &mut p, PCS, body);
        }
        let windows = wds_body(&mut p, count);
        around(to, &mut p, WDS, windows);
    }
    for kind in [PCS, WDS, PDS, ODS, END, 0x99] {
        for len in [65_531, 65_532, 65_533, 65_534, 65_535] {
            to.stream(&plain(kind, &vec![0; len]));
            to.stream(&[plain(kind, &p.bytes(len)), plain(END, &[])].concat());
        }
    }
    for flag in [0x00, 0x40, 0x80, 0xC0] {
        let fixed = ods_body(&mut p, flag, 0).len();
        to.stream(&plain(ODS, &ods_body(&mut p, flag, 65_535 - fixed)));
    }
    for entries in [0, 1, 255, 256, 257, 13_105, 13_106] {
        to.stream(&plain(PDS, &pds_body(&mut p, entries)));
    }
}

/// A body as it is, one byte short, with tails of several lengths, and announced one byte longer than it is.
fn around(to: &mut Sink, p: &mut Prng, kind: u8, body: Vec<u8>) {
    to.stream(&plain(kind, &body));
    to.stream(&plain(kind, &body[..body.len() - 1]));
    to.stream(&segment_of_size(kind, 1, 2, body.len() as u16 + 1, &body));
    for tail in [1, 8, 9, 16, 300, 65_535 - body.len()] {
        let longer = [&body[..], &p.bytes(tail)].concat();
        to.stream(&[plain(kind, &longer), plain(END, &[])].concat());
    }
}

/// Bodies that no head can announce, handed to the body readings alone.
fn long_bodies(run: &mut Run) {
    let mut p = Prng::named(run.seed, "long bodies");
    for len in [65_536, 65_537, 65_538, 65_542, 70_000, 131_072, 131_077] {
        for kind in [PCS, WDS, PDS, ODS] {
            for _ in 0..4 {
                body(run, kind, &p.bytes(len));
            }
        }
        let mut fragment = ods_body(&mut p, 0x80, 0);
        fragment.resize(len, 0x11);
        body(run, ODS, &fragment);
    }
}

pub fn long_streams(to: &mut Sink) {
    for segments in [65_535, 65_536, 65_537] {
        let mut many = plain(END, &[]).repeat(segments);
        to.stream(&many);
        many.push(0x50);
        to.stream(&many);
    }
    let large = plain(0x99, &[0x50; 65_535]);
    to.stream(&large.repeat(300));
}

fn random_bodies(run: &mut Run) {
    let mut p = Prng::named(run.seed, "random bodies");
    for _ in 0..run.streams / 2 {
        let kind = p.pick(&[PCS, WDS, PDS, ODS]);
        let good = good_body(&mut p, kind);
        if p.once_in(2) {
            body(run, kind, &good);
        } else {
            body(run, kind, &damaged(&mut p, &good));
        }
    }
}

pub fn good_streams(to: &mut Sink) {
    let mut p = Prng::named(to.seed, "good streams");
    for _ in 0..to.streams / 4 {
        let good = good_stream(&mut p);
        to.stream(&good);
    }
}

pub fn damaged_streams(to: &mut Sink) {
    let mut p = Prng::named(to.seed, "damaged streams");
    for _ in 0..to.streams / 2 {
        let good = good_stream(&mut p);
        to.stream(&damaged(&mut p, &good));
    }
}

fn random_streams(to: &mut Sink) {
    let mut p = Prng::named(to.seed, "random streams");
    for _ in 0..to.streams / 4 {
        let mut bytes = Vec::new();
        for _ in 0..p.between(0, 4) {
            bytes.extend(good_segment(&mut p));
        }
        bytes.extend(random_segment(&mut p));
        bytes.extend(good_segment(&mut p));
        to.stream(&bytes);
    }
}
