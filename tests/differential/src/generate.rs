//! Makes inputs: good segments and streams of every shape, and damaged copies of them.

use crate::prng::Prng;

pub const PDS: u8 = 0x14;
pub const ODS: u8 = 0x15;
pub const PCS: u8 = 0x16;
pub const WDS: u8 = 0x17;
pub const END: u8 = 0x80;
pub const KNOWN: [u8; 5] = [PDS, ODS, PCS, WDS, END];

/// The flag of a placement with a crop.
pub const CROPPED: u8 = 0x40;

/// Bytes at which something changes: kinds, flags, states and their neighbours.
pub const TELLING: [u8; 24] = [
    0x00, 0x01, 0x02, 0x05, 0x09, 0x0B, 0x10, 0x13, 0x14, 0x15, 0x16, 0x17, 0x18, 0x3F, 0x40, 0x41, 0x7F,
    0x80, 0x81, 0xBF, 0xC0, 0xC1, 0xFE, 0xFF,
];

/// A segment: the head with the body's length, then the body.
pub fn segment(kind: u8, pts: u32, dts: u32, body: &[u8]) -> Vec<u8> {
    let size = u16::try_from(body.len()).expect("a body that fits in a segment");
    segment_of_size(kind, pts, dts, size, body)
}

/// A segment whose head announces `size` bytes, whatever follows.
pub fn segment_of_size(kind: u8, pts: u32, dts: u32, size: u16, body: &[u8]) -> Vec<u8> {
    let mut bytes = b"PG".to_vec();
    bytes.extend_from_slice(&pts.to_be_bytes());
    bytes.extend_from_slice(&dts.to_be_bytes());
    bytes.push(kind);
    bytes.extend_from_slice(&size.to_be_bytes());
    bytes.extend_from_slice(body);
    bytes
}

/// A segment of no particular times.
pub fn plain(kind: u8, body: &[u8]) -> Vec<u8> {
    segment(kind, 0x0102_0304, 0x0506_0708, body)
}

/// A byte, often one of the telling ones.
pub fn byte(p: &mut Prng) -> u8 {
    if p.once_in(2) {
        p.pick(&TELLING)
    } else {
        p.byte()
    }
}

fn bytes(p: &mut Prng, n: usize) -> Vec<u8> {
    (0..n).map(|_| byte(p)).collect()
}

/// Mostly a small number, now and then one up to the largest.
fn size(p: &mut Prng, small: usize, largest: usize) -> usize {
    match p.below(200) {
        0 => p.between(0, largest),
        1 => largest,
        2..=20 => p.between(0, largest.min(8 * small)),
        _ => p.between(0, small.min(largest)),
    }
}

fn unknown_kind(p: &mut Prng) -> u8 {
    loop {
        let kind = byte(p);
        if !KNOWN.contains(&kind) {
            return kind;
        }
    }
}

/// The bytes of one placement, with a crop where the flag says so.
pub fn placement(p: &mut Prng, flag: u8) -> Vec<u8> {
    let mut record = bytes(p, 3);
    record.push(flag);
    record.extend(bytes(p, if flag == CROPPED { 12 } else { 4 }));
    record
}

/// A PCS body with `count` placements and no tail.
pub fn pcs_body(p: &mut Prng, count: u8) -> Vec<u8> {
    let mut body = bytes(p, 10);
    body.push(count);
    for _ in 0..count {
        let flag = if p.once_in(2) { CROPPED } else { byte(p) };
        body.extend(placement(p, flag));
    }
    body
}

/// A WDS body with `count` windows and no tail.
pub fn wds_body(p: &mut Prng, count: u8) -> Vec<u8> {
    let mut body = vec![count];
    body.extend(bytes(p, 9 * count as usize));
    body
}

/// A PDS body with `entries` entries.
pub fn pds_body(p: &mut Prng, entries: usize) -> Vec<u8> {
    bytes(p, 2 + 5 * entries)
}

/// An ODS body with the given flag, its dimensions if it is a first fragment, and data.
pub fn ods_body(p: &mut Prng, flag: u8, data: usize) -> Vec<u8> {
    let mut body = bytes(p, 3);
    body.push(flag);
    body.extend(bytes(p, 3));
    if flag == 0x80 || flag == 0xC0 {
        body.extend(bytes(p, 4));
    }
    body.extend(bytes(p, data));
    body
}

/// A body that the kind's reading accepts; a PCS or WDS may have a tail.
pub fn good_body(p: &mut Prng, kind: u8) -> Vec<u8> {
    let mut body = match kind {
        PCS => {
            let count = size(p, 4, 255) as u8;
            pcs_body(p, count)
        }
        WDS => {
            let count = size(p, 4, 255) as u8;
            wds_body(p, count)
        }
        PDS => {
            let entries = size(p, 6, 13_106);
            pds_body(p, entries)
        }
        ODS => {
            let flag = p.pick(&[0x80, 0xC0, 0x40, 0x00, 0x41, 0xFF]);
            let data = size(p, 40, 65_524);
            ods_body(p, flag, data)
        }
        END => Vec::new(),
        _ => {
            let len = size(p, 30, 65_535);
            bytes(p, len)
        }
    };
    if (kind == PCS || kind == WDS) && p.once_in(3) {
        let tail = size(p, 20, 65_535 - body.len());
        body.extend(bytes(p, tail));
    }
    body
}

/// A kind: mostly a known one.
pub fn kind(p: &mut Prng) -> u8 {
    if p.once_in(8) {
        unknown_kind(p)
    } else {
        p.pick(&KNOWN)
    }
}

/// A time stamp, of all sizes.
fn stamp(p: &mut Prng) -> u32 {
    (p.next() as u32) >> p.below(33).min(31)
}

/// A segment that is accepted.
pub fn good_segment(p: &mut Prng) -> Vec<u8> {
    let kind = kind(p);
    let body = good_body(p, kind);
    segment(kind, stamp(p), stamp(p), &body)
}

/// A segment with a body of any bytes: its fields may be cut, its records too few.
pub fn random_segment(p: &mut Prng) -> Vec<u8> {
    let len = size(p, 40, 2_000);
    let body = bytes(p, len);
    segment(kind(p), stamp(p), stamp(p), &body)
}

/// A stream of accepted segments.
pub fn good_stream(p: &mut Prng) -> Vec<u8> {
    let segments = if p.once_in(50) { p.between(0, 80) } else { p.between(0, 9) };
    (0..segments).flat_map(|_| good_segment(p)).collect()
}

/// Where each segment of a stream starts, by the announced sizes, as far as heads go.
pub fn starts(stream: &[u8]) -> Vec<usize> {
    let mut starts = Vec::new();
    let mut at = 0;
    while at + 13 <= stream.len() {
        starts.push(at);
        at += 13 + u16::from_be_bytes([stream[at + 11], stream[at + 12]]) as usize;
    }
    starts
}

/// A copy with one to three faults, of the kinds that transfer and storage make.
pub fn damaged(p: &mut Prng, stream: &[u8]) -> Vec<u8> {
    let mut copy = stream.to_vec();
    for _ in 0..p.between(1, 3) {
        damage(p, &mut copy);
    }
    copy
}

fn damage(p: &mut Prng, stream: &mut Vec<u8>) {
    let len = stream.len();
    if len == 0 {
        let more = p.between(1, 20);
        return stream.extend(bytes(p, more));
    }
    let at = p.below(len);
    match p.below(8) {
        0 => stream[at] ^= 1 << p.below(8),
        1 => stream[at] = byte(p),
        2 => stream.truncate(at),
        3 => drop(stream.drain(at..(at + p.between(1, 20)).min(len))),
        4 => {
            let count = p.between(1, 20);
            let more = bytes(p, count);
            drop(stream.splice(at..at, more));
        }
        5 => {
            let more = p.between(1, 12);
            stream.extend(bytes(p, more));
        }
        6 => drop(stream.drain(..at)),
        _ => damage_head(p, stream),
    }
}

/// Changes a size by one, a kind, or the first body byte of one segment.
fn damage_head(p: &mut Prng, stream: &mut [u8]) {
    let starts = starts(stream);
    if starts.is_empty() {
        return;
    }
    let at = p.pick(&starts);
    let size = u16::from_be_bytes([stream[at + 11], stream[at + 12]]);
    match p.below(4) {
        0 => stream[at + 11..at + 13].copy_from_slice(&size.wrapping_add(1).to_be_bytes()),
        1 => stream[at + 11..at + 13].copy_from_slice(&size.wrapping_sub(1).to_be_bytes()),
        2 => stream[at + 10] = kind(p),
        _ => {
            let inside = at + p.between(0, 25);
            if let Some(b) = stream.get_mut(inside) {
                *b = byte(p);
            }
        }
    }
}
