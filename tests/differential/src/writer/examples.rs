//! Worked examples of writing, with their answers written out.

use super::fields::Body;
use super::table::{read_back, unwritable};
use super::*;
use crate::examples::{bytes, rust_gives, Example, Outcome};
use crate::generate::{plain, CROPPED, END};
use crate::library::{OdsCells, PcsRecord, PlacementRecord};
use crate::numbers::NOT_ENCODABLE;
use published::pgs::SegmentBody;

pub const EXAMPLES: [Example; 9] = [
    (15, "255 placements or windows are whole, 256 are not written", most_records),
    (15, "every case of 35, with what the Rust does", unwritable),
    (15, "a number too large for its field", too_large),
    (15, "the Rust with one dimension alone", one_dimension),
    (16, "35 before 34", unwritable_first),
    (17, "nothing else is judged", as_given),
    (18, "a write that does not fit leaves not even the head", no_head),
    (18, "a list of writes goes on after a refused one", next_write),
    (18, "a refused stream is not written", refused_stream),
];

pub fn fields(body: Body) -> Fields {
    Fields { times: (90_000, 1), body }
}

/// Both sides write these bytes.
fn bytes_are(body: Body, wanted: &str, tally: &mut Tally) -> Outcome {
    let fields = fields(body);
    let wanted = Ok(bytes(wanted));
    rust_gives(oracle::written(&fields), &wanted)?;
    check_fields(&fields, &wanted, tally)
}

fn is_not_encodable(body: Body, tally: &mut Tally) -> Outcome {
    check_fields(&fields(body), &Err(NOT_ENCODABLE), tally)
}

/// A composition of 4 by 1.
const PLANE: PcsRecord = [4, 1, 0x10, 1, 0x80, 0, 0];

fn most_records(tally: &mut Tally) -> Outcome {
    let placement = |i: u16| match i % 2 {
        0 => [i, 1, 0, 2, 3, 0, 0, 0, 0, 0],
        _ => [i, 1, CROPPED as u16, 2, 3, 1, 4, 5, 6, 7],
    };
    let placements = |count| Body::Pcs(PLANE, (0..count).map(placement).collect());
    let windows = |count| Body::Wds((0..count).map(|i| [i % 256, 1, 2, 3, 4]).collect());
    for whole in [placements(255), windows(255)] {
        let fields = fields(whole);
        let written = oracle::written(&fields);
        check_fields(&fields, &written, tally)?;
        let bytes = written.map_err(|number| format!("the published Rust: {number}"))?;
        rust_gives(Fields::read(&bytes)?, &fields)?;
    }
    is_not_encodable(placements(256), tally)?;
    is_not_encodable(windows(256), tally)
}

/// A placement of object `id` with this flag, no crop.
pub fn uncropped(id: u16, flag: u16) -> PlacementRecord {
    [id, 0, flag, 0, 0, 0, 0, 0, 0, 0]
}

/// A placement of object `id` with this flag and a crop.
pub fn cropped(id: u16, flag: u16) -> PlacementRecord {
    [id, 0, flag, 0, 0, 1, 2, 3, 4, 5]
}

pub fn pcs(placements: &[PlacementRecord]) -> Body {
    Body::Pcs(PLANE, placements.to_vec())
}

/// An ODS with this flag, declared length and mark, 2 by 1.
pub fn ods(flag: u32, declared: u32, present: u32, data: &[u8]) -> Body {
    let cells: OdsCells = [1, 0, flag, declared, present, 2, 1];
    Body::Ods(cells, data.to_vec())
}

/// The Rust's types cannot hold such numbers.
fn too_large(tally: &mut Tally) -> Outcome {
    for (cell, wide) in [(2, 0x110), (4, 0x180), (5, 0x100), (6, 0xFFFF)] {
        let mut plane = PLANE;
        plane[cell] = wide;
        is_not_encodable(Body::Pcs(plane, vec![]), tally)?;
    }
    for (cell, wide) in [(1, 0x100), (2, 0x140), (2, 0x100), (5, 2), (5, 0x100), (5, 0xFFFF)] {
        let mut placement = uncropped(1, 0);
        placement[cell] = wide;
        is_not_encodable(pcs(&[placement]), tally)?;
    }
    is_not_encodable(Body::Wds(vec![[256, 0, 0, 0, 0]]), tally)?;
    let wide =
        [(0, 70_000), (1, 256), (2, 0x180), (3, u32::MAX), (4, 2), (4, 0x101), (5, 65_536), (6, 65_538)];
    for (cell, wide) in wide {
        let mut cells = [1, 0, 0xC0, 4, 1, 2, 1];
        cells[cell] = wide;
        is_not_encodable(Body::Ods(cells, vec![]), tally)?;
    }
    // Cells of what is not present do not count.
    let head = "5047 00015F90 00000001";
    let placement = [1, 0, 0, 0, 0, 0, 0xFFFF, 0xFFFF, 0xFFFF, 0xFFFF];
    let body = "16 0013 0004 0001 10 0001 80 00 00 01 0001 00 00 0000 0000";
    bytes_are(pcs(&[placement]), &format!("{head} {body}"), tally)?;
    let cells = [1, 0, 0x40, 4, 0, 70_000, u32::MAX];
    bytes_are(Body::Ods(cells, vec![]), &format!("{head} 15 0007 0001 00 40 000004"), tally)
}

/// Fields that only the Rust can be handed.
fn one_dimension(_: &mut Tally) -> Outcome {
    let mut segment = oracle::segment(&fields(ods(0x80, 5, 1, &[9, 9]))).expect("cells that fit");
    let SegmentBody::Ods(ods) = &mut segment.body else { panic!("an ODS") };
    ods.height = None;
    let written = segment.encode();
    rust_gives(written[13..].to_vec(), &bytes("00 01 00 80 00 00 05 00 02 09 09"))?;
    rust_gives(read_back(&written), &"ODS, declared 5, 2 by 2313, 0 data bytes".to_string())
}

/// `check_fields` lends nothing, too little and enough.
fn unwritable_first(tally: &mut Tally) -> Outcome {
    is_not_encodable(pcs(&vec![uncropped(1, 0); 256]), tally)?;
    is_not_encodable(pcs(&[uncropped(1, 0), uncropped(1, 0x40)]), tally)?;
    is_not_encodable(Body::Other(0x99, vec![0; 65_536]), tally)?;
    is_not_encodable(Body::Other(END, vec![]), tally)
}

/// Any state, ids that come twice, a declared length of 0, or unlike the data.
fn as_given(tally: &mut Tally) -> Outcome {
    let head = "5047 00015F90 00000001";
    let twice = Body::Pcs([4, 1, 0, 1, 0x33, 0x7F, 9], vec![uncropped(1, 0xFF), uncropped(1, 0xFF)]);
    let record = "0001 00 FF 0000 0000";
    let body = format!("16 001B 0004 0001 00 0001 33 7F 09 02 {record} {record}");
    bytes_are(twice, &format!("{head} {body}"), tally)?;
    let windows = Body::Wds(vec![[3, 0, 0, 0, 0], [3, 1, 2, 3, 4]]);
    let body = "17 0013 02 03 0000000000000000 03 0001000200030004";
    bytes_are(windows, &format!("{head} {body}"), tally)?;
    let entries = Body::Pds([5, 2], vec![[1, 2, 3, 4, 5]; 2]);
    bytes_are(entries, &format!("{head} 14 000C 05 02 0102030405 0102030405"), tally)?;
    bytes_are(ods(0xC0, 0, 1, &[0xAA]), &format!("{head} 15 000C 0001 00 C0 000000 0002 0001 AA"), tally)?;
    let longest = ods(0x00, 0xFF_FFFF, 0, &[0xAA]);
    bytes_are(longest, &format!("{head} 15 0008 0001 00 00 FFFFFF AA"), tally)?;
    bytes_are(Body::End, &format!("{head} 80 0000"), tally)?;
    bytes_are(Body::Other(0x99, vec![0x50, 0x47]), &format!("{head} 99 0002 50 47"), tally)
}

/// Every length of the output that is too short.
fn no_head(tally: &mut Tally) -> Outcome {
    let mut windows = fields(Body::Wds(vec![[1, 2, 3, 4, 5]]));
    let written = oracle::written(&windows);
    for room in 0..23 {
        fields_call(&mut windows, &written, room, tally)?;
    }
    Ok(())
}

/// What a list of writes comes to, written out.
fn writes_are(
    stream: &[u8],
    (writes, room): (u64, usize),
    wanted: (u64, &[u8]),
    tally: &mut Tally,
) -> Outcome {
    let segments: Vec<Vec<u8>> = match published::pgs::parse_segments(stream) {
        Ok(segments) => segments.iter().map(|segment| segment.encode()).collect(),
        Err(refused) => return Err(refused.to_string()),
    };
    let first = segments.iter().take(writes as usize);
    rust_gives(oracle::writes(first, room), &(wanted.0, wanted.1.to_vec()))?;
    writes_call(&Input::new(stream), writes, &Ok(segments), room, tally)
}

fn next_write(tally: &mut Tally) -> Outcome {
    let (unknown, end) = (plain(0x99, &[7; 8]), plain(END, &[]));
    let stream = [&unknown[..], &end].concat();
    writes_are(&stream, (2, 15), (1, &end), tally)?;
    writes_are(&stream, (1, 15), (0, &[]), tally)?;
    writes_are(&stream, (2, 12), (0, &[]), tally)?;
    writes_are(&stream, (2, 33), (1, &unknown), tally)?;
    writes_are(&stream, (2, 34), (2, &stream), tally)?;
    writes_are(&stream, (0, 34), (0, &[]), tally)?;
    let again = [&stream[..], &unknown, &end].concat();
    writes_are(&again, (4, 46), (2, &stream), tally)?;
    writes_are(&again, (4, 47), (3, &[&stream[..], &end].concat()), tally)
}

fn refused_stream(tally: &mut Tally) -> Outcome {
    let end = plain(END, &[]);
    check(&[&end[..], &[0]].concat(), tally)?;
    check_writes(&[&end[..], &[0]].concat(), &Err(1), tally)?;
    check_writes(&[&end[..], &plain(END, &[0])].concat(), &Err(6), tally)
}
