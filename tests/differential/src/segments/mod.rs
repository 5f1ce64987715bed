//! The layer of segments: the stream, and the bodies of PCS, WDS, PDS and ODS.

mod examples;
pub mod inputs;
pub mod oracle;

use crate::compare::{list_calls, record_call, Tally, Wanted};
use crate::generate::{ODS, PCS, PDS, WDS};
use crate::lent::Input;
use crate::library;
use crate::run::Layer;
use crate::vast::Vast;
use published::pgs::SegmentBody;

pub use examples::EXAMPLES;

pub type WantedSegments = Wanted<library::Nothing, library::SegmentRecord>;
pub type WantedPcs = Wanted<library::PcsRecord, library::PlacementRecord>;
pub type WantedWds = Wanted<library::Nothing, library::WindowRecord>;
pub type WantedPds = Wanted<library::PdsRecord, library::EntryRecord>;
pub type WantedOds = Result<library::OdsRecord, u8>;

pub const LAYER: Layer = Layer {
    name: "segments",
    groups: inputs::groups,
    answers: &[
        ("pgs_parse_segments", &[0, 1, 2, 3, 4, 5, 6, 34]),
        ("pgs_parse_pcs", &[0, 4, 34]),
        ("pgs_parse_wds", &[0, 4, 34]),
        ("pgs_parse_pds", &[0, 4, 5, 34]),
        ("pgs_parse_ods", &[0, 4]),
    ],
};

/// Compares everything that is said of a stream: its segments, and each body that stands in it whole.
pub fn check_stream(stream: &[u8], tally: &mut Tally) -> Result<(), String> {
    let wanted = oracle::segments(stream);
    check_segments(stream, &wanted, tally)?;
    let stopped = check_bodies(stream, tally)?;
    assert_eq!(stopped, wanted.err(), "the Rust's stream and segment readings differ");
    Ok(())
}

/// Prints what a stream holds.
pub fn show(stream: &[u8]) {
    match oracle::segments(stream) {
        Err(number) => println!("refused: {number}"),
        Ok((_, records)) => {
            for [place, pts, dts, kind, size] in records {
                println!("place {place}, PTS {pts}, DTS {dts}, kind {kind:02X}, {size} body bytes");
            }
        }
    }
}

/// Compares the segment records of a stream with those wanted.
pub fn check_segments(stream: &[u8], wanted: &WantedSegments, tally: &mut Tally) -> Result<(), String> {
    tally.inputs.streams += 1;
    let input = Input::new(stream);
    let spare = stream.len() / 13 + 1;
    list_calls(tally, "pgs_parse_segments", wanted, spare, |nothing, list, count| {
        library::parse_segments(&input, nothing, list, count)
    })?;
    input.holds(stream)
}

/// Compares the body of each segment from the front, and answers the number that stopped the walk.
fn check_bodies(stream: &[u8], tally: &mut Tally) -> Result<Option<u8>, String> {
    let mut rest = stream;
    while !rest.is_empty() {
        let read = oracle::first(rest);
        if let Some((kind, body)) = whole_body(rest) {
            let fields = read.as_ref().map(|(segment, _)| &segment.body).map_err(|e| *e);
            check_read_body(kind, body, fields, tally)?;
        }
        match read {
            Ok((_, used)) => rest = &rest[used..],
            Err(number) => return Ok(Some(number)),
        }
    }
    Ok(None)
}

/// The kind and the body at the front of a stream, where the mark is right and the body is not cut.
pub fn whole_body(stream: &[u8]) -> Option<(u8, &[u8])> {
    let (head, rest) = stream.split_at_checked(13)?;
    let size = u16::from_be_bytes([head[11], head[12]]) as usize;
    let body = rest.get(..size)?;
    head.starts_with(b"PG").then_some((head[10], body))
}

/// Compares one body with what the Rust read of it. END and unknown kinds have no reading of their own.
fn check_read_body(
    kind: u8,
    body: &[u8],
    read: Result<&SegmentBody, u8>,
    tally: &mut Tally,
) -> Result<(), String> {
    match kind {
        PCS => check_pcs(body, &oracle::pcs(read), tally),
        WDS => check_wds(body, &oracle::wds(read), tally),
        PDS => check_pds(body, &oracle::pds(read), tally),
        ODS => check_ods(body, &oracle::ods(read, body), tally),
        _ => Ok(()),
    }
}

/// Compares one body that is handed over alone, of any length.
pub fn check_body(kind: u8, body: &[u8], tally: &mut Tally) -> Result<(), String> {
    if body.len() <= oracle::LARGEST_BODY {
        let read = oracle::body(kind, body);
        return check_read_body(kind, body, read.as_ref().map_err(|e| *e), tally);
    }
    match kind {
        PCS => check_pcs(body, &oracle::long::pcs(body), tally),
        WDS => check_wds(body, &oracle::long::wds(body), tally),
        PDS => check_pds(body, &oracle::long::pds(body), tally),
        ODS => check_ods(body, &oracle::long::ods(body), tally),
        _ => panic!("kind {kind:02X} has no body reading"),
    }
}

pub fn check_pcs(body: &[u8], wanted: &WantedPcs, tally: &mut Tally) -> Result<(), String> {
    tally.inputs.bodies += 1;
    let input = Input::new(body);
    list_calls(tally, "pgs_parse_pcs", wanted, 256, |pcs, list, count| {
        library::parse_pcs(&input, pcs, list, count)
    })?;
    input.holds(body)
}

pub fn check_wds(body: &[u8], wanted: &WantedWds, tally: &mut Tally) -> Result<(), String> {
    tally.inputs.bodies += 1;
    let input = Input::new(body);
    list_calls(tally, "pgs_parse_wds", wanted, 256, |nothing, list, count| {
        library::parse_wds(&input, nothing, list, count)
    })?;
    input.holds(body)
}

pub fn check_pds(body: &[u8], wanted: &WantedPds, tally: &mut Tally) -> Result<(), String> {
    tally.inputs.bodies += 1;
    let input = Input::new(body);
    list_calls(tally, "pgs_parse_pds", wanted, body.len() / 5 + 1, |pds, list, count| {
        library::parse_pds(&input, pds, list, count)
    })?;
    input.holds(body)
}

pub fn check_ods(body: &[u8], wanted: &WantedOds, tally: &mut Tally) -> Result<(), String> {
    tally.inputs.bodies += 1;
    let input = Input::new(body);
    record_call(tally, "pgs_parse_ods", wanted, |ods| library::parse_ods(&input, ods))?;
    input.holds(body)
}

/// Compares places past 4 GiB, of a stream that is accepted and of one that is refused at its end.
/// False where such a stream is not to be had.
pub fn check_past_4_gib(tally: &mut Tally) -> Result<bool, String> {
    let Some(vast) = Vast::new() else { return Ok(false) };
    let stream = vast.stream();
    let mut records = Vec::new();
    let mut at = 0;
    while at < stream.len() {
        let (read, used) = oracle::first(&stream[at..]).expect("a good segment");
        records.push(oracle::segment_record(at as u64, &read.header));
        at += used;
    }
    let last = records[records.len() - 1];
    assert!(last[0] > 1 << 32, "a place past 4 GiB");
    let cut = &stream[..stream.len() - 1];
    let refused = oracle::first(&cut[last[0] as usize..]).expect_err("a short head");
    vast_calls(stream, &Ok(([], records)), tally)?;
    vast_calls(cut, &Err(refused), tally)?;
    Ok(true)
}

/// As `check_segments`, without the copy of the stream.
fn vast_calls(stream: &[u8], wanted: &WantedSegments, tally: &mut Tally) -> Result<(), String> {
    tally.inputs.streams += 1;
    let spare = stream.len() / 60_000;
    list_calls(tally, "pgs_parse_segments", wanted, spare, |_, list, count| {
        library::parse_segments_at(stream.as_ptr(), stream.len(), list, count)
    })
}
