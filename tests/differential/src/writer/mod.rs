//! The layer of writing: each kind's writer, and the list of a stream's writes.

mod examples;
pub mod fields;
mod inputs;
pub mod oracle;
mod table;

use crate::compare::{same_number, Tally};
use crate::lent::{Input, Lent, LentBytes};
use crate::library::{self, Count};
use crate::numbers::TOO_SHORT;
use crate::prng::{mix, Prng};
use crate::run::Layer;
use crate::segments::oracle::first;
use fields::Fields;
use oracle::WantedBytes;
use std::cell::RefCell;

pub use examples::EXAMPLES;

pub const LAYER: Layer = Layer {
    name: "writer",
    groups: inputs::groups,
    answers: &[
        ("pgs_encode_pcs", &[0, 34, 35]),
        ("pgs_encode_wds", &[0, 34, 35]),
        ("pgs_encode_pds", &[0, 34, 35]),
        ("pgs_encode_ods", &[0, 34, 35]),
        ("pgs_encode_end", &[0, 34]),
        ("pgs_encode_other", &[0, 34, 35]),
        ("pgs_write_segments", &[0, 1, 2, 3, 4, 5, 6]),
    ],
};

/// Compares the writing of each accepted segment from the front of a stream, and the writes of the whole stream.
pub fn check(stream: &[u8], tally: &mut Tally) -> Result<(), String> {
    let mut rest = stream;
    while !rest.is_empty() {
        let Ok((read, used)) = first(rest) else { break };
        let written = read.encode();
        assert!(written == oracle::cut(&rest[..used]), "the Rust writes something else than the cut segment");
        check_fields(&Fields::read(&rest[..used])?, &Ok(written), tally)?;
        rest = &rest[used..];
    }
    check_writes(stream, &cuts(stream), tally)
}

/// The cut segments of a stream, as the Rust writes them, or the number.
pub fn cuts(stream: &[u8]) -> WantedCuts {
    let mut rest = stream;
    let mut cuts = Vec::new();
    while !rest.is_empty() {
        let (read, used) = first(rest)?;
        cuts.push(read.encode());
        rest = &rest[used..];
    }
    Ok(cuts)
}

/// Compares the writing of fields of any kind, writable or not.
pub fn check_input(input: &[u8], tally: &mut Tally) -> Result<(), String> {
    match Fields::from_input(input) {
        Some(fields) => check_fields(&fields, &oracle::written(&fields), tally),
        None => Ok(()),
    }
}

thread_local! {
    /// The output of one call after the other.
    static OUT: RefCell<LentBytes> = RefCell::default();
}

/// Compares one writer with what it should write. Lends no bytes, those of a head or one less, one byte too few,
/// exactly enough, and more; where the fields are refused, none, those of a head, and more than are needed.
pub fn check_fields(fields: &Fields, wanted: &WantedBytes, tally: &mut Tally) -> Result<(), String> {
    tally.inputs.segments += 1;
    let mut rooms = match wanted {
        Ok(bytes) => vec![0, 12, bytes.len() - 1, bytes.len(), bytes.len() + 5],
        Err(_) => vec![0, 13, fields.to_input().len() + 20],
    };
    rooms.dedup();
    let name = fields.writer();
    let mut handed = fields.clone();
    for room in rooms {
        fields_call(&mut handed, wanted, room, tally)
            .map_err(|what| format!("{name}, {room} bytes lent: {what}"))?;
    }
    if handed == *fields {
        return Ok(());
    }
    Err(format!("{name} changed its input"))
}

/// One call of a writer with an output of `room` bytes.
fn fields_call(
    fields: &mut Fields,
    wanted: &WantedBytes,
    room: usize,
    tally: &mut Tally,
) -> Result<(), String> {
    let mut count = Lent::new(1, room as u64);
    let (number, bytes): (u8, &[u8]) = match wanted {
        Ok(bytes) if bytes.len() <= room => (0, bytes),
        Ok(_) => (TOO_SHORT, &[]),
        Err(refusal) => (*refusal, &[]),
    };
    let counted: Option<Count> = (number == 0).then_some([bytes.len() as u64]);
    tally.called(fields.writer(), number);
    let (answer, held) = OUT.with_borrow_mut(|out| {
        let answer = fields.write((out.pointer(room), room, &mut count));
        (answer, out.hold(room, bytes))
    });
    same_number(answer, number)?;
    held.map_err(|what| format!("out: {what}"))?;
    count.holds("written", counted.as_slice())
}

/// The cut segments of a stream, or the number.
pub type WantedCuts = Result<Vec<Vec<u8>>, u8>;

/// Compares the writes of a stream: all, none, some; with room for all, and with less.
pub fn check_writes(stream: &[u8], wanted: &WantedCuts, tally: &mut Tally) -> Result<(), String> {
    tally.inputs.streams += 1;
    let input = Input::new(stream);
    let calls = match wanted {
        Ok(cuts) => numbers_and_rooms(cuts),
        Err(_) => vec![(0, 0), (u64::MAX, stream.len().min(100_000) + 1)],
    };
    for (writes, room) in calls {
        writes_call(&input, writes, wanted, room, tally)
            .map_err(|what| format!("pgs_write_segments, {writes} writes, {room} bytes lent: {what}"))?;
    }
    input.holds(stream)
}

/// Numbers of writes and lengths of the output to try on these cut segments.
fn numbers_and_rooms(cuts: &[Vec<u8>]) -> Vec<(u64, usize)> {
    let count = cuts.len() as u64;
    let total: usize = cuts.iter().map(Vec::len).sum();
    let mut calls = vec![(count, total), (u64::MAX, total + 7), (0, total)];
    if count > 0 {
        calls.extend([(count, total - 1), (count - 1, total), (count + 1, 12), (1 << 32, total)]);
    }
    if count > 1 {
        let lengths = cuts.iter().fold(count, |state, cut| mix(state ^ cut.len() as u64));
        let mut p = Prng::named(lengths, "writes");
        for _ in 0..4 {
            let some: usize = cuts.iter().filter(|_| p.once_in(2)).map(Vec::len).sum();
            let any = p.below(total);
            let room = p.pick(&[some, some + 1, some.saturating_sub(1), any, total - cuts[0].len()]);
            let fewer = p.below(cuts.len()) as u64;
            calls.push((p.pick(&[count, fewer]), room));
        }
    }
    calls
}

/// One call with an output of `room` bytes.
fn writes_call(
    input: &Input,
    writes: u64,
    wanted: &WantedCuts,
    room: usize,
    tally: &mut Tally,
) -> Result<(), String> {
    let (mut accepted, mut written) = (Lent::new(1, room as u64), Lent::new(1, 9));
    let (number, bytes, counted) = match wanted {
        Ok(cuts) => {
            let some = cuts.iter().take(usize::try_from(writes).unwrap_or(usize::MAX));
            let (count, bytes) = oracle::writes(some, room);
            (0, bytes, Some(count))
        }
        Err(number) => (*number, Vec::new(), None),
    };
    tally.called("pgs_write_segments", number);
    let (answer, held) = OUT.with_borrow_mut(|out| {
        let lent = (out.pointer(room), room, &mut written);
        let answer = library::write_segments(input, writes, lent, &mut accepted);
        (answer, out.hold(room, &bytes))
    });
    same_number(answer, number)?;
    held.map_err(|what| format!("out: {what}"))?;
    accepted.holds("accepted", counted.map(|count| [count]).as_slice())?;
    written.holds("written", counted.map(|_| [bytes.len() as u64]).as_slice())
}
