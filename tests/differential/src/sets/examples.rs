//! Worked examples of sets and objects.

use super::inputs::{end, ods, pcs};
use super::oracle::Objects;
use super::*;
use crate::examples::{bytes, rust_gives, Example, Outcome};
use crate::generate::{plain, ODS, PCS, PDS, WDS};
use crate::run::Sink;

pub const EXAMPLES: [Example; 9] = [
    (19, "reading is refused before grouping", |tally| sets_are(reading_first(), tally)),
    (20, "segments outside and inside of a set", |tally| sets_are(in_and_out(), tally)),
    (21, "the cells of a set record", |tally| sets_are(set_cells(), tally)),
    (22, "which refusal of the objects is given first", |tally| objects_are(order_of_objects(), tally)),
    (22, "64 objects pass, 65 do not", |tally| objects_are(most_objects(), tally)),
    (23, "version, dimensions and length of the first fragment", |tally| {
        objects_are(first_fragment(), tally)
    }),
    (24, "mixed chains", |tally| objects_are(mixed_chains(), tally)),
    (25, "fragments are counted, not bytes", |tally| objects_are(empty_fragments(), tally)),
    (26, "list and scratch are tested before either is written", |tally| objects_are(both_tested(), tally)),
];

/// What each row shows, a stream, and the answer.
type Table<W> = Vec<(&'static str, Vec<u8>, W)>;
/// The records of all sets, or the number.
type SetRecords = Result<Vec<SetRecord>, u8>;

/// Hands out the stream of every example.
pub fn streams(to: &mut Sink) {
    for table in [reading_first, in_and_out, set_cells] {
        table().iter().for_each(|(_, stream, _)| to.stream(stream));
    }
    let of_objects =
        [order_of_objects, most_objects, first_fragment, mixed_chains, empty_fragments, both_tested];
    for table in of_objects {
        table().iter().for_each(|(_, stream, _)| to.stream(stream));
    }
}

fn sets_are(table: Table<SetRecords>, tally: &mut Tally) -> Outcome {
    for (what, stream, wanted) in table {
        let given = oracle::sets(&stream).map(|sets| sets.iter().map(|set| set.record).collect());
        rust_gives(given, &wanted)
            .and_then(|()| check_sets(&stream, &wanted.map(|records| ([], records)), tally))
            .and_then(|()| check(&stream, tally))
            .map_err(|e| format!("{what}: {e}"))?;
    }
    Ok(())
}

/// The objects of set 0.
fn objects_are(table: Table<WantedObjects>, tally: &mut Tally) -> Outcome {
    for (what, stream, wanted) in table {
        let given = oracle::sets(&stream).and_then(|sets| oracle::objects(&stream, &sets[0]));
        rust_gives(given, &wanted)
            .and_then(|()| check_objects(&stream, 0, &wanted, tally))
            .and_then(|()| check(&stream, tally))
            .map_err(|e| format!("{what}: {e}"))?;
    }
    Ok(())
}

/// A set of these segments.
fn set_of(segments: &[Vec<u8>]) -> Vec<u8> {
    [pcs(0), segments.concat(), end()].concat()
}

fn windows() -> Vec<u8> {
    plain(WDS, &[0])
}

fn unknown() -> Vec<u8> {
    plain(0x99, &[])
}

fn accepted(records: &[ObjectRecord], joined: &[u8]) -> WantedObjects {
    Ok(Objects { records: records.to_vec(), joined: joined.to_vec() })
}

fn reading_first() -> Table<SetRecords> {
    let short = [pcs(0), pcs(0), plain(PCS, &[0; 10])].concat();
    vec![
        ("WDS, one byte", [windows(), vec![0]].concat(), Err(1)),
        ("PCS PCS PCS of 10 bytes", short.clone(), Err(4)),
        ("and five bytes", [short, vec![0; 5]].concat(), Err(4)),
        ("PCS PCS", [pcs(0), pcs(0)].concat(), Err(8)),
    ]
}

/// Outside: alone, and after a set.
fn in_and_out() -> Table<SetRecords> {
    let palette = plain(PDS, &[0, 0]);
    let outside = [
        ("WDS", windows(), 9),
        ("PDS", palette.clone(), 10),
        ("ODS", ods(1, 0, 0xC0, 4, &[]), 11),
        ("ODS, a continuation", ods(1, 0, 0x40, 0, &[]), 11),
        ("END", end(), 13),
        ("unknown", unknown(), 14),
    ];
    let mut table = Vec::new();
    for (what, one, number) in outside {
        table.push((what, [set_of(&[]), one.clone()].concat(), Err(number)));
        table.push((what, one, Err(number)));
    }
    let all = set_of(&[palette.clone(), unknown(), windows(), palette]);
    table.extend([
        ("PCS", pcs(7), Err(15)),
        ("PCS PCS END", set_of(&[pcs(1)]), Err(8)),
        ("PCS WDS WDS", [pcs(7), windows(), windows()].concat(), Err(12)),
        ("PCS WDS unknown WDS END", set_of(&[windows(), unknown(), windows()]), Err(12)),
        ("PCS PDS unknown WDS PDS END", all, Ok(vec![[0, 94, 0]])),
    ]);
    table
}

fn set_cells() -> Table<SetRecords> {
    let one = [pcs(7), unknown(), windows(), end()].concat();
    let and = |more| [one.clone(), [pcs(8), end()].concat().repeat(more)].concat();
    let times = [pcs(90_000), end(), pcs(u32::MAX), windows(), end()].concat();
    // More records than crates/pgs_replay has room for.
    let four = vec![[0, 64, 7], [64, 101, 8], [101, 138, 8], [138, 175, 8]];
    vec![
        ("nothing", vec![], Ok(vec![])),
        ("PCS unknown WDS END", and(0), Ok(vec![[0, 64, 7]])),
        ("and PCS END", and(1), Ok(vec![[0, 64, 7], [64, 101, 8]])),
        ("and PCS END three times", and(3), Ok(four)),
        ("times of all sizes", times, Ok(vec![[0, 37, 90_000], [37, 88, 0xFFFF_FFFF]])),
    ]
}

/// Fragments in stream order, 16 to 19; then objects in first-seen order, 20 to 22.
fn order_of_objects() -> Table<WantedObjects> {
    let whole = |id, declared, data| ods(id, 0, 0xC0, declared, data);
    let open = |id| ods(id, 0, 0x80, 6, &[1, 1]);
    let closed = [open(1), ods(1, 0, 0x40, 0, &[])].concat();
    let and = |more| set_of(&[closed.clone(), more]);
    vec![
        ("first, id open", set_of(&[open(1), whole(1, 6, &[1, 1])]), Err(16)),
        ("first, id closed", and(whole(1, 6, &[1, 1])), Err(17)),
        ("continuation, id unknown", set_of(&[ods(1, 0, 0x40, 0, &[])]), Err(18)),
        ("continuation, id closed", and(ods(1, 0, 0x00, 0, &[])), Err(19)),
        ("1 unequal, 2 open", set_of(&[whole(1, 9, &[1, 1]), open(2)]), Err(22)),
        ("1 open, 2 declared 3", set_of(&[open(1), whole(2, 3, &[])]), Err(20)),
        ("declared 3", set_of(&[whole(1, 3, &[])]), Err(21)),
    ]
}

fn most_objects() -> Table<WantedObjects> {
    let one = |id| ods(id, 0, 0xC0, 5, &[1]);
    let many = |count| (0..count).flat_map(one).collect::<Vec<_>>();
    let records: Vec<ObjectRecord> = (0..64).map(|id| [id, 0, 2, 1, 0, 48 + 25 * id, 1]).collect();
    let loose = ods(99, 0, 0x40, 0, &[]);
    vec![
        ("64 objects", set_of(&[many(64)]), accepted(&records, &[])),
        ("64 objects, first of a closed id", set_of(&[many(64), one(1)]), Err(17)),
        ("65 objects, then a continuation without a first", set_of(&[many(65), loose]), Err(23)),
    ]
}

fn first_fragment() -> Table<WantedObjects> {
    let fragment = |body| plain(ODS, &bytes(body));
    let telling = [fragment("0007 05 80 000006 0102 0304 AA"), fragment("0007 09 40 FFFFFF BB")];
    let versions = [fragment("0001 05 80 000006 0002 0001 01"), fragment("0001 06 40 000063 02")];
    let one = set_of(&[ods(1, 0, 0xC0, 7, &[1, 1, 1])]);
    vec![
        ("every number", set_of(&telling), accepted(&[[7, 5, 0x0102, 0x0304, 1, 0, 2]], &[0xAA, 0xBB])),
        ("version 5, then 6", set_of(&versions), accepted(&[[1, 5, 2, 1, 1, 0, 2]], &[1, 2])),
        ("declared 7, 3 bytes", one, accepted(&[[1, 0, 2, 1, 0, 48, 3]], &[])),
    ]
}

fn mixed_chains() -> Table<WantedObjects> {
    let stream = set_of(&[
        ods(1, 0, 0x80, 6, &[1]),
        ods(2, 0, 0x80, 6, &[2]),
        ods(1, 0, 0x40, 0, &[1]),
        ods(2, 0, 0x40, 0, &[2]),
    ]);
    vec![("interleaved", stream, accepted(&[[1, 0, 2, 1, 1, 0, 2], [2, 0, 2, 1, 1, 2, 2]], &[1, 1, 2, 2]))]
}

/// The PCS has 24 bytes, the head of an ODS 13, its fields 11, or 7 without dimensions.
fn empty_fragments() -> Table<WantedObjects> {
    let two = [ods(1, 0, 0x80, 4, &[]), ods(1, 0, 0x40, 4, &[])];
    let one = |id| ods(id, 0, 0xC0, 4, &[]);
    let of_two = [1, 0, 2, 1, 1, 0, 0];
    vec![
        ("two fragments", set_of(&two), accepted(&[of_two], &[])),
        ("one fragment", set_of(&[one(1)]), accepted(&[[1, 0, 2, 1, 0, 48, 0]], &[])),
        ("no data", set_of(&[two.concat(), one(2)]), accepted(&[of_two, [2, 0, 2, 1, 0, 92, 0]], &[])),
    ]
}

/// `check_objects` lends each of the two too short alone.
fn both_tested() -> Table<WantedObjects> {
    let stream = set_of(&[
        ods(1, 0, 0xC0, 5, &[9]),
        ods(2, 0, 0x80, 7, &[1]),
        ods(2, 0, 0x40, 0, &[2, 3]),
        ods(3, 0, 0xC0, 4, &[]),
    ]);
    let records = [[1, 0, 2, 1, 0, 48, 1], [2, 0, 2, 1, 1, 0, 3], [3, 0, 2, 1, 0, 120, 0]];
    vec![("data and no data", stream, accepted(&records, &[1, 2, 3]))]
}
