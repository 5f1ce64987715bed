//! Worked examples of painting.

use super::inputs::{composition, end, ods, pds, placed, split, whole, Placement};
use super::{check, check_plane, oracle};
use crate::compare::Tally;
use crate::examples::{bytes, rust_gives, Example, Outcome};
use crate::generate::{plain, PCS};
use crate::library::ShownRecord;
use crate::run::Sink;
use crate::sets::oracle::sets;
use oracle::{Painting, WantedPlane};

pub const EXAMPLES: [Example; 6] = [
    (34, "which palettes count", |tally| painted(palettes(), tally)),
    (36, "places past the plane, crops past the object, a crop only at flag 40", |tally| {
        painted(places(), tally)
    }),
    (37, "an entry, an index without one, two placements", |tally| painted(two_letters(), tally)),
    (38, "a bad bitmap that no placement shows comes before an absent object", |tally| {
        painted(unplaced(), tally)
    }),
    (38, "no END, an empty plane, nothing placed", |tally| painted(nothing(), tally)),
    (39, "a refusal of 24 to 33 leaves the joined data", |tally| painted(joined(), tally)),
];

/// The plane with width, height and PTS, or the number.
type Answer = Result<(&'static str, ShownRecord), u8>;
/// What each row shows, a stream, what its first set leaves in the scratch, and the answer.
type Table = Vec<(&'static str, Vec<u8>, &'static str, Answer)>;

/// Hands out the stream of every example.
pub fn streams(to: &mut Sink) {
    for table in [two_letters, unplaced, joined, palettes, places, nothing] {
        table().iter().for_each(|(_, stream, ..)| to.stream(stream));
    }
}

/// A set of the PTS 01020304 with these placements and segments. It names palette 5.
fn set_of(plane: (u16, u16), placements: &[Placement], segments: &[Vec<u8>]) -> Vec<u8> {
    [plain(PCS, &composition(plane, placements)), segments.concat(), end()].concat()
}

/// A plane of such a set.
fn shown(width: u64, height: u64, plane: &'static str) -> Answer {
    Ok((plane, [width, height, 16_909_060]))
}

/// Index 1 is FF1800FF, index 2 is FFFFFF80, index 3 has the colour of index 1 and alpha 0.
fn colors() -> Vec<u8> {
    pds(5, &[[1, 0x51, 0xF0, 0x5A, 0xFF], [2, 0xEB, 0x80, 0x80, 0x80], [3, 0x51, 0xF0, 0x5A, 0x00]])
}

/// A plane of 4 by 1, letters 7 and 8, and a palette with a colour for index 1 and a transparent black for index 2.
const TWO: &str =
    "50470102030400000000 16 001B 0004 0001 10 0001 80 00 00 02 0007000000000000 0008000000010000 \
     50470000000000000000 14 000C 0000 0151F05AFF 0210808000 \
     50470000000000000000 15 000D 0007 00 C0 000006 0002 0001 0101 \
     50470000000000000000 15 000D 0008 00 C0 000006 0002 0001 0203 \
     50470000000000000000 80 0000";

/// Two letters again; the first pixel of the second has no entry.
fn without_entry() -> Vec<u8> {
    let letters = [colors(), ods(7, (2, 1), &[1, 1]), ods(8, (2, 1), &[9, 2])];
    set_of((4, 1), &[whole(7, 0, 0), whole(8, 1, 0)], &letters)
}

fn two_letters() -> Table {
    let transparent = shown(4, 1, "FF1800FF 00000000 00000000 00000000");
    let wins = shown(4, 1, "FF1800FF 00000000 FFFFFF80 00000000");
    vec![
        ("transparent pixels", bytes(TWO), "01010203", transparent),
        ("a pixel without an entry wins", without_entry(), "01010902", wins),
    ]
}

/// The object that is placed is absent; the bitmap of another has one pixel too few.
fn unplaced() -> Table {
    let alone = bytes(
        "50470000000000000000 16 0013 0004 0001 10 0001 80 00 00 01 0009000000000000 \
         50470000000000000000 15 000C 0007 00 C0 000005 0002 0001 01 \
         50470000000000000000 80 0000",
    );
    let objects = [split(7, (2, 1), &[1, 2]).concat(), ods(8, (2, 1), &[1])];
    vec![
        ("a partial line", alone, "", Err(31)),
        ("and one after joined data", set_of((2, 1), &[whole(99, 0, 0)], &objects), "0102", Err(31)),
    ]
}

fn joined() -> Table {
    let stream = bytes(
        "50470000000000000000 16 0013 0004 0001 10 0001 80 00 00 01 0009000000000000 \
         50470000000000000000 15 000C 0007 00 80 000006 0002 0001 01 \
         50470000000000000000 15 0008 0007 00 40 000000 02 \
         50470000000000000000 80 0000",
    );
    vec![("absent object", stream, "0102", Err(33))]
}

fn palettes() -> Table {
    let object = || ods(7, (2, 1), &[1, 3]);
    let other = |id| pds(id, &[[1, 0xEB, 0x80, 0x80, 0x80]]);
    let set = |segments: &[Vec<u8>]| set_of((2, 1), &[whole(7, 0, 0)], segments);
    let first = shown(2, 1, "FF1800FF FF180000");
    vec![
        ("no palette", set(&[object()]), "0103", shown(2, 1, "00000000 00000000")),
        ("palette after the object", set(&[object(), colors()]), "0103", first),
        ("a later entry", set(&[colors(), object(), other(5)]), "0103", shown(2, 1, "FFFFFF80 FF180000")),
        ("another palette", set(&[colors(), object(), other(6)]), "0103", first),
    ]
}

/// An object of 3 by 1 with the indices 1, 2, 1 on a plane of 4 by 1.
fn places() -> Table {
    let nothing = "00000000 00000000 00000000 00000000";
    let cropped = |x, crop| placed(7, (x, 0), Some(crop));
    let flag_c0 = Placement { flag: 0xC0, ..whole(7, 1, 0) };
    let rows = [
        ("at 2", whole(7, 2, 0), "00000000 00000000 FF1800FF FFFFFF80"),
        ("at 65535", whole(7, 65_535, 65_535), nothing),
        ("crop of 1 at 1, to 0", cropped(0, [1, 0, 1, 1]), "FFFFFF80 00000000 00000000 00000000"),
        ("crop of 9 at 1, to 2", cropped(2, [1, 0, 9, 9]), "00000000 00000000 FFFFFF80 FF1800FF"),
        ("crop of no width", cropped(0, [0, 0, 0, 1]), nothing),
        ("crop of no height", cropped(0, [0, 0, 3, 0]), nothing),
        ("crop at 65535", cropped(0, [65_535, 0, 65_535, 1]), nothing),
        ("flag C0, no crop", flag_c0, "00000000 FF1800FF FFFFFF80 FF1800FF"),
    ];
    let segments = [colors(), ods(7, (3, 1), &[1, 2, 1])];
    let row = |(what, at, plane)| (what, set_of((4, 1), &[at], &segments), "010201", shown(4, 1, plane));
    rows.map(row).to_vec()
}

fn nothing() -> Table {
    let mut no_end = without_entry();
    no_end.truncate(no_end.len() - end().len());
    let object = split(7, (2, 1), &[1, 2]);
    vec![
        ("no END", no_end, "", Err(15)),
        ("absent object, empty plane", set_of((0, 0), &[whole(99, 0, 0)], &[]), "", Err(33)),
        ("nothing placed", set_of((2, 1), &[], &[]), "", shown(2, 1, "00000000 00000000")),
        (
            "an object that no placement shows",
            set_of((1, 1), &[], &object),
            "01020102",
            shown(1, 1, "00000000"),
        ),
    ]
}

/// Both sides come to the scratch, and to the plane or the number.
fn painted(table: Table, tally: &mut Tally) -> Outcome {
    for (what, stream, scratch, answer) in table {
        let answer = answer.map(|(plane, shown)| (bytes(plane), shown));
        paints(&stream, &bytes(scratch), &answer, tally).map_err(|e| format!("{what}: {e}"))?;
    }
    Ok(())
}

fn paints(
    stream: &[u8],
    scratch: &[u8],
    answer: &Result<(Vec<u8>, ShownRecord), u8>,
    tally: &mut Tally,
) -> Outcome {
    let wanted = match sets(stream) {
        Ok(sets) => oracle::plane(stream, &sets[0]),
        Err(number) => WantedPlane::Refused(number),
    };
    let (left, painted) = match &wanted {
        WantedPlane::Read(Painting { scratch, painted, .. }) => (&scratch[..], painted.clone()),
        WantedPlane::Refused(number) => (&[][..], Err(*number)),
        WantedPlane::Needs(..) => return Err("too much to lend".to_string()),
    };
    rust_gives(left, &scratch)?;
    rust_gives(&painted, &answer)?;
    check_plane(stream, 0, &wanted, tally)?;
    check(stream, tally)
}
