//! The layer of sets: display sets, the objects joined from their fragments, and the card lines.

mod examples;
pub mod inputs;
pub mod oracle;

use crate::compare::{list_calls, same_number, Tally, Wanted};
use crate::lent::{Input, Lent, LentBytes};
use crate::library::{self, Count, ObjectRecord, SetRecord};
use crate::numbers::TOO_SHORT;
use crate::run::Layer;
use oracle::WantedObjects;
use std::cell::RefCell;

pub use examples::EXAMPLES;

pub type WantedSets = Wanted<library::Nothing, SetRecord>;

pub const LAYER: Layer = Layer {
    name: "sets",
    groups: inputs::groups,
    answers: &[
        ("pgs_parse_display_sets", &[0, 1, 2, 3, 4, 5, 6, 8, 9, 10, 11, 12, 13, 14, 15, 34]),
        (
            "pgs_reassemble_objects",
            &[0, 1, 2, 3, 4, 5, 6, 8, 9, 10, 11, 12, 13, 14, 15, 16, 17, 18, 19, 20, 21, 22, 23, 34, 36],
        ),
        (
            "pgs_cards",
            &[0, 1, 2, 3, 4, 5, 6, 8, 9, 10, 11, 12, 13, 14, 15, 16, 17, 18, 19, 20, 21, 22, 23, 34],
        ),
    ],
};

/// The added refusal of a set number at or past the count.
pub const NO_SUCH_SET: u8 = 36;

/// Compares the sets of a stream, the objects of each set and of some that are not there, and the card lines.
pub fn check(stream: &[u8], tally: &mut Tally) -> Result<(), String> {
    let sets = oracle::sets(stream);
    let wanted = sets.as_ref().map(|sets| ([], sets.iter().map(|set| set.record).collect()));
    check_sets(stream, &wanted.map_err(|e| *e), tally)?;
    match sets {
        Err(number) => {
            check_objects(stream, 0, &Err(number), tally)?;
            check_objects(stream, u64::MAX, &Err(number), tally)?;
            check_cards(stream, Err(number), tally)
        }
        Ok(sets) => {
            let mut cards = Ok(String::new());
            for (number, set) in (0..).zip(&sets) {
                let objects = oracle::objects(stream, set);
                check_objects(stream, number, &objects, tally)?;
                cards = cards.and_then(|lines| Ok(lines + &oracle::card(set, &objects?)));
            }
            check_cards(stream, cards, tally)?;
            let past = sets.len() as u64;
            [past, past + (1 << 32), u64::MAX]
                .iter()
                .try_for_each(|number| check_objects(stream, *number, &Err(NO_SUCH_SET), tally))
        }
    }
}

/// Compares the sets of a long stream, the objects of some of them, the card lines, and the objects of each set from
/// its bytes alone: that is how a player goes through a film.
pub fn check_browsing(stream: &[u8], tally: &mut Tally) -> Result<(), String> {
    let sets = match oracle::sets(stream) {
        Ok(sets) => sets,
        Err(_) => return check(stream, tally),
    };
    check_sets(stream, &Ok(([], sets.iter().map(|set| set.record).collect())), tally)?;
    let mut cards = Ok(String::new());
    for (number, set) in (0..).zip(&sets) {
        let [from, to, _] = set.record;
        let alone = &stream[from as usize..to as usize];
        let one =
            oracle::sets(alone).map_err(|number| format!("a set's bytes alone are refused: {number}"))?;
        check_objects(alone, 0, &oracle::objects(alone, &one[0]), tally)?;
        let objects = oracle::objects(stream, set);
        if number % (sets.len() as u64 / 4 + 1) == 0 {
            check_objects(stream, number, &objects, tally)?;
        }
        cards = cards.and_then(|lines| Ok(lines + &oracle::card(set, &objects?)));
    }
    check_cards(stream, cards, tally)
}

/// Compares the set records of a stream with those wanted.
pub fn check_sets(stream: &[u8], wanted: &WantedSets, tally: &mut Tally) -> Result<(), String> {
    tally.inputs.streams += 1;
    let input = Input::new(stream);
    list_calls(tally, "pgs_parse_display_sets", wanted, 4, |nothing, list, count| {
        library::parse_display_sets(&input, nothing, list, count)
    })?;
    input.holds(stream)
}

/// Compares the card lines of a stream with those wanted; a buffer is a list of single bytes.
pub fn check_cards(stream: &[u8], wanted: Result<String, u8>, tally: &mut Tally) -> Result<(), String> {
    let input = Input::new(stream);
    let wanted = wanted.map(|lines| ([], lines.bytes().map(|byte| [byte]).collect()));
    list_calls(tally, "pgs_cards", &wanted, 40, |nothing, out, written| {
        library::cards(&input, nothing, out, written)
    })?;
    input.holds(stream)
}

thread_local! {
    /// The stream and the scratch of one call after the other.
    static LENT: RefCell<(Input, LentBytes)> = RefCell::default();
}

/// Compares the objects of one set with those wanted. List and scratch are exactly long enough, longer, and in turn
/// one too short; where the call is refused in any case, none and some are lent.
pub fn check_objects(
    stream: &[u8],
    set: u64,
    wanted: &WantedObjects,
    tally: &mut Tally,
) -> Result<(), String> {
    let mut rooms = match wanted {
        Ok(objects) => {
            let (list, joined) = (objects.records.len(), objects.joined.len());
            let (less, shorter) = (list.saturating_sub(1), joined.saturating_sub(1));
            vec![
                (list, joined),
                (list + 2, joined + 5),
                (less, joined),
                (list, shorter),
                (less, shorter),
                (0, 0),
            ]
        }
        Err(_) => vec![(0, 0), (3, stream.len().min(100))],
    };
    rooms.dedup();
    LENT.with_borrow_mut(|(input, scratch)| {
        input.set(stream);
        for (list, joined) in rooms {
            object_call(tally, input, set, wanted, list, (joined, &mut *scratch)).map_err(|what| {
                format!("pgs_reassemble_objects, set {set}, {list} records and {joined} bytes lent: {what}")
            })?;
        }
        input.holds(stream)
    })
}

/// One call with a list of `room` records, and with some bytes of scratch.
fn object_call(
    tally: &mut Tally,
    input: &Input,
    set: u64,
    wanted: &WantedObjects,
    room: usize,
    (bytes, scratch): (usize, &mut LentBytes),
) -> Result<(), String> {
    let mut list = Lent::new(room, 7 * room as u64 + 3);
    let mut count = Lent::new(1, 41);
    let answer =
        library::reassemble_objects(input, set, (scratch.pointer(bytes), bytes), &mut list, &mut count);
    let (number, records, joined, counted): (u8, &[ObjectRecord], &[u8], Option<Count>) = match wanted {
        Ok(o) if o.records.len() <= room && o.joined.len() <= bytes => {
            (0, &o.records, &o.joined, Some([o.records.len() as u64]))
        }
        Ok(_) => (TOO_SHORT, &[], &[], None),
        Err(refusal) => (*refusal, &[], &[], None),
    };
    tally.called("pgs_reassemble_objects", number);
    let held = scratch.hold(bytes, joined).map_err(|what| format!("scratch: {what}"));
    same_number(answer, number)?;
    held?;
    list.holds("list", records)?;
    count.holds("count", counted.as_slice())
}
