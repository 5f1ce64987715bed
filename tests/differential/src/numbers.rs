//! The refusal's number for each message of the published Rust.

use published::error::BlurayError;
use std::collections::BTreeSet;

/// Given when a lent buffer or list is too short; the Rust lends nothing, so it has no message for it.
pub const TOO_SHORT: u8 = 34;

/// Given when the format cannot hold the fields that are to be written; the Rust writes other ones.
pub const NOT_ENCODABLE: u8 = 35;

/// Each message that reading, grouping, joining, decoding and painting can give, with its number.
/// 23, 34, 35 and 36 are refusals that the Rust lacks.
pub const NUMBERS: [(u8, &str); 32] = [
    (1, "PG segment header truncated"),
    (2, "PG segment header bad magic"),
    (3, "PG segment body truncated"),
    (4, "PGS segment body read past end"),
    (5, "PDS body not a whole number of 5-byte palette entries"),
    (6, "END segment with non-zero body"),
    (7, "PG segment zero-length advance"),
    (8, "PGS Display Set opened a second PCS before END"),
    (9, "PGS WDS before any PCS"),
    (10, "PGS PDS before any PCS"),
    (11, "PGS ODS before any PCS"),
    (12, "PGS Display Set with more than one WDS"),
    (13, "PGS END before any PCS"),
    (14, "PGS unknown segment before any PCS"),
    (15, "PGS trailing Display Set without an END segment"),
    (16, "PGS ODS second First fragment for an open object_id"),
    (17, "PGS ODS duplicate object_id within a Display Set"),
    (18, "PGS ODS continuation fragment with no open object_id"),
    (19, "PGS ODS continuation after the chain was already closed"),
    (20, "PGS ODS object chain never received a Last fragment"),
    (21, "PGS ODS object_data_length shorter than the 4 dimension bytes"),
    (22, "PGS ODS reassembled RLE length disagrees with object_data_length"),
    (24, "PGS RLE run overruns object width"),
    (25, "PGS RLE truncated after escape"),
    (26, "PGS RLE truncated long run"),
    (27, "PGS RLE truncated short colour run"),
    (28, "PGS RLE truncated long colour run"),
    (29, "PGS RLE short scanline"),
    (30, "PGS RLE too many scanlines"),
    (31, "PGS RLE trailing partial scanline"),
    (32, "PGS RLE scanline count mismatch"),
    (33, "PGS composition object references an object_id absent from the Display Set"),
];

/// Messages without a number: a first fragment that was read always has its dimensions.
const NEVER_GIVEN: [&str; 2] =
    ["PGS ODS First fragment missing width", "PGS ODS First fragment missing height"];

/// The number that stands for what the Rust says.
pub fn number_of(error: &BlurayError) -> u8 {
    let BlurayError::Malformed(said) = error else {
        panic!("the published Rust gave an error that is not Malformed: {error}");
    };
    match NUMBERS.iter().find(|(_, message)| message == said) {
        Some((number, _)) => *number,
        None => panic!("the published Rust gave a message without a number: {said}"),
    }
}

/// Whether the two tables above hold exactly the messages of the published text.
pub fn complete(text: &str) -> Result<(), String> {
    let ours: BTreeSet<&str> = NUMBERS.iter().map(|(_, message)| *message).chain(NEVER_GIVEN).collect();
    let theirs: BTreeSet<&str> = text.split("malformed(").skip(1).filter_map(quoted).collect();
    if ours == theirs {
        return Ok(());
    }
    let unlike: Vec<_> = ours.symmetric_difference(&theirs).collect();
    Err(format!("messages of the published Rust and of the table of numbers differ: {unlike:?}"))
}

/// The string literal that the text starts with, white space aside.
fn quoted(text: &str) -> Option<&str> {
    text.trim_start().strip_prefix('"')?.split('"').next()
}
