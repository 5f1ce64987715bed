//! What a word of the command line compares: the word stands in every report of a mismatch, and in every regression.

use crate::compare::Tally;
use crate::{bitmap, color, paint, segments, sets, writer};

/// Compares one input.
pub type Check = fn(&[u8], &mut Tally) -> Result<(), String>;

/// The word, or two words for a body.
pub const COMMANDS: [(&str, Check); 13] = [
    ("stream", segments::check_stream),
    ("body 14", |body, tally| segments::check_body(0x14, body, tally)),
    ("body 15", |body, tally| segments::check_body(0x15, body, tally)),
    ("body 16", |body, tally| segments::check_body(0x16, body, tally)),
    ("body 17", |body, tally| segments::check_body(0x17, body, tally)),
    ("writes", writer::check),
    ("fields", writer::check_input),
    ("sets", sets::check),
    ("browse", sets::check_browsing),
    ("paint", paint::check),
    ("bitmap", bitmap::check),
    ("color", color::check_color),
    ("palettes", color::check_palettes),
];

/// The comparison that a command names.
pub fn check_of(command: &str) -> Option<Check> {
    COMMANDS.iter().find(|(name, _)| *name == command).map(|(_, check)| *check)
}
