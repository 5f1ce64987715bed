//! The examples on the support sheet, docs/REFUSALS.md, run on both sides.
//!
//! Under the heading of a number, a line 'Example: `HEX`' is a stream whose first set is to be painted, and
//! 'Example, bitmap W by H: `HEX`' is the data of a bitmap. Each must be refused with that number.

use crate::bitmap;
use crate::compare::Tally;
use crate::numbers::number_of;
use crate::run::unhex;
use crate::{paint, segments, sets};
use published::pgs;

const SHEET: &str = include_str!("../../../docs/REFUSALS.md");

/// The numbers that have no example: 7 cannot happen, 23 takes 65 objects, 34 to 36 are not the stream's fault.
const WITHOUT_EXAMPLE: [u8; 5] = [7, 23, 34, 35, 36];

/// Runs every example of the sheet, and sees that no number is left out.
pub fn run(tally: &mut Tally) -> Result<(), String> {
    let mut examples = 0;
    let mut numbers = Vec::new();
    for entry in SHEET.split("\n## ").skip(1) {
        let Some(number) = entry.split(' ').next().and_then(|word| word.parse().ok()) else { continue };
        numbers.push(number);
        let lines: Vec<&str> = entry.lines().filter(|line| line.starts_with("- Example")).collect();
        if lines.is_empty() != WITHOUT_EXAMPLE.contains(&number) {
            return Err(format!("sheet: {number} has {} examples", lines.len()));
        }
        for line in lines {
            example(number, line, tally).map_err(|e| format!("sheet: {number}: {e}: {line}"))?;
            examples += 1;
        }
    }
    if numbers != (1..=36).collect::<Vec<u8>>() {
        return Err(format!("sheet: the numbers are {numbers:?}"));
    }
    println!("sheet: 36 numbers, {examples} examples hold");
    Ok(())
}

fn example(number: u8, line: &str, tally: &mut Tally) -> Result<(), String> {
    let (form, rest) = line.split_once('`').ok_or("no bytes")?;
    let bytes = rest.strip_suffix('`').and_then(unhex).ok_or("not hexadecimal digits")?;
    let sizes: Vec<u16> = form.split([' ', ':']).filter_map(|word| word.parse().ok()).collect();
    let given = match sizes[..] {
        [] => {
            segments::check_stream(&bytes, tally)?;
            sets::check(&bytes, tally)?;
            paint::check(&bytes, tally)?;
            paint_first(&bytes).map_err(|e| number_of(&e))
        }
        [width, height] => {
            let decoded = bitmap::decoded(width, height, &bytes);
            bitmap::check_decoded(width, height, &bytes, &decoded, tally)?;
            decoded.map(|_| ())
        }
        _ => return Err("neither a stream nor a bitmap".to_string()),
    };
    match given {
        Err(given) if given == number => Ok(()),
        other => Err(format!("the published Rust says {other:?}")),
    }
}

fn paint_first(stream: &[u8]) -> published::error::Result<()> {
    match pgs::parse_display_sets(stream)?.first() {
        Some(set) => set.render().map(|_| ()),
        None => Ok(()),
    }
}
