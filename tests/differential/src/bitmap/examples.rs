//! Worked examples of bitmaps.

use super::*;
use crate::examples::{bytes, rust_gives, Example, Outcome};

pub const EXAMPLES: [Example; 4] = [
    (27, "which refusal is given first", order_in_a_bitmap),
    (28, "codes of length 0 are accepted everywhere", empty_runs),
    (29, "width 0, height 0", no_pixels),
    (30, "past the last line", past_the_last_line),
];

/// Width, height, data, and the pixels or the number.
pub type Sample = (u16, u16, &'static str, Result<&'static [u8], u8>);

/// The bitmaps of document 01.
pub const SAMPLES: [Sample; 12] = [
    (3, 1, "01 02 03", Ok(&[1, 2, 3])),
    (3, 1, "01 02 03 00 00", Ok(&[1, 2, 3])),
    (3, 1, "00 C0 03 09", Ok(&[9, 9, 9])),
    (2, 1, "00 40 00 00 82 07", Ok(&[7, 7])),
    (0, 2, "00 00 00 00", Ok(&[])),
    (0, 1, "", Err(32)),
    (2, 1, "05", Err(31)),
    (2, 1, "05 05 05", Err(24)),
    (2, 1, "00 00", Err(29)),
    (2, 1, "05 05 00", Err(25)),
    (2, 1, "05 05 00 00 06 06", Err(32)),
    (2, 1, "05 05 00 00 06 06 00 00", Err(30)),
];

/// Whether both sides give this answer.
pub fn bitmap_is(
    width: u16,
    height: u16,
    data: &str,
    wanted: Result<&[u8], u8>,
    tally: &mut Tally,
) -> Outcome {
    let data = bytes(data);
    let wanted = wanted.map(<[u8]>::to_vec);
    rust_gives(decoded(width, height, &data), &wanted)
        .and_then(|()| check_decoded(width, height, &data, &wanted, tally))
        .map_err(|what| format!("{width} by {height}, {data:02X?}: {what}"))
}

fn order_in_a_bitmap(tally: &mut Tally) -> Outcome {
    bitmap_is(2, 1, "05 05 00 00 00 00", Err(29), tally)?;
    bitmap_is(1, 1, "00 BF", Err(27), tally)?;
    bitmap_is(1, 1, "00 BF 07", Err(24), tally)?;
    for (cut, number) in [("00", 25), ("00 40", 26), ("00 80", 27), ("00 C0", 28), ("00 C0 01", 28)] {
        bitmap_is(1, 1, cut, Err(number), tally)?;
        bitmap_is(0, 0, cut, Err(number), tally)?;
    }
    // The first refused code decides, whatever comes after it.
    bitmap_is(2, 1, "05 05 05 00", Err(24), tally)?;
    bitmap_is(2, 1, "05 00 00 05 05 05", Err(29), tally)?;
    bitmap_is(1, 1, "05 00 00 05 00 00 00", Err(30), tally)?;
    // At the end, 31 before 32.
    bitmap_is(2, 7, "05 05 00 00 05", Err(31), tally)
}

fn empty_runs(tally: &mut Tally) -> Outcome {
    let pixels: &[u8] = &[5, 5];
    for code in ["00 40 00", "00 80 09", "00 80 00", "00 C0 00 09", "00 C0 00 00"] {
        for data in ["E 05 05", "05 E 05", "05 05 E", "05 05 E 00 00", "05 05 00 00 E", "05 05 00 00 E E"] {
            bitmap_is(2, 1, &data.replace('E', code), Ok(pixels), tally)?;
        }
        bitmap_is(2, 0, code, Ok(&[]), tally)?;
        bitmap_is(0, 0, code, Ok(&[]), tally)?;
    }
    Ok(())
}

fn no_pixels(tally: &mut Tally) -> Outcome {
    bitmap_is(0, 1, "", Err(32), tally)?;
    bitmap_is(0, 1, "00 40 00", Err(32), tally)?;
    bitmap_is(0, 1, "00 40 00 00 00", Ok(&[]), tally)?;
    bitmap_is(0, 0, "", Ok(&[]), tally)?;
    bitmap_is(0, 0, "00 00", Err(30), tally)?;
    bitmap_is(0, 0, "00 80 07", Ok(&[]), tally)?;
    bitmap_is(5, 0, "", Ok(&[]), tally)?;
    bitmap_is(5, 0, "01 02 03 04 05", Err(32), tally)?;
    bitmap_is(5, 0, "01 02 03 04 05 00 00", Err(30), tally)
}

fn past_the_last_line(tally: &mut Tally) -> Outcome {
    bitmap_is(2, 1, "05 05 00 00 06", Err(31), tally)?;
    bitmap_is(2, 1, "05 05 00 00 06 06", Err(32), tally)?;
    bitmap_is(2, 1, "05 05 00 00 06 06 00 00", Err(30), tally)?;
    bitmap_is(2, 1, "05 05 00 00 06 06 06", Err(24), tally)?;
    bitmap_is(2, 1, "05 05 00 00 00 C0 00 06 00 00", Err(29), tally)
}
