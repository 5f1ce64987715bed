//! The sample bitmaps, colours and cards of document 01, run on both sides.

use crate::bitmap::examples as bitmap;
use crate::color::examples as color;
use crate::compare::Tally;
use crate::examples::bytes;
use crate::sets;

/// One set, and its card line.
const CARDS: &str = "504700015F900000000016000B0780043810000180000500504700015F9000000000800000";
const LINE: &str = "0000000000015F90000180050007800438";

pub fn run(tally: &mut Tally) -> Result<(), String> {
    for (width, height, data, wanted) in bitmap::SAMPLES {
        bitmap::bitmap_is(width, height, data, wanted, tally).map_err(|e| format!("sample bitmap {e}"))?;
    }
    for (sample, wanted) in color::SAMPLES {
        color::color_is(sample, wanted, tally).map_err(|e| format!("sample colour {sample:?}: {e}"))?;
    }
    sets::check_cards(&bytes(CARDS), Ok(format!("{LINE}\n")), tally)
        .map_err(|e| format!("sample cards: {e}"))?;
    sets::check(&bytes(CARDS), tally).map_err(|e| format!("sample cards: {e}"))?;
    println!(
        "samples: {} bitmaps, {} colours and the card hold",
        bitmap::SAMPLES.len(),
        color::SAMPLES.len()
    );
    Ok(())
}
