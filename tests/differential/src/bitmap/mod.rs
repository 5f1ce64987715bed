//! The layer of bitmaps: the run-length code.

pub mod codes;
pub mod examples;
mod inputs;

use crate::compare::{bytes_call, Tally};
use crate::lent::{Input, LentBytes};
use crate::library;
use crate::numbers::{number_of, TOO_SHORT};
use crate::run::Layer;
use published::pgs;
use std::cell::RefCell;

pub use examples::EXAMPLES;

pub const LAYER: Layer = Layer {
    name: "bitmap",
    groups: inputs::groups,
    answers: &[("pgs_decode_rle", &[0, 24, 25, 26, 27, 28, 29, 30, 31, 32, 34])],
};

/// The pixels, or the number.
pub type WantedPixels = Result<Vec<u8>, u8>;

/// What the published Rust decodes.
pub fn decoded(width: u16, height: u16, data: &[u8]) -> WantedPixels {
    let object = pgs::decode_rle(data, width, height).map_err(|e| number_of(&e))?;
    assert!((object.width, object.height) == (width, height), "the Rust changed the dimensions");
    Ok(object.pixels)
}

/// Compares one bitmap: width and height in 2 bytes each, then the data.
pub fn check(input: &[u8], tally: &mut Tally) -> Result<(), String> {
    let (dimensions, data) = input.split_at_checked(4).ok_or("a bitmap starts with its width and height")?;
    let width = u16::from_be_bytes([dimensions[0], dimensions[1]]);
    let height = u16::from_be_bytes([dimensions[2], dimensions[3]]);
    check_decoded(width, height, data, &decoded(width, height, data), tally)
        .map_err(|what| format!("{width} by {height}: {what}"))
}

thread_local! {
    /// The data and the pixels of one call after the other: most bitmaps are small, and there are many.
    static LENT: RefCell<(Input, LentBytes)> = RefCell::default();
}

/// The most bytes that are lent to a call that is refused whatever is lent.
const SPARE: usize = 1 << 22;

/// Compares with the wanted answer. Lends no bytes, one too few, exactly enough, and more.
pub fn check_decoded(
    width: u16,
    height: u16,
    data: &[u8],
    wanted: &WantedPixels,
    tally: &mut Tally,
) -> Result<(), String> {
    tally.inputs.bitmaps += 1;
    let need = width as usize * height as usize;
    let (rooms, used) = match wanted {
        Ok(pixels) => {
            assert!(pixels.len() == need, "the Rust decodes {} pixels, not {need}", pixels.len());
            ([need, need + 2, 0, need.saturating_sub(1)], if need > 1 { 4 } else { 2 + need })
        }
        Err(_) => ([0, need.min(SPARE) + 2, 0, 0], 2),
    };
    LENT.with_borrow_mut(|(input, lent)| {
        input.set(data);
        for room in &rooms[..used] {
            let then: (u8, &[u8]) = match wanted {
                Ok(pixels) if need <= *room => (0, pixels),
                Ok(_) => (TOO_SHORT, &[]),
                Err(number) => (*number, &[]),
            };
            bytes_call(tally, "pgs_decode_rle", then, *room, lent, |pixels, len| {
                library::decode_rle(input, width, height, pixels, len)
            })?;
        }
        input.holds(data)
    })
}
