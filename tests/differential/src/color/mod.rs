//! The layer of colours: the conversion, and palettes.

pub mod examples;
mod inputs;

use crate::compare::{bytes_call, Tally};
use crate::lent::LentBytes;
use crate::library::{self, EntryRecord};
use crate::numbers::TOO_SHORT;
use crate::run::Layer;
use published::pgs::{Palette, PaletteEntry, Pds};
use std::cell::RefCell;

pub use examples::EXAMPLES;

pub const LAYER: Layer = Layer {
    name: "color",
    groups: inputs::groups,
    answers: &[("pgs_clear_palette", &[0, 34]), ("pgs_apply_palette", &[0, 34])],
};

/// The bytes of a palette table: R, G, B and alpha of 256 indices.
pub const TABLE: usize = 1_024;

/// The Rust's colour as R·65536 + G·256 + B. Its conversion is private; the entry is made so that it is handed
/// these three values.
pub fn converted(y: u8, cb: u8, cr: u8) -> u32 {
    let [r, g, b, _] = exchanged(&[0, y, cr, cb, 0]).to_rgba().to_array();
    u32::from_be_bytes([0, r, g, b])
}

/// An entry for the Rust, its two chroma bytes exchanged: `to_rgba` hands each to where the other belongs.
fn exchanged(&[id, y, cr, cb, alpha]: &EntryRecord) -> PaletteEntry {
    PaletteEntry { palette_entry_id: id, y, cr: cb, cb: cr, alpha }
}

/// Compares one colour: Y, Cb, Cr.
pub fn check_color(input: &[u8], tally: &mut Tally) -> Result<(), String> {
    let &[y, cb, cr] = input else { return Err("a colour has 3 bytes".to_string()) };
    tally.inputs.colors += 1;
    tally.calls += 1;
    let (given, wanted) = (library::ycbcr709_to_rgb(y, cb, cr), converted(y, cb, cr));
    if given == wanted {
        return Ok(());
    }
    Err(format!("pgs_ycbcr709_to_rgb({y}, {cb}, {cr}) is {given:08X}, it should be {wanted:08X}"))
}

/// A palette segment: its id and its entries.
pub type Segment = (u8, Vec<EntryRecord>);

/// The named id and the segments: each is its id, its number of entries in 2 bytes, and the entries.
/// What is cut at the end is less.
pub fn parsed(input: &[u8]) -> Option<(u8, Vec<Segment>)> {
    let (named, mut rest) = input.split_first()?;
    let mut segments = Vec::new();
    while let [id, high, low, entries @ ..] = rest {
        let len = 5 * u16::from_be_bytes([*high, *low]) as usize;
        let (entries, after) = entries.split_at(len.min(entries.len()));
        let entries = entries.chunks_exact(5).map(|e| e.try_into().expect("5 bytes")).collect();
        segments.push((*id, entries));
        rest = after;
    }
    Some((*named, segments))
}

/// Compares palettes laid over a table one after the other, after each of them, and each alone.
pub fn check_palettes(input: &[u8], tally: &mut Tally) -> Result<(), String> {
    let (named, segments) = parsed(input).ok_or("palettes start with the named id")?;
    tally.inputs.palettes += 1;
    let published: Vec<Pds> = segments.iter().map(published_segment).collect();
    TABLES.with_borrow_mut(|lent| {
        for room in [0, TABLE - 1] {
            clear_call(room, (TOO_SHORT, &[]), lent, tally)?;
            for segment in &segments {
                apply_call(segment, named, room, (TOO_SHORT, &[]), lent, tally)?;
            }
        }
        for room in [TABLE, TABLE + 41] {
            for count in 0..=segments.len() {
                let wanted = table(&Palette::from_palettes_with_id(&published[..count], named));
                cleared_and_applied(&segments[..count], named, room, &wanted, lent, tally)?;
            }
            for (segment, pds) in segments.iter().zip(&published) {
                let wanted = laid_over(&lent.before(room)[..TABLE], pds, named);
                apply_call(segment, named, room, (0, &wanted), lent, tally)?;
            }
        }
        Ok(())
    })
}

thread_local! {
    static TABLES: RefCell<LentBytes> = RefCell::default();
}

fn published_segment((id, entries): &Segment) -> Pds {
    let entries = entries.iter().map(exchanged).collect();
    Pds { palette_id: *id, palette_version_number: 0, entries }
}

/// The Rust's table of one segment, where a composition names an id.
pub fn table_of(segment: &Segment, named: u8) -> Vec<u8> {
    table(&Palette::from_palettes_with_id(&[published_segment(segment)], named))
}

/// The Rust's palette as a table.
pub fn table(palette: &Palette) -> Vec<u8> {
    (0..=255).flat_map(|index| palette.get(index).to_array()).collect()
}

/// What a table that was not cleared holds after a segment: the Rust's colours where it has entries.
fn laid_over(before: &[u8], pds: &Pds, named: u8) -> Vec<u8> {
    let mut table = before.to_vec();
    let palette = Palette::from_palettes_with_id(std::slice::from_ref(pds), named);
    for entry in pds.entries.iter().filter(|_| pds.palette_id == named) {
        let index = entry.palette_entry_id;
        table[4 * index as usize..][..4].copy_from_slice(&palette.get(index).to_array());
    }
    table
}

/// A call answers this number, and the table then starts so.
type Then<'a> = (u8, &'a [u8]);

fn clear_call(room: usize, then: Then, lent: &mut LentBytes, tally: &mut Tally) -> Result<(), String> {
    bytes_call(tally, "pgs_clear_palette", then, room, lent, library::clear_palette)
}

/// The library's call. Another entry stands after the last: reading it would show.
fn apply((id, entries): &Segment, named: u8, table: *mut u8, len: usize) -> u8 {
    let mut longer = entries.clone();
    longer.push([id ^ 0x55; 5]);
    let answer = library::apply_palette(&longer[..entries.len()], *id, named, table, len);
    assert!(longer.starts_with(entries), "the call changed its entries");
    answer
}

fn apply_call(
    segment: &Segment,
    named: u8,
    room: usize,
    then: Then,
    lent: &mut LentBytes,
    tally: &mut Tally,
) -> Result<(), String> {
    bytes_call(tally, "pgs_apply_palette", then, room, lent, |table, len| apply(segment, named, table, len))
}

/// Clears a table and lays the segments over it.
pub fn cleared_and_applied(
    segments: &[Segment],
    named: u8,
    room: usize,
    wanted: &[u8],
    lent: &mut LentBytes,
    tally: &mut Tally,
) -> Result<(), String> {
    if segments.is_empty() {
        return clear_call(room, (0, wanted), lent, tally);
    }
    bytes_call(tally, "pgs_apply_palette", (0, wanted), room, lent, |table, len| {
        let cleared = library::clear_palette(table, len);
        let applied = segments.iter().map(|segment| apply(segment, named, table, len));
        applied.fold(cleared, |refused, answer| if refused == 0 { answer } else { refused })
    })
}
