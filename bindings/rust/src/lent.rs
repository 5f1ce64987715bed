//! The library's functions, with lists and buffers that the caller lends.
//!
//! A list or buffer is filled from the front; the answer says how many records or bytes were stored, and what lies
//! past them stays as it was. One that is too short is [`Refusal::BufferTooSmall`](crate::Refusal::BufferTooSmall).
//! include/pgs.h says of each function which refusals it gives.
//!
//! Every pointer that is handed over comes from a slice or a reference, so it is valid, aligned and not null, and what
//! is lent for writing overlaps nothing else: that is all that the library asks of its callers.

use crate::c;
use crate::records::*;
use crate::refusal::accepted;
use crate::Result;

/// PTS and DTS of a segment that is to be written.
#[derive(Clone, Copy, Debug, Default, PartialEq, Eq)]
pub struct Times {
    pub pts: u32,
    pub dts: u32,
}

/// What a list of writes came to.
#[derive(Clone, Copy, Debug, Default, PartialEq, Eq)]
pub struct Writes {
    /// The number of accepted writes.
    pub accepted: u64,
    /// The bytes that they take, from the front of the output.
    pub written: usize,
}

/// Calls a function that stores a number where it is told, and answers that number.
fn counted(call: impl FnOnce(*mut u64) -> u8) -> Result<usize> {
    let mut count = 0;
    accepted(call(&mut count))?;
    Ok(count as usize)
}

/// The segments of a whole stream, in order.
pub fn parse_segments(stream: &[u8], segments: &mut [Segment]) -> Result<usize> {
    let (list, room) = (segments.as_mut_ptr(), segments.len());
    counted(|count| unsafe { c::pgs_parse_segments(stream.as_ptr(), stream.len(), list, room, count) })
}

/// The body of a PCS, and its placements.
pub fn parse_pcs(body: &[u8], pcs: &mut Pcs, placements: &mut [Placement]) -> Result<usize> {
    let (list, room) = (placements.as_mut_ptr(), placements.len());
    counted(|count| unsafe { c::pgs_parse_pcs(body.as_ptr(), body.len(), pcs, list, room, count) })
}

/// The windows of a WDS body.
pub fn parse_wds(body: &[u8], windows: &mut [Window]) -> Result<usize> {
    let (list, room) = (windows.as_mut_ptr(), windows.len());
    counted(|count| unsafe { c::pgs_parse_wds(body.as_ptr(), body.len(), list, room, count) })
}

/// The body of a PDS, and its entries.
pub fn parse_pds(body: &[u8], pds: &mut Pds, entries: &mut [Entry]) -> Result<usize> {
    let (list, room) = (entries.as_mut_ptr(), entries.len());
    counted(|count| unsafe { c::pgs_parse_pds(body.as_ptr(), body.len(), pds, list, room, count) })
}

/// The body of an ODS.
pub fn parse_ods(body: &[u8], ods: &mut Ods) -> Result<()> {
    accepted(unsafe { c::pgs_parse_ods(body.as_ptr(), body.len(), ods) })
}

/// The display sets of a whole stream, in order.
pub fn parse_display_sets(stream: &[u8], sets: &mut [DisplaySet]) -> Result<usize> {
    let (list, room) = (sets.as_mut_ptr(), sets.len());
    counted(|count| unsafe { c::pgs_parse_display_sets(stream.as_ptr(), stream.len(), list, room, count) })
}

/// The objects of one set, counted from 0. Those of several fragments are joined in the scratch.
pub fn reassemble_objects(
    stream: &[u8],
    set: u64,
    scratch: &mut [u8],
    objects: &mut [Object],
) -> Result<usize> {
    let (from, length) = (stream.as_ptr(), stream.len());
    let (list, room) = (objects.as_mut_ptr(), objects.len());
    let (bytes, size) = (scratch.as_mut_ptr(), scratch.len());
    counted(|count| unsafe { c::pgs_reassemble_objects(from, length, set, bytes, size, list, room, count) })
}

/// The palette indices of a bitmap, row by row: width times height bytes.
pub fn decode_rle(data: &[u8], width: u16, height: u16, pixels: &mut [u8]) -> Result<()> {
    let (out, room) = (pixels.as_mut_ptr(), pixels.len());
    accepted(unsafe { c::pgs_decode_rle(data.as_ptr(), data.len(), width, height, out, room) })
}

/// R, G and B of Y, Cb and Cr by ITU-R BT.709. Mind the order: an entry has Cr before Cb.
pub fn ycbcr709_to_rgb(y: u8, cb: u8, cr: u8) -> [u8; 3] {
    let [_, r, g, b] = unsafe { c::pgs_ycbcr709_to_rgb(y, cb, cr) }.to_be_bytes();
    [r, g, b]
}

/// Clears a palette table of 1,024 bytes: R, G, B and alpha of each index.
pub fn clear_palette(table: &mut [u8]) -> Result<()> {
    accepted(unsafe { c::pgs_clear_palette(table.as_mut_ptr(), table.len()) })
}

/// Lays the entries of one PDS over a table, if its id is the named one.
pub fn apply_palette(entries: &[Entry], palette_id: u8, named: u8, table: &mut [u8]) -> Result<()> {
    let (list, count) = (entries.as_ptr(), entries.len());
    let (out, room) = (table.as_mut_ptr(), table.len());
    accepted(unsafe { c::pgs_apply_palette(list, count, palette_id, named, out, room) })
}

/// Paints one set, counted from 0: R, G, B and alpha of each pixel, row by row. The scratch gets the joined data of the
/// objects and their bitmaps; refused by one of 24 to 33, the call has written the joined data there.
pub fn render(
    stream: &[u8],
    set: u64,
    scratch: &mut [u8],
    plane: &mut [u8],
    shown: &mut Shown,
) -> Result<()> {
    let (from, length) = (stream.as_ptr(), stream.len());
    let (bytes, size) = (scratch.as_mut_ptr(), scratch.len());
    let (pixels, room) = (plane.as_mut_ptr(), plane.len());
    accepted(unsafe { c::pgs_render(from, length, set, bytes, size, pixels, room, shown) })
}

/// A line of text for each set of a stream.
pub fn cards(stream: &[u8], out: &mut [u8]) -> Result<usize> {
    let (lines, room) = (out.as_mut_ptr(), out.len());
    counted(|written| unsafe { c::pgs_cards(stream.as_ptr(), stream.len(), lines, room, written) })
}

/// Writes a PCS; answers its length.
pub fn encode_pcs(times: Times, pcs: &Pcs, placements: &[Placement], out: &mut [u8]) -> Result<usize> {
    let (list, count) = (placements.as_ptr(), placements.len());
    let (to, room) = (out.as_mut_ptr(), out.len());
    counted(|written| unsafe { c::pgs_encode_pcs(times.pts, times.dts, pcs, list, count, to, room, written) })
}

/// Writes a WDS; answers its length.
pub fn encode_wds(times: Times, windows: &[Window], out: &mut [u8]) -> Result<usize> {
    let (list, count) = (windows.as_ptr(), windows.len());
    let (to, room) = (out.as_mut_ptr(), out.len());
    counted(|written| unsafe { c::pgs_encode_wds(times.pts, times.dts, list, count, to, room, written) })
}

/// Writes a PDS; answers its length.
pub fn encode_pds(times: Times, pds: &Pds, entries: &[Entry], out: &mut [u8]) -> Result<usize> {
    let (list, count) = (entries.as_ptr(), entries.len());
    let (to, room) = (out.as_mut_ptr(), out.len());
    counted(|written| unsafe { c::pgs_encode_pds(times.pts, times.dts, pds, list, count, to, room, written) })
}

/// Writes an ODS; answers its length.
pub fn encode_ods(times: Times, ods: &OdsNumbers, data: &[u8], out: &mut [u8]) -> Result<usize> {
    let (from, length) = (data.as_ptr(), data.len());
    let (to, room) = (out.as_mut_ptr(), out.len());
    counted(|written| unsafe {
        c::pgs_encode_ods(times.pts, times.dts, ods, from, length, to, room, written)
    })
}

/// Writes an END; answers its length.
pub fn encode_end(times: Times, out: &mut [u8]) -> Result<usize> {
    let (to, room) = (out.as_mut_ptr(), out.len());
    counted(|written| unsafe { c::pgs_encode_end(times.pts, times.dts, to, room, written) })
}

/// Writes a segment of an unknown kind; answers its length.
pub fn encode_other(times: Times, kind: u8, data: &[u8], out: &mut [u8]) -> Result<usize> {
    let (from, length) = (data.as_ptr(), data.len());
    let (to, room) = (out.as_mut_ptr(), out.len());
    counted(|written| unsafe {
        c::pgs_encode_other(times.pts, times.dts, kind, from, length, to, room, written)
    })
}

/// Writes the first segments of a stream again, as many as `writes` says or there are. A write that does not fit in
/// what is left of the output is refused by itself, and the next is tried.
pub fn write_segments(stream: &[u8], writes: u64, out: &mut [u8]) -> Result<Writes> {
    let (from, length) = (stream.as_ptr(), stream.len());
    let (to, room) = (out.as_mut_ptr(), out.len());
    let mut done = 0;
    let written = counted(|written| unsafe {
        c::pgs_write_segments(from, length, writes, to, room, &mut done, written)
    })?;
    Ok(Writes { accepted: done, written })
}
