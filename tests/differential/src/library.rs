//! The library's C functions, as include/pgs.h declares them. Each answers 0 or a refusal's number.

use crate::lent::{Input, Lent};

/// Place, PTS, DTS, kind's byte, body length.
pub type SegmentRecord = [u64; 5];
/// Width, height, frame rate, composition number, state, palette update flag, palette id.
pub type PcsRecord = [u16; 7];
/// Object id, window id, crop flag, x, y, crop present, crop x, y, width, height.
pub type PlacementRecord = [u16; 10];
/// Id, x, y, width, height.
pub type WindowRecord = [u16; 5];
/// Id, version.
pub type PdsRecord = [u8; 2];
/// Id, Y, Cr, Cb, alpha.
pub type EntryRecord = [u8; 5];
/// Id, version, flag, declared length, dimensions present, width, height, place of the data, its length.
pub type OdsRecord = [u64; 9];
/// Id, version, flag, declared length, dimensions present, width, height: an ODS that is to be written.
pub type OdsCells = [u32; 7];
/// Place of the PCS, place just after the END, PTS of the PCS.
pub type SetRecord = [u64; 3];
/// Id, version, width, height, holder, place, length.
pub type ObjectRecord = [u64; 7];
/// Width, height, PTS.
pub type ShownRecord = [u64; 3];
/// A byte of a buffer.
pub type Byte = [u8; 1];
/// A number of records.
pub type Count = [u64; 1];
/// For calls that answer a list and nothing beside it.
pub type Nothing = [u8; 0];

mod c {
    use super::*;

    extern "C" {
        pub fn pgs_parse_segments(
            stream: *const u8,
            stream_len: usize,
            segments: *mut SegmentRecord,
            segments_len: usize,
            count: *mut Count,
        ) -> u8;
        pub fn pgs_parse_pcs(
            body: *const u8,
            body_len: usize,
            pcs: *mut PcsRecord,
            placements: *mut PlacementRecord,
            placements_len: usize,
            count: *mut Count,
        ) -> u8;
        pub fn pgs_parse_wds(
            body: *const u8,
            body_len: usize,
            windows: *mut WindowRecord,
            windows_len: usize,
            count: *mut Count,
        ) -> u8;
        pub fn pgs_parse_pds(
            body: *const u8,
            body_len: usize,
            pds: *mut PdsRecord,
            entries: *mut EntryRecord,
            entries_len: usize,
            count: *mut Count,
        ) -> u8;
        pub fn pgs_parse_ods(body: *const u8, body_len: usize, ods: *mut OdsRecord) -> u8;
        pub fn pgs_encode_pcs(
            pts: u32,
            dts: u32,
            pcs: *const PcsRecord,
            placements: *const PlacementRecord,
            placements_len: usize,
            out: *mut u8,
            out_len: usize,
            written: *mut Count,
        ) -> u8;
        pub fn pgs_encode_wds(
            pts: u32,
            dts: u32,
            windows: *const WindowRecord,
            windows_len: usize,
            out: *mut u8,
            out_len: usize,
            written: *mut Count,
        ) -> u8;
        pub fn pgs_encode_pds(
            pts: u32,
            dts: u32,
            pds: *const PdsRecord,
            entries: *const EntryRecord,
            entries_len: usize,
            out: *mut u8,
            out_len: usize,
            written: *mut Count,
        ) -> u8;
        pub fn pgs_encode_ods(
            pts: u32,
            dts: u32,
            ods: *const OdsCells,
            data: *const u8,
            data_len: usize,
            out: *mut u8,
            out_len: usize,
            written: *mut Count,
        ) -> u8;
        pub fn pgs_encode_end(pts: u32, dts: u32, out: *mut u8, out_len: usize, written: *mut Count) -> u8;
        pub fn pgs_encode_other(
            pts: u32,
            dts: u32,
            kind: u8,
            data: *const u8,
            data_len: usize,
            out: *mut u8,
            out_len: usize,
            written: *mut Count,
        ) -> u8;
        pub fn pgs_write_segments(
            stream: *const u8,
            stream_len: usize,
            writes: u64,
            out: *mut u8,
            out_len: usize,
            accepted: *mut Count,
            written: *mut Count,
        ) -> u8;
        pub fn pgs_decode_rle(
            data: *const u8,
            data_len: usize,
            width: u16,
            height: u16,
            pixels: *mut u8,
            pixels_len: usize,
        ) -> u8;
        pub fn pgs_ycbcr709_to_rgb(y: u8, cb: u8, cr: u8) -> u32;
        pub fn pgs_clear_palette(table: *mut u8, table_len: usize) -> u8;
        pub fn pgs_apply_palette(
            entries: *const EntryRecord,
            entries_len: usize,
            palette_id: u8,
            named: u8,
            table: *mut u8,
            table_len: usize,
        ) -> u8;
        pub fn pgs_parse_display_sets(
            stream: *const u8,
            stream_len: usize,
            sets: *mut SetRecord,
            sets_len: usize,
            count: *mut Count,
        ) -> u8;
        pub fn pgs_reassemble_objects(
            stream: *const u8,
            stream_len: usize,
            set: u64,
            scratch: *mut u8,
            scratch_len: usize,
            objects: *mut ObjectRecord,
            objects_len: usize,
            count: *mut Count,
        ) -> u8;
        pub fn pgs_render(
            stream: *const u8,
            stream_len: usize,
            set: u64,
            scratch: *mut u8,
            scratch_len: usize,
            plane: *mut u8,
            plane_len: usize,
            shown: *mut ShownRecord,
        ) -> u8;
        pub fn pgs_cards(
            stream: *const u8,
            stream_len: usize,
            out: *mut Byte,
            out_len: usize,
            written: *mut Count,
        ) -> u8;
    }
}

pub fn parse_segments(
    stream: &Input,
    _: &mut Lent<Nothing>,
    segments: &mut Lent<SegmentRecord>,
    count: &mut Lent<Count>,
) -> u8 {
    parse_segments_at(stream.pointer(), stream.len(), segments, count)
}

/// The same for a stream that is too long to be copied.
pub fn parse_segments_at(
    stream: *const u8,
    stream_len: usize,
    segments: &mut Lent<SegmentRecord>,
    count: &mut Lent<Count>,
) -> u8 {
    let len = segments.len();
    unsafe { c::pgs_parse_segments(stream, stream_len, segments.pointer(), len, count.pointer()) }
}

pub fn parse_pcs(
    body: &Input,
    pcs: &mut Lent<PcsRecord>,
    placements: &mut Lent<PlacementRecord>,
    count: &mut Lent<Count>,
) -> u8 {
    let len = placements.len();
    unsafe {
        c::pgs_parse_pcs(
            body.pointer(),
            body.len(),
            pcs.pointer(),
            placements.pointer(),
            len,
            count.pointer(),
        )
    }
}

pub fn parse_wds(
    body: &Input,
    _: &mut Lent<Nothing>,
    windows: &mut Lent<WindowRecord>,
    count: &mut Lent<Count>,
) -> u8 {
    let len = windows.len();
    unsafe { c::pgs_parse_wds(body.pointer(), body.len(), windows.pointer(), len, count.pointer()) }
}

pub fn parse_pds(
    body: &Input,
    pds: &mut Lent<PdsRecord>,
    entries: &mut Lent<EntryRecord>,
    count: &mut Lent<Count>,
) -> u8 {
    let len = entries.len();
    unsafe {
        c::pgs_parse_pds(body.pointer(), body.len(), pds.pointer(), entries.pointer(), len, count.pointer())
    }
}

pub fn parse_ods(body: &Input, ods: &mut Lent<OdsRecord>) -> u8 {
    unsafe { c::pgs_parse_ods(body.pointer(), body.len(), ods.pointer()) }
}

/// The output of a writer: the lent bytes, their number, and where the number of written ones goes.
pub type Out<'a> = (*mut u8, usize, &'a mut Lent<Count>);

/// PTS and DTS.
pub type Times = (u32, u32);

/// What is handed to the writers is lent for writing, though nothing may be written there: a stray store is seen,
/// not undefined.
pub fn encode_pcs(
    (pts, dts): Times,
    pcs: &mut PcsRecord,
    placements: &mut [PlacementRecord],
    (out, len, written): Out,
) -> u8 {
    let (list, count) = (placements.as_mut_ptr(), placements.len());
    unsafe { c::pgs_encode_pcs(pts, dts, pcs, list, count, out, len, written.pointer()) }
}

pub fn encode_wds((pts, dts): Times, windows: &mut [WindowRecord], (out, len, written): Out) -> u8 {
    let (list, count) = (windows.as_mut_ptr(), windows.len());
    unsafe { c::pgs_encode_wds(pts, dts, list, count, out, len, written.pointer()) }
}

pub fn encode_pds(
    (pts, dts): Times,
    pds: &mut PdsRecord,
    entries: &mut [EntryRecord],
    (out, len, written): Out,
) -> u8 {
    let (list, count) = (entries.as_mut_ptr(), entries.len());
    unsafe { c::pgs_encode_pds(pts, dts, pds, list, count, out, len, written.pointer()) }
}

pub fn encode_ods((pts, dts): Times, ods: &mut OdsCells, data: &mut [u8], (out, len, written): Out) -> u8 {
    let (data, data_len) = (data.as_mut_ptr(), data.len());
    unsafe { c::pgs_encode_ods(pts, dts, ods, data, data_len, out, len, written.pointer()) }
}

pub fn encode_end((pts, dts): Times, (out, len, written): Out) -> u8 {
    unsafe { c::pgs_encode_end(pts, dts, out, len, written.pointer()) }
}

pub fn encode_other((pts, dts): Times, kind: u8, data: &mut [u8], (out, len, written): Out) -> u8 {
    let (data, data_len) = (data.as_mut_ptr(), data.len());
    unsafe { c::pgs_encode_other(pts, dts, kind, data, data_len, out, len, written.pointer()) }
}

pub fn write_segments(
    stream: &Input,
    writes: u64,
    (out, len, written): Out,
    accepted: &mut Lent<Count>,
) -> u8 {
    unsafe {
        c::pgs_write_segments(
            stream.pointer(),
            stream.len(),
            writes,
            out,
            len,
            accepted.pointer(),
            written.pointer(),
        )
    }
}

pub fn decode_rle(data: &Input, width: u16, height: u16, pixels: *mut u8, len: usize) -> u8 {
    unsafe { c::pgs_decode_rle(data.pointer(), data.len(), width, height, pixels, len) }
}

/// R·65536 + G·256 + B.
pub fn ycbcr709_to_rgb(y: u8, cb: u8, cr: u8) -> u32 {
    unsafe { c::pgs_ycbcr709_to_rgb(y, cb, cr) }
}

pub fn clear_palette(table: *mut u8, len: usize) -> u8 {
    unsafe { c::pgs_clear_palette(table, len) }
}

pub fn apply_palette(entries: &[EntryRecord], palette_id: u8, named: u8, table: *mut u8, len: usize) -> u8 {
    unsafe { c::pgs_apply_palette(entries.as_ptr(), entries.len(), palette_id, named, table, len) }
}

pub fn parse_display_sets(
    stream: &Input,
    _: &mut Lent<Nothing>,
    sets: &mut Lent<SetRecord>,
    count: &mut Lent<Count>,
) -> u8 {
    let len = sets.len();
    unsafe { c::pgs_parse_display_sets(stream.pointer(), stream.len(), sets.pointer(), len, count.pointer()) }
}

pub fn reassemble_objects(
    stream: &Input,
    set: u64,
    (scratch, scratch_len): (*mut u8, usize),
    objects: &mut Lent<ObjectRecord>,
    count: &mut Lent<Count>,
) -> u8 {
    let len = objects.len();
    unsafe {
        c::pgs_reassemble_objects(
            stream.pointer(),
            stream.len(),
            set,
            scratch,
            scratch_len,
            objects.pointer(),
            len,
            count.pointer(),
        )
    }
}

pub fn render(
    stream: &Input,
    set: u64,
    (scratch, scratch_len): (*mut u8, usize),
    (plane, plane_len): (*mut u8, usize),
    shown: &mut Lent<ShownRecord>,
) -> u8 {
    let (from, len) = (stream.pointer(), stream.len());
    unsafe { c::pgs_render(from, len, set, scratch, scratch_len, plane, plane_len, shown.pointer()) }
}

pub fn cards(stream: &Input, _: &mut Lent<Nothing>, out: &mut Lent<Byte>, written: &mut Lent<Count>) -> u8 {
    let len = out.len();
    unsafe { c::pgs_cards(stream.pointer(), stream.len(), out.pointer(), len, written.pointer()) }
}

/// Some of the calls with plain memory, for measuring.
pub mod plain {
    use super::*;

    pub fn parse_segments(stream: &[u8], list: &mut [SegmentRecord], count: &mut Count) -> u8 {
        unsafe { c::pgs_parse_segments(stream.as_ptr(), stream.len(), list.as_mut_ptr(), list.len(), count) }
    }

    pub fn parse_display_sets(stream: &[u8], list: &mut [SetRecord], count: &mut Count) -> u8 {
        unsafe {
            c::pgs_parse_display_sets(stream.as_ptr(), stream.len(), list.as_mut_ptr(), list.len(), count)
        }
    }

    pub fn reassemble_objects(
        stream: &[u8],
        set: u64,
        scratch: &mut [u8],
        list: &mut [ObjectRecord],
        count: &mut Count,
    ) -> u8 {
        let (from, len) = (stream.as_ptr(), stream.len());
        let (room, size) = (scratch.as_mut_ptr(), scratch.len());
        unsafe { c::pgs_reassemble_objects(from, len, set, room, size, list.as_mut_ptr(), list.len(), count) }
    }

    pub fn render(
        stream: &[u8],
        set: u64,
        scratch: &mut [u8],
        plane: &mut [u8],
        shown: &mut ShownRecord,
    ) -> u8 {
        let (from, len) = (stream.as_ptr(), stream.len());
        let (room, size) = (scratch.as_mut_ptr(), scratch.len());
        unsafe { c::pgs_render(from, len, set, room, size, plane.as_mut_ptr(), plane.len(), shown) }
    }

    pub fn write_segments(stream: &[u8], out: &mut [u8], accepted: &mut Count, written: &mut Count) -> u8 {
        let (from, len) = (stream.as_ptr(), stream.len());
        unsafe { c::pgs_write_segments(from, len, u64::MAX, out.as_mut_ptr(), out.len(), accepted, written) }
    }

    pub fn decode_rle(data: &[u8], width: u16, height: u16, pixels: &mut [u8]) -> u8 {
        unsafe {
            c::pgs_decode_rle(data.as_ptr(), data.len(), width, height, pixels.as_mut_ptr(), pixels.len())
        }
    }
}
