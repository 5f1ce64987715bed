//! What should be written: the published Rust's `Segment::encode`, and document 01's words where the Rust has none.

use super::fields::{Body, Fields};
use crate::generate::{CROPPED, KNOWN, PCS, WDS};
use crate::library::{EntryRecord, OdsCells, PcsRecord, PdsRecord, PlacementRecord, WindowRecord};
use crate::numbers::NOT_ENCODABLE;
use crate::segments::oracle::LARGEST_BODY;
use published::pgs::{
    CompositionObject, CompositionObjectCrop, Ods, PaletteEntry, Pcs, Pds, Segment, SegmentBody,
    SegmentHeader, Wds, Window,
};

/// The bytes, or 35.
pub type WantedBytes = Result<Vec<u8>, u8>;

/// What a writer should give. Fields are writable where the Rust reads back what it writes: this must be so exactly
/// where document 01 does not list them.
pub fn written(fields: &Fields) -> WantedBytes {
    let Some(segment) = segment(fields) else { return Err(NOT_ENCODABLE) };
    let bytes = segment.encode();
    let back = Segment::parse(&bytes);
    let whole = back.is_ok_and(|(read, used)| {
        let times = (read.header.pts, read.header.dts);
        used == bytes.len() && times == fields.times && read.body == segment.body
    });
    assert!(whole != listed(&fields.body), "document 01 and the Rust part on {fields:?}");
    whole.then_some(bytes).ok_or(NOT_ENCODABLE)
}

/// Whether document 01 lists the body under 35, its cells being within their fields.
fn listed(body: &Body) -> bool {
    match body {
        Body::Pcs(_, placements) => {
            placements.len() > 255 || placements.iter().any(|p| (p[5] == 1) != (p[2] == CROPPED as u16))
        }
        Body::Wds(windows) => windows.len() > 255,
        Body::Pds(_, entries) => 2 + 5 * entries.len() > LARGEST_BODY,
        Body::Ods([_, _, flag, declared, present, ..], data) => {
            let first = *flag == 0x80 || *flag == 0xC0;
            let size = if *present == 1 { 11 } else { 7 } + data.len();
            *declared >= 1 << 24 || (*present == 1) != first || size > LARGEST_BODY
        }
        Body::End => false,
        Body::Other(kind, data) => KNOWN.contains(kind) || data.len() > LARGEST_BODY,
    }
}

/// The Rust's segment of these fields; none where a cell is larger than its field.
pub fn segment(fields: &Fields) -> Option<Segment> {
    let body = match &fields.body {
        Body::Pcs(head, placements) => pcs(head, placements)?,
        Body::Wds(windows) => {
            SegmentBody::Wds(Wds { windows: windows.iter().map(window).collect::<Option<_>>()? })
        }
        Body::Pds(head, entries) => pds(head, entries),
        Body::Ods(cells, data) => ods(cells, data)?,
        Body::End => SegmentBody::End,
        Body::Other(kind, data) => SegmentBody::Other { segment_type: *kind, data: data.clone() },
    };
    let (pts, dts) = fields.times;
    // Kind and size of the head are not used in writing.
    Some(Segment { header: SegmentHeader { pts, dts, segment_type: 0xAA, segment_size: 0xBBBB }, body })
}

/// A cell of one byte.
fn byte(cell: u16) -> Option<u8> {
    cell.try_into().ok()
}

/// A mark that says whether something is present.
fn mark(cell: u32) -> Option<bool> {
    [false, true].get(cell as usize).copied()
}

fn pcs(head: &PcsRecord, placements: &[PlacementRecord]) -> Option<SegmentBody> {
    let [width, height, frame_rate, composition_number, state, update, palette] = *head;
    Some(SegmentBody::Pcs(Pcs {
        width,
        height,
        frame_rate: byte(frame_rate)?,
        composition_number,
        composition_state: byte(state)?,
        palette_update_flag: byte(update)?,
        palette_id: byte(palette)?,
        composition_objects: placements.iter().map(placement).collect::<Option<_>>()?,
    }))
}

fn placement(record: &PlacementRecord) -> Option<CompositionObject> {
    let [object_id, window, flag, x, y, present, crop_x, crop_y, width, height] = *record;
    let crop =
        CompositionObjectCrop { horizontal_position: crop_x, vertical_position: crop_y, width, height };
    Some(CompositionObject {
        object_id,
        window_id: byte(window)?,
        object_cropped_flag: byte(flag)?,
        object_horizontal_position: x,
        object_vertical_position: y,
        cropping: mark(present as u32)?.then_some(crop),
    })
}

fn window(record: &WindowRecord) -> Option<Window> {
    let [id, x, y, width, height] = *record;
    Some(Window { window_id: byte(id)?, horizontal_position: x, vertical_position: y, width, height })
}

fn pds(head: &PdsRecord, entries: &[EntryRecord]) -> SegmentBody {
    let entry = |[id, y, cr, cb, alpha]: &EntryRecord| PaletteEntry {
        palette_entry_id: *id,
        y: *y,
        cr: *cr,
        cb: *cb,
        alpha: *alpha,
    };
    let entries = entries.iter().map(entry).collect();
    SegmentBody::Pds(Pds { palette_id: head[0], palette_version_number: head[1], entries })
}

fn ods(cells: &OdsCells, data: &[u8]) -> Option<SegmentBody> {
    let [id, version, flag, declared, present, width, height] = *cells;
    let (width, height) = match mark(present)? {
        true => (Some(width.try_into().ok()?), Some(height.try_into().ok()?)),
        false => (None, None),
    };
    Some(SegmentBody::Ods(Ods {
        object_id: id.try_into().ok()?,
        object_version_number: version.try_into().ok()?,
        last_in_sequence_flag: flag.try_into().ok()?,
        object_data_length: declared,
        width,
        height,
        object_data: data.to_vec(),
    }))
}

/// The cut segment, from the bytes of an accepted one: the first 11, the kept body's length, the kept body.
pub fn cut(segment: &[u8]) -> Vec<u8> {
    let (head, body) = segment.split_at(13);
    let kept = match head[10] {
        PCS => (0..body[10]).fold(11, |at, _| at + if body[at + 3] == CROPPED { 16 } else { 8 }),
        WDS => 1 + 9 * body[0] as usize,
        _ => body.len(),
    };
    [&head[..11], &(kept as u16).to_be_bytes(), &body[..kept]].concat()
}

/// What a list of writes comes to in `room` bytes: how many are accepted, and their bytes. Each is tried behind the
/// last that was accepted.
pub fn writes<'a>(cuts: impl Iterator<Item = &'a Vec<u8>>, room: usize) -> (u64, Vec<u8>) {
    let (mut accepted, mut written) = (0, Vec::new());
    for cut in cuts {
        if cut.len() <= room - written.len() {
            accepted += 1;
            written.extend_from_slice(cut);
        }
    }
    (accepted, written)
}
