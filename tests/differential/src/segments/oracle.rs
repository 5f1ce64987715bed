//! What the published Rust reads, in the records of the library.

use crate::compare::Wanted;
use crate::generate::segment;
use crate::library::*;
use crate::numbers::number_of;
use published::pgs::{
    self, CompositionObject, Ods, PaletteEntry, Pcs, Segment, SegmentBody, SegmentHeader, Window,
};

/// The stream's segment records, or the number.
pub fn segments(stream: &[u8]) -> Wanted<Nothing, SegmentRecord> {
    let read = pgs::parse_segments(stream).map_err(|e| number_of(&e))?;
    let mut place = 0;
    let mut records = Vec::with_capacity(read.len());
    for Segment { header, .. } in &read {
        records.push(segment_record(place, header));
        place += 13 + header.segment_size as u64;
    }
    Ok(([], records))
}

pub fn segment_record(place: u64, header: &SegmentHeader) -> SegmentRecord {
    [place, header.pts as u64, header.dts as u64, header.segment_type as u64, header.segment_size as u64]
}

/// The segment at the front, and how many bytes it used.
pub fn first(stream: &[u8]) -> Result<(Segment, usize), u8> {
    Segment::parse(stream).map_err(|e| number_of(&e))
}

/// The largest body that a head can announce, so the largest that the Rust's public functions take.
pub const LARGEST_BODY: usize = 65_535;

/// A body of the given kind, read by way of a segment around it.
pub fn body(kind: u8, body: &[u8]) -> Result<SegmentBody, u8> {
    first(&segment(kind, 0, 0, body)).map(|(read, _)| read.body)
}

pub fn pcs(read: Result<&SegmentBody, u8>) -> Wanted<PcsRecord, PlacementRecord> {
    match read? {
        SegmentBody::Pcs(pcs) => {
            Ok((pcs_record(pcs), pcs.composition_objects.iter().map(placement_record).collect()))
        }
        other => panic!("a PCS read as {other:?}"),
    }
}

pub fn wds(read: Result<&SegmentBody, u8>) -> Wanted<Nothing, WindowRecord> {
    match read? {
        SegmentBody::Wds(wds) => Ok(([], wds.windows.iter().map(window_record).collect())),
        other => panic!("a WDS read as {other:?}"),
    }
}

pub fn pds(read: Result<&SegmentBody, u8>) -> Wanted<PdsRecord, EntryRecord> {
    match read? {
        SegmentBody::Pds(pds) => {
            Ok(([pds.palette_id, pds.palette_version_number], pds.entries.iter().map(entry_record).collect()))
        }
        other => panic!("a PDS read as {other:?}"),
    }
}

pub fn ods(read: Result<&SegmentBody, u8>, body: &[u8]) -> Result<OdsRecord, u8> {
    match read? {
        SegmentBody::Ods(ods) => Ok(ods_record(ods, body)),
        other => panic!("an ODS read as {other:?}"),
    }
}

fn pcs_record(pcs: &Pcs) -> PcsRecord {
    [
        pcs.width,
        pcs.height,
        pcs.frame_rate as u16,
        pcs.composition_number,
        pcs.composition_state as u16,
        pcs.palette_update_flag as u16,
        pcs.palette_id as u16,
    ]
}

fn placement_record(o: &CompositionObject) -> PlacementRecord {
    let crop = match o.cropping {
        Some(c) => [1, c.horizontal_position, c.vertical_position, c.width, c.height],
        None => [0; 5],
    };
    [
        o.object_id,
        o.window_id as u16,
        o.object_cropped_flag as u16,
        o.object_horizontal_position,
        o.object_vertical_position,
        crop[0],
        crop[1],
        crop[2],
        crop[3],
        crop[4],
    ]
}

fn window_record(w: &Window) -> WindowRecord {
    [w.window_id as u16, w.horizontal_position, w.vertical_position, w.width, w.height]
}

fn entry_record(e: &PaletteEntry) -> EntryRecord {
    [e.palette_entry_id, e.y, e.cr, e.cb, e.alpha]
}

/// The Rust copies the data; the record has its place in the body, where the same bytes must stand.
fn ods_record(ods: &Ods, body: &[u8]) -> OdsRecord {
    let place = body.len() - ods.object_data.len();
    assert!(body[place..] == ods.object_data, "an ODS's data is not the end of its body");
    let (present, width, height) = match (ods.width, ods.height) {
        (Some(width), Some(height)) => (1, width as u64, height as u64),
        (None, None) => (0, 0, 0),
        _ => panic!("an ODS with one dimension"),
    };
    [
        ods.object_id as u64,
        ods.object_version_number as u64,
        ods.last_in_sequence_flag as u64,
        ods.object_data_length as u64,
        present,
        width,
        height,
        place as u64,
        ods.object_data.len() as u64,
    ]
}

/// Bodies longer than a head can announce. The library reads them; the Rust's public functions do not take
/// them whole, so its answer is put together from parts that it does take.
pub mod long {
    use super::*;
    use crate::generate::{ODS, PCS, PDS, WDS};

    /// At most 4,091 bytes of a PCS count, the rest is tail.
    pub fn pcs(long: &[u8]) -> Wanted<PcsRecord, PlacementRecord> {
        super::pcs(body(PCS, &long[..LARGEST_BODY]).as_ref().map_err(|e| *e))
    }

    /// At most 2,296 bytes of a WDS count, the rest is tail.
    pub fn wds(long: &[u8]) -> Wanted<Nothing, WindowRecord> {
        super::wds(body(WDS, &long[..LARGEST_BODY]).as_ref().map_err(|e| *e))
    }

    /// Entries stand alone: the list is that of parts of whole entries and a last part, each behind the same head.
    pub fn pds(long: &[u8]) -> Wanted<PdsRecord, EntryRecord> {
        let (head, rest) = long.split_at(2);
        let mut entries = Vec::new();
        for part in rest.chunks(5 * 13_000) {
            let read = body(PDS, &[head, part].concat())?;
            entries.extend(super::pds(Ok(&read))?.1);
        }
        Ok(([head[0], head[1]], entries))
    }

    /// The data is everything after the fields.
    pub fn ods(long: &[u8]) -> Result<OdsRecord, u8> {
        let cut = &long[..LARGEST_BODY];
        let mut record = super::ods(body(ODS, cut).as_ref().map_err(|e| *e), cut)?;
        record[8] += (long.len() - LARGEST_BODY) as u64;
        Ok(record)
    }
}
