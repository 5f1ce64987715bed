//! The same calls, bringing the memory for what they answer.

use crate::lent::{self, Times};
use crate::records::*;
use crate::{Refusal, Result};

/// The shortest segment, and the shortest set: a PCS without placements and an END.
const SHORTEST_SEGMENT: usize = 13;
const SHORTEST_SET: usize = 37;
/// The most objects of one set.
const MOST_OBJECTS: usize = 64;
/// The longest segment.
const LONGEST_SEGMENT: usize = 13 + 65_535;

/// A list of at most `most` records, filled by a call.
fn filled<T: Copy + Default>(most: usize, call: impl FnOnce(&mut [T]) -> Result<usize>) -> Result<Vec<T>> {
    let mut list = vec![T::default(); most];
    let count = call(&mut list)?;
    list.truncate(count);
    list.shrink_to_fit();
    Ok(list)
}

/// The segments of a whole stream, in order.
pub fn parse_segments(stream: &[u8]) -> Result<Vec<Segment>> {
    filled(stream.len() / SHORTEST_SEGMENT, |list| lent::parse_segments(stream, list))
}

/// The body of a PCS, and its placements.
pub fn parse_pcs(body: &[u8]) -> Result<(Pcs, Vec<Placement>)> {
    let mut pcs = Pcs::default();
    let placements = filled(255, |list| lent::parse_pcs(body, &mut pcs, list))?;
    Ok((pcs, placements))
}

/// The windows of a WDS body.
pub fn parse_wds(body: &[u8]) -> Result<Vec<Window>> {
    filled(255, |list| lent::parse_wds(body, list))
}

/// The body of a PDS, and its entries.
pub fn parse_pds(body: &[u8]) -> Result<(Pds, Vec<Entry>)> {
    let mut pds = Pds::default();
    let entries = filled(body.len() / 5, |list| lent::parse_pds(body, &mut pds, list))?;
    Ok((pds, entries))
}

/// The body of an ODS, and its data.
pub fn parse_ods(body: &[u8]) -> Result<(Ods, &[u8])> {
    let mut ods = Ods::default();
    lent::parse_ods(body, &mut ods)?;
    let start = ods.data_place as usize;
    Ok((ods, &body[start..start + ods.data_length as usize]))
}

/// The display sets of a whole stream, in order.
pub fn parse_display_sets(stream: &[u8]) -> Result<Vec<DisplaySet>> {
    filled(stream.len() / SHORTEST_SET, |list| lent::parse_display_sets(stream, list))
}

/// The objects of one set, in the order of their first fragments.
#[derive(Clone, Debug, PartialEq, Eq)]
pub struct Objects<'a> {
    stream: &'a [u8],
    scratch: Vec<u8>,
    list: Vec<Object>,
}

impl Objects<'_> {
    pub fn list(&self) -> &[Object] {
        &self.list
    }

    /// Each object with its joined data, which [`decode_rle`] takes.
    pub fn iter(&self) -> impl Iterator<Item = (&Object, &[u8])> {
        let data = |object: &Object| object.data(self.stream, &self.scratch).expect("a part of its holder");
        self.list.iter().map(move |object| (object, data(object)))
    }
}

/// The objects of one set, counted from 0. To look at many sets, hand over [`DisplaySet::bytes`] of each as a stream
/// whose set 0 it is: then the rest of the stream is not read again.
pub fn reassemble_objects(stream: &[u8], set: u64) -> Result<Objects<'_>> {
    let mut scratch = vec![0; stream.len()];
    let list = filled(MOST_OBJECTS, |list| lent::reassemble_objects(stream, set, &mut scratch, list))?;
    let joined = list.iter().filter(|object| object.holder == 1).map(|object| object.length).sum::<u64>();
    scratch.truncate(joined as usize);
    scratch.shrink_to_fit();
    Ok(Objects { stream, scratch, list })
}

/// The palette indices of a bitmap, row by row. The memory for width times height pixels is brought only for data that
/// gives them.
pub fn decode_rle(data: &[u8], width: u16, height: u16) -> Result<Vec<u8>> {
    let needed = usize::from(width) * usize::from(height);
    match lent::decode_rle(data, width, height, &mut []) {
        Err(Refusal::BufferTooSmall) => {}
        answer => return answer.map(|()| Vec::new()),
    }
    let mut pixels = vec![0; needed];
    lent::decode_rle(data, width, height, &mut pixels)?;
    Ok(pixels)
}

pub use lent::ycbcr709_to_rgb;

/// R, G, B and alpha of each index of a palette.
#[derive(Clone, Debug, PartialEq, Eq)]
pub struct PaletteTable([u8; 1024]);

impl Default for PaletteTable {
    fn default() -> Self {
        PaletteTable::new()
    }
}

impl PaletteTable {
    /// Every index is transparent: 0, 0, 0, 0.
    pub fn new() -> Self {
        let mut table = [0; 1024];
        lent::clear_palette(&mut table).expect("1,024 bytes are enough");
        PaletteTable(table)
    }

    /// Lays the entries of one PDS over the table, if its id is the one that the composition names.
    pub fn apply(&mut self, entries: &[Entry], palette_id: u8, named: u8) {
        lent::apply_palette(entries, palette_id, named, &mut self.0).expect("1,024 bytes are enough");
    }

    /// R, G, B and alpha of an index.
    pub fn get(&self, index: u8) -> [u8; 4] {
        let at = 4 * usize::from(index);
        [self.0[at], self.0[at + 1], self.0[at + 2], self.0[at + 3]]
    }
}

/// A painted set.
#[derive(Clone, Copy, Debug, PartialEq, Eq)]
pub struct Plane<'a> {
    pub width: usize,
    pub height: usize,
    pub pts: u32,
    /// R, G, B and alpha of each pixel, row by row. Alpha is not multiplied into the colour.
    pub pixels: &'a [u8],
}

/// Paints one set after another in the same memory, which grows as it must.
#[derive(Clone, Debug)]
pub struct Painter {
    limit: usize,
    scratch: Vec<u8>,
    plane: Vec<u8>,
}

impl Painter {
    /// A painter that takes at most `limit` bytes; a set that takes more is refused as
    /// [`Refusal::BufferTooSmall`]. A plane of 1920 by 1080 takes 8,294,400 bytes, and its bitmaps a byte a pixel.
    pub fn new(limit: usize) -> Painter {
        Painter { limit, scratch: Vec::new(), plane: Vec::new() }
    }

    /// Paints one set, counted from 0. To paint many, hand over [`DisplaySet::bytes`] of each as a stream whose set 0
    /// it is: then the rest of the stream is not read again.
    pub fn paint(&mut self, stream: &[u8], set: u64) -> Result<Plane<'_>> {
        let mut shown = Shown::default();
        let mut answer = lent::render(stream, set, &mut self.scratch, &mut self.plane, &mut shown);
        if answer == Err(Refusal::BufferTooSmall) {
            self.grow(stream, set)?;
            answer = lent::render(stream, set, &mut self.scratch, &mut self.plane, &mut shown);
        }
        answer?;
        let (width, height) = (shown.width as usize, shown.height as usize);
        Ok(Plane { width, height, pts: shown.pts as u32, pixels: &self.plane[..4 * width * height] })
    }

    /// Takes the memory that a set needs, and keeps more of it only where both parts together stay within the limit.
    fn grow(&mut self, stream: &[u8], set: u64) -> Result<()> {
        let sets = parse_display_sets(stream)?;
        let record = sets.get(set as usize).ok_or(Refusal::NoSuchSet)?;
        let bytes = record.bytes(stream).expect("a part of the stream");
        let first = &parse_segments(bytes)?[0];
        let (pcs, _) = parse_pcs(first.body(bytes).expect("a part of the stream"))?;
        let objects = reassemble_objects(bytes, 0)?;
        let bitmaps: u64 = objects.list.iter().map(|object| object.width * object.height).sum();
        let scratch = objects.scratch.len() as u64 + bitmaps;
        let plane = 4 * u64::from(pcs.width) * u64::from(pcs.height);
        if scratch + plane > self.limit as u64 {
            return Err(Refusal::BufferTooSmall);
        }
        let (scratch, plane) = (scratch as usize, plane as usize);
        let (most_scratch, most_plane) = (self.scratch.len().max(scratch), self.plane.len().max(plane));
        if most_scratch + most_plane <= self.limit {
            self.scratch.resize(most_scratch, 0);
            self.plane.resize(most_plane, 0);
        } else {
            self.scratch = vec![0; scratch];
            self.plane = vec![0; plane];
        }
        Ok(())
    }
}

/// A line of text for each set of a stream.
pub fn cards(stream: &[u8]) -> Result<String> {
    let lines = filled(stream.len(), |out| lent::cards(stream, out))?;
    Ok(String::from_utf8(lines).expect("digits and line feeds"))
}

/// A PCS with its placements.
pub fn encode_pcs(times: Times, pcs: &Pcs, placements: &[Placement]) -> Result<Vec<u8>> {
    filled(LONGEST_SEGMENT, |out| lent::encode_pcs(times, pcs, placements, out))
}

/// A WDS.
pub fn encode_wds(times: Times, windows: &[Window]) -> Result<Vec<u8>> {
    filled(LONGEST_SEGMENT, |out| lent::encode_wds(times, windows, out))
}

/// A PDS with its entries.
pub fn encode_pds(times: Times, pds: &Pds, entries: &[Entry]) -> Result<Vec<u8>> {
    filled(LONGEST_SEGMENT, |out| lent::encode_pds(times, pds, entries, out))
}

/// An ODS with its data.
pub fn encode_ods(times: Times, ods: &OdsNumbers, data: &[u8]) -> Result<Vec<u8>> {
    filled(LONGEST_SEGMENT, |out| lent::encode_ods(times, ods, data, out))
}

/// An END.
pub fn encode_end(times: Times) -> Result<Vec<u8>> {
    filled(LONGEST_SEGMENT, |out| lent::encode_end(times, out))
}

/// A segment of an unknown kind.
pub fn encode_other(times: Times, kind: u8, data: &[u8]) -> Result<Vec<u8>> {
    filled(LONGEST_SEGMENT, |out| lent::encode_other(times, kind, data, out))
}

/// All segments of a stream, written again from what was read of them: without the bytes after the last counted record
/// of a PCS or WDS.
pub fn write_segments(stream: &[u8]) -> Result<Vec<u8>> {
    filled(stream.len(), |out| lent::write_segments(stream, u64::MAX, out).map(|writes| writes.written))
}
