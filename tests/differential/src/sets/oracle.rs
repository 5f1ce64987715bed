//! What the published Rust groups and joins, in the records of the library.

use crate::generate::{END, ODS, PCS};
use crate::library::{ObjectRecord, SetRecord};
use crate::numbers::number_of;
use published::pgs::{self, DisplaySet, Pcs};

/// One set of the Rust, with the library's record of it.
pub struct Set {
    pub record: SetRecord,
    pub read: DisplaySet,
}

/// The sets of a stream, or the number. The Rust's sets have no places: they are those of the PCS and the END.
pub fn sets(stream: &[u8]) -> Result<Vec<Set>, u8> {
    let read = pgs::parse_display_sets(stream).map_err(|e| number_of(&e))?;
    let mut records = Vec::new();
    let (mut place, mut first) = (0, 0);
    for segment in pgs::parse_segments(stream).expect("a stream that was grouped") {
        if segment.header.segment_type == PCS {
            first = place;
        }
        place += 13 + segment.header.segment_size as usize;
        if segment.header.segment_type == END {
            records.push((first, place));
        }
    }
    assert!(records.len() == read.len(), "the Rust has {} sets, not {}", read.len(), records.len());
    let sets = records.into_iter().zip(read).map(|((from, to), read)| {
        let alone = pgs::parse_display_sets(&stream[from..to]).expect("the bytes of a set");
        assert!(alone == [read.clone()], "the bytes {from} to {to} are another set");
        Set { record: [from as u64, to as u64, read.pts as u64], read }
    });
    Ok(sets.collect())
}

/// The objects of a set: the records, and what the scratch holds.
#[derive(Debug, PartialEq)]
pub struct Objects {
    pub records: Vec<ObjectRecord>,
    pub joined: Vec<u8>,
}

pub type WantedObjects = Result<Objects, u8>;

/// The most objects of a set. The Rust has no such limit.
pub const MOST_OBJECTS: usize = 64;

/// The objects of a set, or the number. The limit of the library is added.
pub fn objects(stream: &[u8], set: &Set) -> WantedObjects {
    if let Some(number) = too_many(&set.read) {
        return Err(number);
    }
    let read = set.read.reassemble_objects().map_err(|e| number_of(&e))?;
    let mut objects = Objects { records: Vec::new(), joined: Vec::new() };
    for object in read {
        let id = object.object_id;
        let length = object.rle_data.len() as u64;
        let fragments = set.read.objects.iter().filter(|ods| ods.object_id == id).count();
        let (holder, place) = if fragments == 1 {
            let place = end_of_fragment(stream, set.record, id) - object.rle_data.len();
            assert!(stream[place..].starts_with(&object.rle_data), "object {id} is not in the stream");
            (0, place)
        } else {
            (1, objects.joined.len())
        };
        if holder == 1 {
            objects.joined.extend_from_slice(&object.rle_data);
        }
        let (version, width, height) =
            (object.object_version_number as u64, object.width as u64, object.height as u64);
        objects.records.push([id as u64, version, width, height, holder, place as u64, length]);
    }
    Ok(objects)
}

/// The card line of a set.
pub fn card(set: &Set, objects: &Objects) -> String {
    let ([place, ..], pts, count) = (set.record, set.read.pts, objects.records.len());
    let Pcs { width, height, composition_number, composition_state, palette_id, .. } = &set.read.pcs;
    format!(
        "{place:08X}{pts:08X}{composition_number:04X}{composition_state:02X}{palette_id:02X}{count:02X}\
         {width:04X}{height:04X}\n"
    )
}

/// Where the only fragment of an object ends in the stream.
fn end_of_fragment(stream: &[u8], [from, to, _]: SetRecord, id: u16) -> usize {
    let mut place = from as usize;
    while place < to as usize {
        let body = place + 13;
        let end = body + u16::from_be_bytes([stream[place + 11], stream[place + 12]]) as usize;
        if stream[place + 10] == ODS && stream[body..].starts_with(&id.to_be_bytes()) {
            return end;
        }
        place = end;
    }
    panic!("no fragment of object {id}");
}

/// The number for a set with more objects than the library takes: 23, unless an earlier fragment is refused.
fn too_many(set: &DisplaySet) -> Option<u8> {
    let mut seen = Vec::new();
    let over = set.objects.iter().position(|ods| {
        let new = ods.fragment().is_first() && !seen.contains(&ods.object_id);
        if new {
            seen.push(ods.object_id);
        }
        seen.len() > MOST_OBJECTS
    })?;
    let mut before = set.clone();
    before.objects.truncate(over);
    let earlier = before.reassemble_objects().err().map(|e| number_of(&e));
    Some(earlier.filter(|number| (16..=19).contains(number)).unwrap_or(23))
}
