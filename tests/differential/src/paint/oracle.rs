//! What the published Rust paints, with the scratch that document 01 asks for.

use crate::bitmap;
use crate::library::ShownRecord;
use crate::numbers::number_of;
use crate::sets::oracle::{objects, Set};
use published::pgs::{DisplaySet, PaletteEntry, RgbaImage};

/// What painting a set comes to.
pub enum WantedPlane {
    /// Refused whatever is lent.
    Refused(u8),
    /// Too much to lend: the bytes of scratch and plane.
    Needs(u64, u64),
    Read(Painting),
}

/// What comes of a call whose needs are met.
pub struct Painting {
    /// The bytes of scratch and plane that it takes.
    pub needs: (usize, usize),
    /// What the scratch then starts with: joined data, and the bitmaps if it is accepted.
    pub scratch: Vec<u8>,
    /// The plane and what is shown, or one of 24 to 33.
    pub painted: Result<(Vec<u8>, ShownRecord), u8>,
}

/// Planes of more pixels are not painted, but for a whole screen.
const MOST: u64 = 1 << 16;
const SCREEN: u64 = 1920 * 1080;
/// Scratches of more bytes are not lent.
const MOST_SCRATCH: u64 = 1 << 24;

/// The plane of a set.
pub fn plane(stream: &[u8], set: &Set) -> WantedPlane {
    let objects = match objects(stream, set) {
        Ok(objects) => objects,
        Err(number) => return WantedPlane::Refused(number),
    };
    let area = set.read.pcs.width as u64 * set.read.pcs.height as u64;
    let bitmaps: u64 = objects.records.iter().map(|[_, _, width, height, ..]| width * height).sum();
    let (scratch, plane) = (objects.joined.len() as u64 + bitmaps, 4 * area);
    if (area > MOST && area != SCREEN) || scratch > MOST_SCRATCH {
        return WantedPlane::Needs(scratch, plane);
    }
    let needs = (scratch as usize, plane as usize);
    let mut scratch = objects.joined;
    let painted = match exchanged(&set.read).render() {
        Err(why) => Err(number_of(&why)),
        Ok(painted) => {
            for object in set.read.reassemble_objects().expect("objects that were painted") {
                let pixels = bitmap::decoded(object.width, object.height, &object.rle_data);
                scratch.extend(pixels.expect("a bitmap that was painted"));
            }
            let RgbaImage { width, height, pixels, .. } = painted.plane;
            let bytes: Vec<u8> = pixels.iter().flat_map(|pixel| pixel.to_array()).collect();
            Ok((bytes, [width as u64, height as u64, painted.pts as u64]))
        }
    };
    WantedPlane::Read(Painting { needs, scratch, painted })
}

/// The set for the Rust, the two chroma bytes of each entry exchanged: `to_rgba` hands each to where the other belongs.
pub fn exchanged(set: &DisplaySet) -> DisplaySet {
    let mut set = set.clone();
    for PaletteEntry { cr, cb, .. } in set.palettes.iter_mut().flat_map(|palette| &mut palette.entries) {
        std::mem::swap(cr, cb);
    }
    set
}
