//! The records that lists are made of. Each is laid out as the array of cells that include/pgs.h names.

macro_rules! record {
    ($(#[$about:meta])* $name:ident of $cell:ty { $($(#[$what:meta])* $field:ident,)* }) => {
        $(#[$about])*
        #[derive(Clone, Copy, Debug, Default, PartialEq, Eq)]
        #[repr(C)]
        pub struct $name {
            $($(#[$what])* pub $field: $cell,)*
        }
    };
}

/// The kinds of segments that have a reading of their own: [`Segment::kind`].
pub mod kind {
    pub const PDS: u8 = 0x14;
    pub const ODS: u8 = 0x15;
    pub const PCS: u8 = 0x16;
    pub const WDS: u8 = 0x17;
    pub const END: u8 = 0x80;
}

record! {
    /// One segment of a stream.
    Segment of u64 {
        /// Where its head starts in the stream.
        place,
        pts,
        dts,
        /// The kind's byte.
        kind,
        /// As stored in the head.
        body_length,
    }
}

impl Segment {
    /// Its body in the stream that it was read from; none in a stream that is too short.
    pub fn body<'a>(&self, stream: &'a [u8]) -> Option<&'a [u8]> {
        let start = usize::try_from(self.place).ok()?.checked_add(13)?;
        part(stream, start, self.body_length)
    }
}

record! {
    /// A composition, without its placements. State and flag are the bytes as stored.
    Pcs of u16 {
        width,
        height,
        frame_rate,
        composition_number,
        /// 0x00 normal, 0x40 acquisition point, 0x80 epoch start.
        state,
        /// 0x80 means update.
        palette_update_flag,
        palette_id,
    }
}

record! {
    /// One placement of a composition.
    Placement of u16 {
        object_id,
        window_id,
        /// The byte as stored.
        crop_flag,
        x,
        y,
        /// 1 where the flag is exactly 0x40, else 0; the next four are 0 then.
        crop_present,
        crop_x,
        crop_y,
        crop_width,
        crop_height,
    }
}

record! {
    /// One window.
    Window of u16 { id, x, y, width, height, }
}

record! {
    /// A palette, without its entries.
    Pds of u8 { id, version, }
}

record! {
    /// One palette entry.
    Entry of u8 { id, y, cr, cb, alpha, }
}

record! {
    /// One fragment of an object, as it was read.
    Ods of u64 {
        object_id,
        version,
        /// 0x80 first, 0x40 last, 0xC0 both, others in the middle.
        flag,
        declared_length,
        /// 1 where the flag is 0x80 or 0xC0, else 0; the next two are 0 then.
        dimensions_present,
        width,
        height,
        /// Where the data starts in the body.
        data_place,
        data_length,
    }
}

record! {
    /// One fragment of an object, as it is to be written.
    OdsNumbers of u32 { object_id, version, flag, declared_length, dimensions_present, width, height, }
}

record! {
    /// One display set of a stream.
    DisplaySet of u64 {
        /// Where its PCS starts in the stream.
        place,
        /// The place just after its END.
        end,
        /// The PTS of its PCS.
        pts,
    }
}

impl DisplaySet {
    /// Its bytes in the stream that it was read from; they are a stream of one set. None in a stream that is too short.
    pub fn bytes<'a>(&self, stream: &'a [u8]) -> Option<&'a [u8]> {
        let place = usize::try_from(self.place).ok()?;
        part(stream, place, self.end.checked_sub(self.place)?)
    }
}

record! {
    /// One object of a set. Version and dimensions are those of its first fragment.
    Object of u64 {
        id,
        version,
        width,
        height,
        /// Where the data stands: 0 in the stream, 1 in the scratch.
        holder,
        /// Where the data starts there.
        place,
        length,
    }
}

impl Object {
    /// Its joined data, out of the stream and the scratch of the call; none where they are too short.
    pub fn data<'a>(&self, stream: &'a [u8], scratch: &'a [u8]) -> Option<&'a [u8]> {
        let holder = if self.holder == 0 { stream } else { scratch };
        part(holder, usize::try_from(self.place).ok()?, self.length)
    }
}

record! {
    /// What a painted plane shows.
    Shown of u64 { width, height, pts, }
}

fn part(bytes: &[u8], from: usize, length: u64) -> Option<&[u8]> {
    bytes.get(from..)?.get(..usize::try_from(length).ok()?)
}
