//! Every function of the library, called once and refused once.

use pgs::{lent, Entry, Ods, OdsNumbers, Pcs, Pds, Placement, Refusal, Segment, Times, Window};

const TIMES: Times = Times { pts: 90_000, dts: 7 };
const PCS: Pcs = Pcs {
    width: 4,
    height: 1,
    frame_rate: 0x10,
    composition_number: 1,
    state: 0x80,
    palette_update_flag: 0,
    palette_id: 5,
};
const ENTRY: Entry = Entry { id: 1, y: 0x51, cr: 0xF0, cb: 0x5A, alpha: 0xFF };
const WINDOW: Window = Window { id: 3, x: 5, y: 6, width: 7, height: 8 };

fn placement(object_id: u16) -> Placement {
    Placement {
        object_id,
        crop_flag: 0x40,
        x: 11,
        crop_present: 1,
        crop_width: 2,
        crop_height: 1,
        ..Placement::default()
    }
}

fn fragment(object_id: u32, flag: u32, declared_length: u32) -> OdsNumbers {
    let first = (flag == 0x80 || flag == 0xC0) as u32;
    OdsNumbers {
        object_id,
        version: 1,
        flag,
        declared_length,
        dimensions_present: first,
        width: 2 * first,
        height: first,
    }
}

/// A set of two objects; the second comes in two fragments.
fn stream() -> Vec<u8> {
    let parts = [
        pgs::encode_pcs(TIMES, &PCS, &[placement(7), placement(8)]),
        pgs::encode_wds(TIMES, &[WINDOW]),
        pgs::encode_pds(TIMES, &Pds { id: 5, version: 2 }, &[ENTRY]),
        pgs::encode_ods(TIMES, &fragment(7, 0xC0, 6), &[1, 1]),
        pgs::encode_ods(TIMES, &fragment(8, 0x80, 6), &[2]),
        pgs::encode_other(TIMES, 0x99, &[1, 2, 3]),
        pgs::encode_ods(TIMES, &fragment(8, 0x40, 0), &[3]),
        pgs::encode_end(TIMES),
    ];
    parts.map(|part| part.expect("a part that can be written")).concat()
}

fn body(stream: &[u8], number: usize) -> &[u8] {
    let segments = pgs::parse_segments(stream).expect("a good stream");
    segments[number].body(stream).expect("a part of the stream")
}

#[test]
fn refusals_have_the_words_of_the_support_sheet() {
    let sheet = include_str!("../../../docs/REFUSALS.md");
    for (number, refusal) in (1..).zip(Refusal::ALL) {
        assert_eq!((refusal.number(), Refusal::of_number(number)), (number, Some(refusal)));
        assert!(sheet.contains(&format!("\n## {number} {}\n", refusal.text())), "{refusal}");
    }
    assert_eq!((Refusal::of_number(0), Refusal::of_number(37)), (None, None));
    assert_eq!(Refusal::BadMagic.to_string(), "Wrong mark (2)");
}

#[test]
fn refusals_have_the_numbers_of_the_header() {
    let header = include_str!("../../../include/pgs.h");
    for refusal in Refusal::ALL {
        let name = format!("{refusal:?}");
        let mut words = String::new();
        for letter in name.chars() {
            if letter.is_uppercase() {
                words.push('_');
            }
            words.push(letter.to_ascii_uppercase());
        }
        let declared = header.contains(&format!("PGS{words} = {}", refusal.number()));
        assert!(declared || !header.contains(&format!("PGS{words} ")), "{name}");
    }
}

#[test]
fn segments() {
    let stream = stream();
    let segments = pgs::parse_segments(&stream).unwrap();
    let kinds: Vec<u64> = segments.iter().map(|segment| segment.kind).collect();
    assert_eq!(kinds, [0x16, 0x17, 0x14, 0x15, 0x15, 0x99, 0x15, 0x80]);
    assert_eq!(segments[0], Segment { place: 0, pts: 90_000, dts: 7, kind: 0x16, body_length: 43 });
    assert_eq!(segments[5].body(&stream), Some(&[1, 2, 3][..]));
    assert_eq!(segments[5].body(&stream[..20]), None);
    assert_eq!(pgs::parse_segments(&stream[..12]), Err(Refusal::TruncatedHeader));
    let mut list = [Segment::default(); 7];
    assert_eq!(lent::parse_segments(&stream, &mut list), Err(Refusal::BufferTooSmall));
    assert_eq!(list, [Segment::default(); 7]);
}

#[test]
fn bodies() {
    let stream = stream();
    assert_eq!(pgs::parse_pcs(body(&stream, 0)).unwrap(), (PCS, vec![placement(7), placement(8)]));
    assert_eq!(pgs::parse_wds(body(&stream, 1)).unwrap(), [WINDOW]);
    assert_eq!(pgs::parse_pds(body(&stream, 2)).unwrap(), (Pds { id: 5, version: 2 }, vec![ENTRY]));
    let ods = Ods {
        object_id: 7,
        version: 1,
        flag: 0xC0,
        declared_length: 6,
        dimensions_present: 1,
        width: 2,
        height: 1,
        data_place: 11,
        data_length: 2,
    };
    assert_eq!(pgs::parse_ods(body(&stream, 3)).unwrap(), (ods, &[1, 1][..]));
    assert_eq!(pgs::parse_pcs(&[0; 10]), Err(Refusal::FieldPastEnd));
    assert_eq!(pgs::parse_wds(&[]), Err(Refusal::FieldPastEnd));
    assert_eq!(pgs::parse_pds(&[0; 3]), Err(Refusal::PartialPaletteEntry));
    assert_eq!(pgs::parse_ods(&[0; 6]), Err(Refusal::FieldPastEnd));
}

#[test]
fn sets_and_objects() {
    let stream = [stream(), stream()].concat();
    let sets = pgs::parse_display_sets(&stream).unwrap();
    assert_eq!((sets.len(), sets[1].place, sets[1].end), (2, stream.len() as u64 / 2, stream.len() as u64));
    for (bytes, number) in [(&stream[..], 1), (sets[1].bytes(&stream).unwrap(), 0)] {
        let objects = pgs::reassemble_objects(bytes, number).unwrap();
        let held: Vec<(u64, u64, &[u8])> =
            objects.iter().map(|(object, data)| (object.id, object.holder, data)).collect();
        assert_eq!(held, [(7, 0, &[1, 1][..]), (8, 1, &[2, 3])]);
    }
    assert_eq!(pgs::reassemble_objects(&stream, 2), Err(Refusal::NoSuchSet));
    assert_eq!(pgs::parse_display_sets(&stream[sets[1].place as usize..][56..]), Err(Refusal::WdsOutsideSet));
}

#[test]
fn pixels_and_colors() {
    assert_eq!(pgs::decode_rle(&[0, 0xC0, 3, 9], 3, 1).unwrap(), [9, 9, 9]);
    assert_eq!(pgs::decode_rle(&[], 65_535, 0).unwrap(), []);
    assert_eq!(pgs::decode_rle(&[], 65_535, 65_535), Err(Refusal::LineCountMismatch));
    assert_eq!(pgs::ycbcr709_to_rgb(81, 90, 240), [255, 24, 0]);
    let mut table = pgs::PaletteTable::new();
    table.apply(&[ENTRY], 6, 5);
    assert_eq!(table, pgs::PaletteTable::default());
    table.apply(&[ENTRY], 5, 5);
    assert_eq!((table.get(0), table.get(1)), ([0; 4], [0xFF, 0x18, 0, 0xFF]));
    assert_eq!(lent::clear_palette(&mut [0; 1023]), Err(Refusal::BufferTooSmall));
}

#[test]
fn planes() {
    let mut painter = pgs::Painter::new(100);
    let stream = stream();
    let mut crops = stream.clone();
    crops[13 + 11 + 5] = 1; // object 7 at 1, 0; object 8 stays off the plane
    let plane = painter.paint(&crops, 0).unwrap();
    assert_eq!((plane.width, plane.height, plane.pts), (4, 1, 90_000));
    let red = [0xFF, 0x18, 0, 0xFF];
    assert_eq!(plane.pixels, [[0; 4], red, red, [0; 4]].concat());
    assert_eq!(painter.paint(&stream, 1), Err(Refusal::NoSuchSet));
    assert_eq!(painter.paint(&stream, 0).unwrap().pixels, [0; 16]);
    assert_eq!(pgs::Painter::new(20).paint(&stream, 0), Err(Refusal::BufferTooSmall));
    crops[13 + 11 + 1] = 9;
    assert_eq!(painter.paint(&crops, 0), Err(Refusal::ObjectNotInSet));
}

/// A set with a plane of this many pixels and `objects` objects of two pixels each, which nothing shows.
fn unshown(width: u16, objects: u32) -> Vec<u8> {
    let mut set = pgs::encode_pcs(TIMES, &Pcs { width, ..PCS }, &[]).unwrap();
    for id in 0..objects {
        set.extend(pgs::encode_ods(TIMES, &fragment(id, 0xC0, 6), &[1, 1]).unwrap());
    }
    set.extend(pgs::encode_end(TIMES).unwrap());
    set
}

#[test]
fn a_painter_stays_within_its_limit() {
    let mut painter = pgs::Painter::new(24);
    for _ in 0..2 {
        assert!(painter.paint(&unshown(6, 0), 0).is_ok()); // a plane of 24 bytes
        assert!(painter.paint(&unshown(1, 10), 0).is_ok()); // a plane of 4, and 20 pixels of bitmaps
        assert_eq!(painter.paint(&unshown(2, 10), 0), Err(Refusal::BufferTooSmall));
        assert_eq!(painter.paint(&unshown(6, 1), 0), Err(Refusal::BufferTooSmall));
    }
}

#[test]
fn cards() {
    let stream = stream();
    assert_eq!(pgs::cards(&stream).unwrap(), "0000000000015F90000180050200040001\n");
    assert_eq!(pgs::cards(&stream[..13]), Err(Refusal::TruncatedBody));
}

#[test]
fn writes() {
    let mut tailed = stream();
    tailed.splice(56..56, [0xAA, 0xBB]);
    tailed[12] += 2;
    assert_eq!(pgs::write_segments(&tailed).unwrap(), stream());
    let mut out = [9; 60];
    let writes = lent::write_segments(&tailed, 2, &mut out).unwrap();
    assert_eq!((writes.accepted, writes.written, &out[55..]), (1, 56, &[1, 9, 9, 9, 9][..]));
    let many = vec![placement(1); 256];
    assert_eq!(pgs::encode_pcs(TIMES, &PCS, &many), Err(Refusal::NotEncodable));
    assert_eq!(pgs::encode_wds(TIMES, &[WINDOW; 256]), Err(Refusal::NotEncodable));
    assert_eq!(pgs::encode_ods(TIMES, &fragment(7, 0xC0, 1 << 24), &[]), Err(Refusal::NotEncodable));
    assert_eq!(pgs::encode_other(TIMES, 0x80, &[]), Err(Refusal::NotEncodable));
    assert_eq!(lent::encode_end(TIMES, &mut out[..12]), Err(Refusal::BufferTooSmall));
}
