//! What the published Rust does with fields that cannot be written: the table of docs/DIFFERENCES.md.

use super::examples::{cropped, fields, ods, pcs, uncropped};
use super::fields::{Body, Fields};
use super::{check_fields, oracle};
use crate::compare::Tally;
use crate::examples::{rust_gives, Outcome};
use crate::numbers::NOT_ENCODABLE;
use crate::segments::oracle::first;
use published::pgs::{CompositionObject, SegmentBody};

/// The page that has the table.
const PAGE: &str = include_str!("../../../../docs/DIFFERENCES.md");

/// The smallest fields of each case, as the table names them.
fn cases() -> Vec<(&'static str, Body)> {
    let records = |count| pcs(&vec![uncropped(1, 0); count]);
    vec![
        ("256 placements", records(256)),
        ("300 placements", records(300)),
        ("256 windows", Body::Wds(vec![[0; 5]; 256])),
        ("PDS, 13,107 entries", Body::Pds([0, 0], vec![[0; 5]; 13_107])),
        ("ODS, flag C0, 65,525 data bytes", ods(0xC0, 5, 1, &[0; 65_525])),
        ("ODS, flag 40, 65,529 data bytes", ods(0x40, 5, 0, &[0; 65_529])),
        ("unknown kind 99, 65,536 bytes 00", Body::Other(0x99, vec![0; 65_536])),
        ("ODS, flag C0, declared 16,777,216", ods(0xC0, 1 << 24, 1, &[])),
        ("one placement: flag 00, a crop", pcs(&[cropped(1, 0)])),
        ("two placements: flag 00 and a crop, flag 00", pcs(&[cropped(1, 0), uncropped(9, 0)])),
        ("one placement: flag C0, a crop", pcs(&[cropped(1, 0xC0)])),
        ("one placement: flag 40, no crop", pcs(&[uncropped(1, 0x40)])),
        (
            "two placements: flag 40 and no crop, flag 00 and a crop",
            pcs(&[uncropped(1, 0x40), cropped(9, 0)]),
        ),
        ("ODS, flag 40, dimensions, no data", ods(0x40, 4, 1, &[])),
        ("ODS, flag 80, no dimensions, no data", ods(0x80, 4, 0, &[])),
        ("ODS, flag 80, no dimensions, data 09 09 09 09", ods(0x80, 8, 0, &[9; 4])),
        ("unknown kind 14, bytes 00 00", Body::Other(0x14, vec![0; 2])),
        ("unknown kind 15, seven bytes 00", Body::Other(0x15, vec![0; 7])),
        ("unknown kind 16, eleven bytes 00", Body::Other(0x16, vec![0; 11])),
        ("unknown kind 17, byte 00", Body::Other(0x17, vec![0])),
        ("unknown kind 80, no bytes", Body::Other(0x80, vec![])),
        ("unknown kind 80, byte 00", Body::Other(0x80, vec![0])),
    ]
}

/// The library refuses each case. What the Rust does are the lines of the page's table, which has no others.
pub fn unwritable(tally: &mut Tally) -> Outcome {
    let mut table = vec!["| fields | the Rust writes | read back |".to_string(), "|---|---|---|".to_string()];
    for (name, body) in cases() {
        let fields = fields(body);
        rust_gives(oracle::written(&fields), &Err(NOT_ENCODABLE))?;
        check_fields(&fields, &Err(NOT_ENCODABLE), tally).map_err(|what| format!("{name}: {what}"))?;
        table.push(line(name, &fields));
    }
    let on_page = PAGE.lines().skip_while(|line| **line != table[0]).take_while(|line| line.starts_with('|'));
    if on_page.eq(&table) {
        return Ok(());
    }
    Err(format!("docs/DIFFERENCES.md should have this table:\n{}", table.join("\n")))
}

/// A line of the page's table: the fields, what the Rust writes, what it reads of that.
fn line(name: &str, fields: &Fields) -> String {
    let written = oracle::segment(fields).expect("cells that fit").encode();
    format!("| {name} | {} | {} |", said(&written), read_back(&written))
}

/// The numbers that the written bytes have about themselves, and how many body bytes there are.
fn said(written: &[u8]) -> String {
    let body = &written[13..];
    let size = format!("size {:02X} {:02X}", written[11], written[12]);
    let more = match written[10] {
        0x16 if body.len() > 11 => format!(", count {:02X}", body[10]),
        0x17 if body.len() > 1 => format!(", count {:02X}", body[0]),
        0x15 => format!(", declared {:02X} {:02X} {:02X}", body[4], body[5], body[6]),
        _ => String::new(),
    };
    format!("{size}{more}, body of {}", grouped(body.len()))
}

/// What the Rust reads, segment after segment.
pub fn read_back(written: &[u8]) -> String {
    let mut segments = Vec::new();
    let mut rest = written;
    while !rest.is_empty() {
        match first(rest) {
            Ok((read, used)) => {
                let tail = match used - read.encode().len() {
                    0 => String::new(),
                    bytes => format!(", a tail of {} bytes", grouped(bytes)),
                };
                segments.push(described(&read.body) + &tail);
                rest = &rest[used..];
            }
            Err(number) => {
                segments.push(number.to_string());
                break;
            }
        }
    }
    segments.join(", then ")
}

fn described(body: &SegmentBody) -> String {
    match body {
        SegmentBody::Pcs(pcs) => match &pcs.composition_objects[..] {
            few @ ([_] | [_, _]) => few.iter().fold("PCS".to_string(), |text, one| text + &shown(one)),
            placements => format!("PCS, {} placements", placements.len()),
        },
        SegmentBody::Wds(wds) => format!("WDS, {} windows", wds.windows.len()),
        SegmentBody::Pds(pds) => format!("PDS, {} entries", pds.entries.len()),
        SegmentBody::Ods(ods) => {
            let dimensions = match (ods.width, ods.height) {
                (Some(width), Some(height)) => format!("{width} by {height}"),
                _ => "no dimensions".to_string(),
            };
            let (declared, data) = (ods.object_data_length, ods.object_data.len());
            format!("ODS, declared {declared}, {dimensions}, {data} data bytes")
        }
        SegmentBody::End => "END".to_string(),
        SegmentBody::Other { segment_type, data } => format!("kind {segment_type:02X}, {} bytes", data.len()),
        other => panic!("the Rust has another segment: {other:?}"),
    }
}

fn shown(placement: &CompositionObject) -> String {
    let crop = match placement.cropping {
        Some(crop) => format!(
            " with the crop {} {} {} {}",
            crop.horizontal_position, crop.vertical_position, crop.width, crop.height
        ),
        None => String::new(),
    };
    format!(", object {}{crop}", placement.object_id)
}

/// A number with commas.
fn grouped(n: usize) -> String {
    match n {
        0..1_000 => n.to_string(),
        _ => format!("{},{:03}", grouped(n / 1_000), n % 1_000),
    }
}
