//! Lists the display sets of a stream, or paints one of them.
//!
//!     cargo run --example list_sets FILE
//!     cargo run --example list_sets FILE SET PLANE
//!
//! The plane is written as a PAM picture with red, green, blue and alpha.

use pgs::{kind, DisplaySet, Painter};
use std::error::Error;
use std::process::ExitCode;
use std::{env, fs};

/// The most memory for a plane and its bitmaps.
const LIMIT: usize = 1 << 28;

fn main() -> ExitCode {
    let words: Vec<String> = env::args().skip(1).collect();
    let done = match &words[..] {
        [file] => list(file),
        [file, set, plane] => paint(file, set, plane),
        _ => Err("usage: list_sets FILE [SET PLANE]".into()),
    };
    match done {
        Ok(()) => ExitCode::SUCCESS,
        Err(why) => {
            eprintln!("list_sets: {why}");
            ExitCode::FAILURE
        }
    }
}

fn read(file: &str) -> Result<Vec<u8>, String> {
    fs::read(file).map_err(|why| format!("{file}: {why}"))
}

fn list(file: &str) -> Result<(), Box<dyn Error>> {
    let stream = read(file)?;
    for (number, set) in pgs::parse_display_sets(&stream)?.iter().enumerate() {
        match described(&stream, set) {
            Ok(line) => println!("set {number}: {line}"),
            Err(why) => println!("set {number}: refused: {why}"),
        }
    }
    Ok(())
}

/// What a set holds. Its bytes are a stream of one set, so nothing else of the file is read for it.
fn described(stream: &[u8], set: &DisplaySet) -> pgs::Result<String> {
    let bytes = set.bytes(stream).expect("a part of the stream");
    let mut line = format!("place {}, PTS {}", set.place, set.pts);
    for segment in pgs::parse_segments(bytes)? {
        let body = segment.body(bytes).expect("a part of the stream");
        if segment.kind == u64::from(kind::PCS) {
            let (pcs, placements) = pgs::parse_pcs(body)?;
            line += &format!(", {} by {}, {} placements", pcs.width, pcs.height, placements.len());
        }
    }
    let objects = pgs::reassemble_objects(bytes, 0)?;
    let mut pixels = 0;
    for (object, data) in objects.iter() {
        pixels += pgs::decode_rle(data, object.width as u16, object.height as u16)?.len();
    }
    line += &format!(", {} objects of {pixels} pixels", objects.list().len());
    Ok(line)
}

fn paint(file: &str, set: &str, picture: &str) -> Result<(), Box<dyn Error>> {
    let stream = read(file)?;
    let mut painter = Painter::new(LIMIT);
    let plane = painter.paint(&stream, set.parse()?)?;
    let mut bytes = format!(
        "P7\nWIDTH {}\nHEIGHT {}\nDEPTH 4\nMAXVAL 255\nTUPLTYPE RGB_ALPHA\nENDHDR\n",
        plane.width, plane.height
    )
    .into_bytes();
    bytes.extend(plane.pixels);
    fs::write(picture, bytes)?;
    Ok(())
}
