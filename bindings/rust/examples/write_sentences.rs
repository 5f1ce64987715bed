//! Writes three sentences, as a drawing program would: every letter and every accent is an object, placed one by one.
//!
//!     cargo run --example write_sentences FILE
//!
//! samples/sentences.sup was made by it.

use pgs::{Entry, OdsNumbers, Pcs, Pds, Placement, Times, Window};
use std::error::Error;
use std::{env, fs};

/// A point of a letter is SCALE by SCALE pixels.
const SCALE: u16 = 8;
/// Where the line of letters starts, and how far one letter is from the next.
const LEFT: u16 = 480;
const TOP: u16 = 900;
const STEP: u16 = 6 * SCALE;

/// A letter's name and its points, row by row: 5 by 7, an accent 5 by 2.
type Glyph = (char, &'static str);

const GLYPHS: [Glyph; 20] = [
    ('A', ".###. #...# #...# ##### #...# #...# #...#"),
    ('B', "####. #...# #...# ####. #...# #...# ####."),
    ('J', "..### ...#. ...#. ...#. ...#. #..#. .##.."),
    ('a', "..... ..... .###. ....# .#### #...# .####"),
    ('b', "#.... #.... ####. #...# #...# #...# ####."),
    ('e', "..... ..... .###. #...# ##### #.... .###."),
    ('f', "..##. .#... ####. .#... .#... .#... .#..."),
    ('i', "..#.. ..... .##.. ..#.. ..#.. ..#.. .###."),
    ('j', "...#. ..... ..##. ...#. ...#. #..#. .##.."),
    ('n', "..... ..... ####. #...# #...# #...# #...#"),
    ('o', "..... ..... .###. #...# #...# #...# .###."),
    ('r', "..... ..... #.##. ##..# #.... #.... #...."),
    ('s', "..... ..... .#### #.... .###. ....# ####."),
    ('t', ".#... .#... ####. .#... .#... .#..# ..##."),
    ('u', "..... ..... #...# #...# #...# #...# .####"),
    ('.', "..... ..... ..... ..... ..... .##.. .##.."),
    ('!', "..#.. ..#.. ..#.. ..#.. ..#.. ..... ..#.."),
    ('\'', "..#.. ..#.. .#... ..... ..... ..... ....."),
    ('`', ".#... ..#.."),
    ('^', "..#.. .#.#."),
];

fn main() -> Result<(), Box<dyn Error>> {
    let file = env::args().nth(1).ok_or("usage: write_sentences FILE")?;
    let mut stream = Vec::new();
    for (number, text) in (1..).zip(["Bonjour.", "J'ai soif.", "À bientôt !"]) {
        stream.extend(sentence(number, text)?);
    }
    fs::write(file, stream)?;
    Ok(())
}

/// One display set: the composition, a window, the palette, an object for each letter and accent, and the END.
fn sentence(number: u16, text: &str) -> pgs::Result<Vec<u8>> {
    let times = Times { pts: 270_000 * u32::from(number), dts: 0 };
    let placements = placed(text);
    let pcs = Pcs {
        width: 1920,
        height: 1080,
        frame_rate: 0x10,
        composition_number: number,
        state: 0x80,
        palette_update_flag: 0,
        palette_id: 0,
    };
    let mut set = pgs::encode_pcs(times, &pcs, &placements)?;
    let window = Window { id: 0, x: LEFT, y: TOP - 3 * SCALE, width: 24 * STEP, height: 10 * SCALE };
    set.extend(pgs::encode_wds(times, &[window])?);
    let white = Entry { id: 1, y: 235, cr: 128, cb: 128, alpha: 255 };
    set.extend(pgs::encode_pds(times, &Pds { id: 0, version: 0 }, &[white])?);
    for (id, (_, points)) in GLYPHS.iter().enumerate() {
        if placements.iter().any(|placement| usize::from(placement.object_id) == id) {
            set.extend(object(times, id as u32, points)?);
        }
    }
    set.extend(pgs::encode_end(times)?);
    Ok(set)
}

/// The placements of a text: letters in a line, accents above theirs.
fn placed(text: &str) -> Vec<Placement> {
    let mut placements = Vec::new();
    for (x, character) in (0..).map(|i| LEFT + STEP * i).zip(text.chars()) {
        let (letter, accent) = match character {
            'À' => ('A', Some('`')),
            'ô' => ('o', Some('^')),
            plain => (plain, None),
        };
        let low = if character.is_lowercase() { 0 } else { 3 * SCALE };
        placements.extend(placement(letter, x, TOP));
        placements.extend(accent.and_then(|accent| placement(accent, x, TOP - low)));
    }
    placements
}

/// A placement of a glyph; a space has none.
fn placement(glyph: char, x: u16, y: u16) -> Option<Placement> {
    let id = GLYPHS.iter().position(|(name, _)| *name == glyph)?;
    Some(Placement { object_id: id as u16, x, y, ..Placement::default() })
}

/// An object of one fragment. The declared length counts the four bytes of the dimensions too.
fn object(times: Times, id: u32, points: &str) -> pgs::Result<Vec<u8>> {
    let data = run_length_code(points);
    let ods = OdsNumbers {
        object_id: id,
        version: 0,
        flag: 0xC0,
        declared_length: data.len() as u32 + 4,
        dimensions_present: 1,
        width: 5 * u32::from(SCALE),
        height: points.split(' ').count() as u32 * u32::from(SCALE),
    };
    pgs::encode_ods(times, &ods, &data)
}

/// Each point is a run of SCALE pixels, each row of points is SCALE lines.
fn run_length_code(points: &str) -> Vec<u8> {
    let run = SCALE as u8;
    let mut data = Vec::new();
    for row in points.split(' ') {
        let mut line = Vec::new();
        for point in row.bytes() {
            match point {
                b'#' => line.extend([0, 0x80 | run, 1]),
                _ => line.extend([0, run]),
            }
        }
        line.extend([0, 0]);
        data.extend(line.repeat(usize::from(SCALE)));
    }
    data
}
