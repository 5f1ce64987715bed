//! Records answers of the published Rust, for crates/pgs_replay to give again where no Rust is at hand.
//!
//! Each group of each layer gives some of its inputs: for each number that the Rust answers, a few of the short ones.
//! An input becomes one or more calls. The file stdin gets the calls, as pgs_replay reads them; the file stdout gets a
//! line for each, as pgs_replay must print it: the answer, and all of the lent memory, full of 9s before.

use crate::compare::Wanted;
use crate::generate::{END, ODS, PCS, PDS, WDS};
use crate::numbers::TOO_SHORT;
use crate::paint::oracle::WantedPlane;
use crate::prng::Prng;
use crate::writer::fields::{Body, Fields};
use crate::{bitmap, color, paint, segments, sets, writer};
use std::collections::{BTreeMap, BTreeSet};
use std::path::Path;
use std::{fs, io};

/// Inputs of up to so many bytes are short. Longer ones, of up to LONGEST, are kept only where none is short.
const SHORT: usize = 240;
const LONGEST: usize = 3_000;
/// How many inputs of a group are kept for each refusal, and how many for acceptance; colours; long inputs.
const REFUSED: usize = 8;
const ACCEPTED: usize = 30;
const COLORS: usize = 300;
const LONG: usize = 2;

/// An input, and the word that tells what it is: `stream`, `bitmap`, ..
type Input = (String, Vec<u8>);

/// Takes the inputs of one group after the other.
pub struct Recorder {
    p: Prng,
    group: usize,
    /// For each group and answer, short and long: how many inputs came, and those that are kept.
    kept: BTreeMap<(usize, u16, bool), (usize, Vec<Input>)>,
}

impl Recorder {
    pub fn new(seed: u64) -> Self {
        Recorder { p: Prng::named(seed, "record"), group: 0, kept: BTreeMap::new() }
    }

    pub fn next_group(&mut self) {
        self.group += 1;
    }

    /// Keeps the input, or does not: each that comes has the same chance.
    pub fn offer(&mut self, command: &str, input: &[u8]) {
        if input.len() > LONGEST {
            return;
        }
        let sort = sort(command, input);
        let long = input.len() > SHORT;
        let most = match (long, command, sort % 256) {
            (true, ..) => LONG,
            (_, "color", _) => COLORS,
            (_, _, 0) => ACCEPTED,
            _ => REFUSED,
        };
        let (came, kept) = self.kept.entry((self.group, sort, long)).or_default();
        *came += 1;
        if kept.len() < most {
            kept.push((command.to_string(), input.to_vec()));
        } else {
            let at = self.p.below(*came);
            if at < most {
                kept[at] = (command.to_string(), input.to_vec());
            }
        }
    }

    /// Writes the files stdin and stdout, and answers how many calls they hold.
    pub fn write(&self, folder: &Path) -> io::Result<usize> {
        let (mut asked, mut answered) = (Vec::new(), String::new());
        let mut known = BTreeSet::new();
        let has_short =
            |(group, sort, _): &(usize, u16, bool)| self.kept.contains_key(&(*group, *sort, false));
        let kept = self.kept.iter().filter(|(key, _)| !key.2 || !has_short(key));
        let inputs = kept.flat_map(|(_, (_, inputs))| inputs);
        for call in inputs.flat_map(|(command, input)| calls(command, input)) {
            let bytes = call.bytes();
            if known.insert(bytes.clone()) {
                asked.extend(bytes);
                answered += &call.answer();
            }
        }
        answered += &format!("{} answers\n", known.len());
        fs::write(folder.join("stdin"), asked)?;
        fs::write(folder.join("stdout"), answered)?;
        Ok(known.len())
    }
}

/// Inputs of one sort have one answer: the Rust's number, or 0; with the kind of a body or a writer.
fn sort(command: &str, input: &[u8]) -> u16 {
    let number = |answer: Option<u8>| answer.unwrap_or(0) as u16;
    match command {
        "stream" | "writes" => number(segments::oracle::segments(input).err()),
        "paint" => match painted(input, 0) {
            WantedPlane::Refused(number) => number as u16,
            WantedPlane::Needs(..) => TOO_SHORT as u16,
            WantedPlane::Read(painting) => number(painting.painted.err()),
        },
        "sets" | "browse" => match sets::oracle::sets(input) {
            Err(refused) => refused as u16,
            Ok(sets) => number(sets.iter().find_map(|set| sets::oracle::objects(input, set).err())),
        },
        "bitmap" => number(decoded(input).2.err()),
        "fields" => match Fields::from_input(input) {
            Some(fields) => input[0] as u16 * 256 + number(writer::oracle::written(&fields).err()),
            None => 0,
        },
        "color" | "palettes" => 0,
        body => {
            let kind = kind_of(body);
            kind as u16 * 256 + number(segments::oracle::body(kind, input).err())
        }
    }
}

/// The kind of a body, from its command: `body 16`.
fn kind_of(command: &str) -> u8 {
    let kind = command.strip_prefix("body ").expect("the command of a body");
    u8::from_str_radix(kind, 16).expect("two digits")
}

fn decoded(input: &[u8]) -> (u16, u16, bitmap::WantedPixels) {
    let number = |at: usize| u16::from_be_bytes([input[at], input[at + 1]]);
    let (width, height) = (number(0), number(2));
    (width, height, bitmap::decoded(width, height, &input[4..]))
}

/// What pgs_replay is to call: the letter of the call, two numbers, the bytes.
struct Call {
    letter: u8,
    numbers: (u16, u16),
    input: Vec<u8>,
}

/// The letter of each writer, the kind that it writes, and the length of its output.
const WRITERS: [(u8, u8, usize); 6] =
    [(b'U', 0, 32), (b'F', ODS, 40), (b'E', END, 16), (b'p', PCS, 60), (b'w', WDS, 34), (b'c', PDS, 28)];

impl Call {
    fn new(letter: u8, input: &[u8]) -> Call {
        Call { letter, numbers: (0, 0), input: input.to_vec() }
    }

    fn with(letter: u8, numbers: (u16, u16), input: &[u8]) -> Call {
        Call { letter, numbers, input: input.to_vec() }
    }

    fn bytes(&self) -> Vec<u8> {
        let (a, b) = self.numbers;
        let [len, a, b] = [self.input.len() as u16, a, b].map(u16::to_be_bytes);
        [&[self.letter], &len[..], &a, &b, &self.input].concat()
    }

    /// The line that pgs_replay must print.
    fn answer(&self) -> String {
        let input = &self.input[..];
        let (a, b) = self.numbers;
        let line = match self.letter {
            b'S' => list("segments", 6, &segments::oracle::segments(input), |_| String::new()),
            b'P' => {
                list("pcs", 3, &segments::oracle::pcs(body(PCS, input).as_ref().map_err(|e| *e)), |p| row(p))
            }
            b'W' => list("wds", 3, &segments::oracle::wds(body(WDS, input).as_ref().map_err(|e| *e)), |_| {
                String::new()
            }),
            b'C' => palette(input[0], &input[1..]),
            b'O' => match segments::oracle::ods(body(ODS, input).as_ref().map_err(|e| *e), input) {
                Ok(record) => format!("ods accepted{}", row(&record)),
                Err(number) => format!("ods refused {number}"),
            },
            b'G' => list("sets", 3, &set_records(input), |_| String::new()),
            b'J' => objects(input, a as usize),
            b'L' => buffer("cards", 71, &cards(input), |n| format!(" {n}")),
            b'B' => buffer("bitmap", 20, &bitmap::decoded(a, b, input), |_| String::new()),
            b'Y' => {
                let [_, r, g, b] = color::converted(input[0], input[1], input[2]).to_be_bytes();
                format!("color {r} {g} {b}")
            }
            b'I' => plane(input, a as usize),
            b'R' => writes(input, a as usize),
            letter => write(letter, a as usize, input),
        };
        line + "\n"
    }
}

fn body(kind: u8, bytes: &[u8]) -> Result<published::pgs::SegmentBody, u8> {
    segments::oracle::body(kind, bytes)
}

/// The calls that an input is good for.
fn calls(command: &str, input: &[u8]) -> Vec<Call> {
    match command {
        "stream" => {
            let mut calls = vec![Call::new(b'S', input)];
            let mut rest = input;
            while let Some((kind, body)) = segments::whole_body(rest) {
                calls.extend(body_call(kind, body));
                rest = &rest[13 + body.len()..];
            }
            calls
        }
        "writes" => {
            let segments = segments::oracle::segments(input).map_or(0, |(_, list)| list.len());
            let fewer = segments.saturating_sub(1) as u16;
            vec![Call::with(b'R', (u16::MAX, 0), input), Call::with(b'R', (fewer, 0), input)]
        }
        "sets" => {
            let objects = numbers(input).map(|set| Call::with(b'J', (set, 0), input));
            [Call::new(b'G', input), Call::new(b'L', input)].into_iter().chain(objects).collect()
        }
        "bitmap" => {
            let (width, height, _) = decoded(input);
            vec![Call::with(b'B', (width, height), &input[4..])]
        }
        "fields" => match Fields::from_input(input).map(|fields| fields.body) {
            Some(Body::Other(..)) => vec![Call::new(b'U', &input[1..])],
            Some(Body::Ods(..)) => vec![Call::new(b'F', &input[1..])],
            Some(Body::End) => vec![Call::new(b'E', &input[1..])],
            Some(Body::Pcs(_, list)) => listed(b'p', list.len(), &input[1..], 62),
            Some(Body::Wds(list)) => listed(b'w', list.len(), &input[1..], 28),
            Some(Body::Pds(_, list)) => listed(b'c', list.len(), &input[1..], 20),
            None => vec![],
        },
        "color" => vec![Call::new(b'Y', input)],
        "paint" => numbers(input).map(|set| Call::with(b'I', (set, 0), input)).collect(),
        "browse" => vec![],
        "palettes" => palettes(input),
        command => body_call(kind_of(command), input).into_iter().collect(),
    }
}

/// The numbers of a stream's sets; where there are none, or the stream is very short, one more.
fn numbers(stream: &[u8]) -> std::ops::Range<u16> {
    let count = sets::oracle::sets(stream).map_or(0, |sets| sets.len() as u16);
    0..count + u16::from(count == 0 || stream.len() < 80)
}

/// A writer with a list of up to two records; the input is as long as with two.
fn listed(letter: u8, records: usize, input: &[u8], len: usize) -> Vec<Call> {
    if records > 2 {
        return vec![];
    }
    let mut padded = input.to_vec();
    padded.resize(len, 0);
    vec![Call::with(letter, (records as u16, 0), &padded)]
}

/// The reading of a body; a palette is one that is named.
fn body_call(kind: u8, body: &[u8]) -> Option<Call> {
    match kind {
        PCS => Some(Call::new(b'P', body)),
        WDS => Some(Call::new(b'W', body)),
        PDS => {
            Some(Call::new(b'C', &[&body[..body.len().min(1)], body].concat())).filter(|_| !body.is_empty())
        }
        ODS => Some(Call::new(b'O', body)),
        _ => None,
    }
}

/// Each palette of a list by itself: the named id, then the body of its PDS.
fn palettes(input: &[u8]) -> Vec<Call> {
    let (named, palettes) = color::parsed(input).expect("a list of palettes");
    let call = |(id, entries): &color::Segment| {
        Call::new(b'C', &[&[named, *id, 7], entries.as_flattened()].concat())
    };
    palettes.iter().map(call).collect()
}

/// The cells of a record.
fn row<T: Copy + Into<u64>>(cells: &[T]) -> String {
    let cells: Vec<String> = cells.iter().map(|cell| format!(" {}", (*cell).into())).collect();
    format!(",{}", cells.concat())
}

/// All records of a list of `room` records after a call.
fn rows<T: Copy + Into<u64> + From<u8>, const N: usize>(room: usize, filled: &[[T; N]]) -> String {
    (0..room).map(|i| row(filled.get(i).unwrap_or(&[T::from(9); N]))).collect()
}

/// A call that fills a list of `room` records. `before` is what stands before the list where it is accepted.
fn list<H, T: Copy + Into<u64> + From<u8>, const N: usize>(
    name: &str,
    room: usize,
    wanted: &Wanted<H, [T; N]>,
    before: impl Fn(&H) -> String,
) -> String {
    match wanted {
        Ok((head, list)) if list.len() <= room => {
            format!("{name} accepted {}{}{}", list.len(), before(head), rows(room, list))
        }
        Ok(_) => format!("{name} refused {TOO_SHORT}{}", rows::<T, N>(room, &[])),
        Err(number) => format!("{name} refused {number}{}", rows::<T, N>(room, &[])),
    }
}

/// All bytes of a buffer of `room` bytes after a call.
fn bytes(room: usize, filled: &[u8]) -> String {
    let all: Vec<String> = (0..room).map(|i| format!("{:02x}", filled.get(i).unwrap_or(&9))).collect();
    format!(", {}", all.concat())
}

/// A call that fills a buffer of `room` bytes.
fn buffer(name: &str, room: usize, wanted: &Result<Vec<u8>, u8>, told: impl Fn(usize) -> String) -> String {
    match wanted {
        Ok(filled) if filled.len() <= room => {
            format!("{name} accepted{}{}", told(filled.len()), bytes(room, filled))
        }
        Ok(_) => format!("{name} refused {TOO_SHORT}{}", bytes(room, &[])),
        Err(number) => format!("{name} refused {number}{}", bytes(room, &[])),
    }
}

/// A palette, and the colours of indices 0 to 3 where it is laid over a cleared table.
fn palette(named: u8, body: &[u8]) -> String {
    let wanted = segments::oracle::pds(self::body(PDS, body).as_ref().map_err(|e| *e));
    let entries = wanted.as_ref().map_or(Vec::new(), |(_, entries)| entries.clone());
    list("pds", 4, &wanted, |[id, version]| {
        let table = color::table_of(&(*id, entries.clone()), named);
        let colors: Vec<String> = table.chunks(4).take(4).map(row).collect();
        format!(", {id} {version} done done{}", colors.concat())
    })
}

fn set_records(stream: &[u8]) -> sets::WantedSets {
    let sets = sets::oracle::sets(stream)?;
    Ok(([], sets.iter().map(|set| set.record).collect()))
}

/// A segment written from its fields; of a list the first `records`.
fn write(letter: u8, records: usize, input: &[u8]) -> String {
    let (_, writer, room) = WRITERS.into_iter().find(|w| w.0 == letter).expect("the letter of a call");
    let mut fields = Fields::from_input(&[&[writer], input].concat()).expect("fields");
    match &mut fields.body {
        Body::Pcs(_, list) => list.truncate(records),
        Body::Wds(list) => list.truncate(records),
        Body::Pds(_, list) => list.truncate(records),
        Body::Ods(..) | Body::End | Body::Other(..) => {}
    }
    buffer("write", room, &writer::oracle::written(&fields), |n| format!(" {n}"))
}

/// The objects of a set: a list of 3 records, and a scratch of 12 bytes.
fn objects(stream: &[u8], set: usize) -> String {
    let sets = sets::oracle::sets(stream);
    let wanted = sets.and_then(|sets| match sets.get(set) {
        Some(set) => sets::oracle::objects(stream, set),
        None => Err(sets::NO_SUCH_SET),
    });
    match wanted {
        Ok(o) if o.records.len() <= 3 && o.joined.len() <= 12 => {
            format!("objects accepted {}{}{}", o.records.len(), rows(3, &o.records), bytes(12, &o.joined))
        }
        other => {
            let number = other.err().unwrap_or(TOO_SHORT);
            format!("objects refused {number}{}{}", rows::<u64, 7>(3, &[]), bytes(12, &[]))
        }
    }
}

/// What painting a set comes to.
fn painted(stream: &[u8], set: usize) -> WantedPlane {
    match sets::oracle::sets(stream) {
        Err(number) => WantedPlane::Refused(number),
        Ok(sets) => match sets.get(set) {
            Some(set) => paint::oracle::plane(stream, set),
            None => WantedPlane::Refused(sets::NO_SUCH_SET),
        },
    }
}

/// A painted set: a scratch of 40 bytes, and a plane of 52.
fn plane(stream: &[u8], set: usize) -> String {
    let line = |answer: &str, scratch: &[u8], plane: &[u8]| {
        format!("plane {answer}{}{}", bytes(40, scratch), bytes(52, plane))
    };
    match painted(stream, set) {
        WantedPlane::Refused(number) => line(&format!("refused {number}"), &[], &[]),
        WantedPlane::Read(p) if p.needs.0 <= 40 && p.needs.1 <= 52 => match &p.painted {
            Ok((plane, [width, height, pts])) => {
                line(&format!("accepted {width} {height} {pts}"), &p.scratch, plane)
            }
            Err(number) => line(&format!("refused {number}"), &p.scratch, &[]),
        },
        _ => line(&format!("refused {TOO_SHORT}"), &[], &[]),
    }
}

/// The card lines of a stream.
fn cards(stream: &[u8]) -> Result<Vec<u8>, u8> {
    let mut lines = String::new();
    for set in sets::oracle::sets(stream)? {
        lines += &sets::oracle::card(&set, &sets::oracle::objects(stream, &set)?);
    }
    Ok(lines.into_bytes())
}

/// The first `writes` segments of a stream, written again into 64 bytes.
fn writes(stream: &[u8], writes: usize) -> String {
    match writer::cuts(stream) {
        Ok(cuts) => {
            let (accepted, written) = writer::oracle::writes(cuts.iter().take(writes), 64);
            format!("writes accepted {accepted} {}{}", written.len(), bytes(64, &written))
        }
        Err(number) => format!("writes refused {number}{}", bytes(64, &[])),
    }
}
