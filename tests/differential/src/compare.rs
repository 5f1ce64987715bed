//! One call of the library, held against what it should answer, lent memory included.

use std::fmt;

use crate::lent::{Lent, LentBytes, Record};
use crate::library::Count;
use crate::numbers::TOO_SHORT;
use crate::prng::mix;

/// How many inputs of each sort.
#[derive(Clone, Copy, Default)]
pub struct Inputs {
    pub streams: u64,
    pub bodies: u64,
    pub bitmaps: u64,
    pub colors: u64,
    pub palettes: u64,
    pub segments: u64,
    pub planes: u64,
}

impl Inputs {
    pub fn add(&mut self, more: Inputs) {
        self.streams += more.streams;
        self.bodies += more.bodies;
        self.bitmaps += more.bitmaps;
        self.colors += more.colors;
        self.palettes += more.palettes;
        self.segments += more.segments;
        self.planes += more.planes;
    }

    /// Those that came after `earlier`.
    pub fn since(self, earlier: Inputs) -> Inputs {
        Inputs {
            streams: self.streams - earlier.streams,
            bodies: self.bodies - earlier.bodies,
            bitmaps: self.bitmaps - earlier.bitmaps,
            colors: self.colors - earlier.colors,
            palettes: self.palettes - earlier.palettes,
            segments: self.segments - earlier.segments,
            planes: self.planes - earlier.planes,
        }
    }
}

/// The sorts that there are any of.
impl fmt::Display for Inputs {
    fn fmt(&self, f: &mut fmt::Formatter) -> fmt::Result {
        let sorts = [
            (self.streams, "streams"),
            (self.bodies, "bodies"),
            (self.bitmaps, "bitmaps"),
            (self.colors, "colours"),
            (self.palettes, "lists of palettes"),
            (self.segments, "segments to write"),
            (self.planes, "planes"),
        ];
        let some = sorts.iter().filter(|(count, _)| *count > 0);
        let each: Vec<String> = some.map(|(count, sort)| format!("{count} {sort}")).collect();
        f.write_str(&each.join(", "))
    }
}

/// The numbers that a function can answer: 0, and 1 to 36.
const NUMBERS: usize = 37;

/// What was compared so far.
#[derive(Default)]
pub struct Tally {
    pub inputs: Inputs,
    pub calls: u64,
    /// For each function, how often each number was the right answer; 0 is acceptance.
    answers: Vec<(&'static str, [u64; NUMBERS])>,
}

impl Tally {
    pub fn called(&mut self, function: &'static str, number: u8) {
        self.calls += 1;
        self.answers_of(function)[number as usize] += 1;
    }

    fn answers_of(&mut self, function: &'static str) -> &mut [u64; NUMBERS] {
        let known = self.answers.iter().position(|(name, _)| *name == function);
        let at = known.unwrap_or_else(|| {
            self.answers.push((function, [0; NUMBERS]));
            self.answers.len() - 1
        });
        &mut self.answers[at].1
    }

    pub fn add(&mut self, more: &Tally) {
        self.inputs.add(more.inputs);
        self.calls += more.calls;
        for (function, times) in &more.answers {
            self.answers_of(function).iter_mut().zip(times).for_each(|(sum, n)| *sum += n);
        }
    }

    /// The numbers that a function had to answer, and how often.
    fn given(&self, function: &str) -> Vec<(u8, u64)> {
        let times = self.answers.iter().filter(|(name, _)| *name == function).flat_map(|(_, times)| times);
        (0..).zip(times.copied()).filter(|(_, times)| *times > 0).collect()
    }

    /// A line for each function: how often it had to give each of its answers.
    pub fn answers(&self) -> String {
        let mut lines = String::new();
        for (function, _) in &self.answers {
            let given = self.given(function);
            let each: Vec<String> =
                given.iter().map(|(number, times)| format!("{number}: {times}")).collect();
            lines += &format!("{function} answers {}\n", each.join(", "));
        }
        lines
    }

    /// A run that never came to one of a function's answers has not compared it.
    pub fn met(&self, function: &str, numbers: &[u8]) -> Result<(), String> {
        let given: Vec<u8> = self.given(function).into_iter().map(|(number, _)| number).collect();
        if given == numbers {
            return Ok(());
        }
        Err(format!("the answers of {function} should be {numbers:?}, the run came to {given:?}"))
    }
}

/// What a call comes to where its list is long enough: the record beside the list, and the list; or a number.
pub type Wanted<H, R> = Result<(H, Vec<R>), u8>;

/// Lends lists of several lengths: none, one too short, exactly long enough, longer.
/// `spare` is a length for calls that are refused whatever the list: some of it could have been filled.
pub fn list_calls<H: Record, R: Record>(
    tally: &mut Tally,
    name: &'static str,
    wanted: &Wanted<H, R>,
    spare: usize,
    call: impl Fn(&mut Lent<H>, &mut Lent<R>, &mut Lent<Count>) -> u8,
) -> Result<(), String> {
    let mut rooms = match wanted {
        Ok((_, list)) => vec![0, list.len().saturating_sub(1), list.len(), list.len() + 2],
        Err(_) => vec![0, spare],
    };
    rooms.dedup();
    for room in rooms {
        list_call(tally, name, wanted, room, &call)
            .map_err(|what| format!("{name}, {room} records lent: {what}"))?;
    }
    Ok(())
}

/// One call with a list of `room` records.
fn list_call<H: Record, R: Record>(
    tally: &mut Tally,
    name: &'static str,
    wanted: &Wanted<H, R>,
    room: usize,
    call: impl Fn(&mut Lent<H>, &mut Lent<R>, &mut Lent<Count>) -> u8,
) -> Result<(), String> {
    let salt = mix(room as u64) >> 8;
    let mut head = Lent::new(1, salt);
    let mut list = Lent::new(room, salt + 7);
    let mut count = Lent::new(1, salt + 99);
    let answer = call(&mut head, &mut list, &mut count);
    let (number, head_then, list_then, count_then): (u8, &[H], &[R], Option<Count>) = match wanted {
        Ok((h, l)) if l.len() <= room => (0, std::slice::from_ref(h), l, Some([l.len() as u64])),
        Ok(_) => (TOO_SHORT, &[], &[], None),
        Err(refusal) => (*refusal, &[], &[], None),
    };
    tally.called(name, number);
    same_number(answer, number)?;
    head.holds("record", head_then)?;
    list.holds("list", list_then)?;
    count.holds("count", count_then.as_slice())
}

/// One call that answers a record and no list.
pub fn record_call<H: Record>(
    tally: &mut Tally,
    name: &'static str,
    wanted: &Result<H, u8>,
    call: impl Fn(&mut Lent<H>) -> u8,
) -> Result<(), String> {
    let mut head = Lent::new(1, 5);
    let answer = call(&mut head);
    let (number, head_then): (u8, &[H]) = match wanted {
        Ok(h) => (0, std::slice::from_ref(h)),
        Err(refusal) => (*refusal, &[]),
    };
    tally.called(name, number);
    same_number(answer, number)
        .and_then(|()| head.holds("record", head_then))
        .map_err(|what| format!("{name}: {what}"))
}

/// One call that is lent `room` bytes. It answers the number; the bytes then start with `first`, and are
/// otherwise as they were.
pub fn bytes_call(
    tally: &mut Tally,
    name: &'static str,
    (number, first): (u8, &[u8]),
    room: usize,
    lent: &mut LentBytes,
    call: impl FnOnce(*mut u8, usize) -> u8,
) -> Result<(), String> {
    let answer = call(lent.pointer(room), room);
    tally.called(name, number);
    let held = lent.hold(room, first);
    same_number(answer, number).and(held).map_err(|what| format!("{name}, {room} bytes lent: {what}"))
}

pub fn same_number(answer: u8, number: u8) -> Result<(), String> {
    if answer == number {
        return Ok(());
    }
    Err(format!("the library answers {answer}, it should be {number}"))
}
