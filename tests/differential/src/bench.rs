//! The library and the published Rust, timed on the same inputs in one run: the best time of each.

use crate::bitmap::codes::{encoded, noisy, text_like};
use crate::captions::{captions, HOUR};
use crate::library::{plain, ObjectRecord, SegmentRecord, SetRecord};
use crate::prng::Prng;
use published::pgs;
use std::hint::black_box;
use std::time::{Duration, Instant};

/// How often each side runs, in turns.
const ROUNDS: usize = 15;
const SCREEN: (usize, usize) = (1920, 1080);
/// A line of the screen where a line of letters stands.
const LETTERS: usize = 495;

/// The smallest input whose growth is measured has a LARGEST-th of an hour's sets, or of a screen's lines.
const LARGEST: usize = 64;
const STEPS: [usize; 4] = [1, 4, 16, LARGEST];

pub fn run(seed: u64) {
    let mut p = Prng::named(seed, "bench");
    let hour = captions(&mut p, HOUR);
    let text = text_like(&mut p, SCREEN.0, SCREEN.1);
    let noise = noisy(&mut p, SCREEN.0, SCREEN.1);
    println!("seed {seed}, best of {ROUNDS}; an hour of captions: {HOUR} sets, {} bytes\n", hour.len());
    println!("{:32} {:>10} {:>10} {:>6}", "", "library", "Rust", "ratio");
    row("reading", reading(&hour));
    row("grouping", grouping(&hour));
    row("grouping and objects", objects(&hour));
    row("reading and writing", writing(&hour));
    row("bitmap 1920 by 1080, text-like", bitmap(&text));
    row("bitmap 1920 by 1080, noisy", bitmap(&noise));
    row("painting a set, 1920 by 1080", painting(&sentence(&mut p)));
    row("browsing: an hour, 100 planes", browsing(&hour, 100));

    let part = &hour[..hour.len() / LARGEST];
    println!("\nwhat neither side can do without, in milliseconds:");
    floor("a bare walk from head to head of the hour", walking(&hour));
    floor(&format!("the same over a {LARGEST}th of it, which fits in the cache"), walking(part));
    floor("the bytes of the hour copied once", copying(&hour));
    floor("a plane of 1920 by 1080 cleared once", clearing());

    println!("\nas the input grows: milliseconds of the library, ratio; how often the time of 1 x, at {LARGEST} x\n");
    let heads = STEPS.map(|step| format!("{step:>13} x"));
    println!("{:22} {} {:>10} {:>10}", "", heads.join(" "), "library", "Rust");
    let minute = captions(&mut p, HOUR / LARGEST);
    growth("reading", |times| reading(&minute.repeat(times)));
    growth("grouping", |times| grouping(&minute.repeat(times)));
    growth("grouping and objects", |times| objects(&minute.repeat(times)));
    growth("reading and writing", |times| writing(&minute.repeat(times)));
    growth("browsing, 18 planes", |times| browsing(&minute.repeat(times), HOUR / LARGEST));
    let lines = |all: &[u8], times: usize| {
        let some = &all[SCREEN.0 * LETTERS..][..SCREEN.0 * (SCREEN.1 / LARGEST)];
        some.repeat(times)
    };
    growth("bitmap, text-like", |times| bitmap(&lines(&text, times)));
    growth("bitmap, noisy", |times| bitmap(&lines(&noise, times)));
}

/// A set of some 60 letters and accents.
fn sentence(p: &mut Prng) -> Vec<u8> {
    loop {
        let set = captions(p, 1);
        let placements = set[13 + 10];
        if placements >= 58 {
            return set;
        }
    }
}

/// The best time of each side.
struct Times {
    library: Duration,
    rust: Duration,
}

/// Times both sides in turns.
fn timed(mut ours: impl FnMut(), mut theirs: impl FnMut()) -> Times {
    let timed = |side: &mut dyn FnMut()| {
        let start = Instant::now();
        side();
        start.elapsed()
    };
    let mut best = Times { library: Duration::MAX, rust: Duration::MAX };
    for _ in 0..ROUNDS {
        best.library = best.library.min(timed(&mut ours));
        best.rust = best.rust.min(timed(&mut theirs));
    }
    best
}

fn row(name: &str, times: Times) {
    let (library, rust) = (millis(times.library), millis(times.rust));
    println!("{name:32} {library:>7.3} ms {rust:>7.3} ms {:>6.2}", ratio(&times));
}

/// A time that both sides need.
fn floor(name: &str, time: Duration) {
    println!("{name:56} {:>8.4}", millis(time));
}

fn ratio(times: &Times) -> f64 {
    times.library.as_secs_f64() / times.rust.as_secs_f64()
}

/// The times for 1, 4, 16 and 64 times the input.
fn growth(name: &str, measure: impl Fn(usize) -> Times) {
    let times = STEPS.map(measure);
    let each = times.each_ref().map(|times| format!("{:>9.4} {:>5.2}", millis(times.library), ratio(times)));
    let [first, .., last] = &times;
    let grown = |side: fn(&Times) -> Duration| side(last).as_secs_f64() / side(first).as_secs_f64();
    let (library, rust) = (grown(|times| times.library), grown(|times| times.rust));
    println!("{name:22} {} {library:>8.1} x {rust:>8.1} x", each.join(" "));
}

fn millis(time: Duration) -> f64 {
    time.as_secs_f64() * 1e3
}

/// The least that a pass over a stream can take: its heads' sizes, one after another.
fn walking(stream: &[u8]) -> Duration {
    let walk = || {
        let mut at = 0;
        while let Some(size) = stream.get(at + 11..at + 13) {
            at += 13 + u16::from_be_bytes([size[0], size[1]]) as usize;
        }
        black_box(at);
    };
    timed(walk, || {}).library
}

/// The least that writing a stream again can take beside reading it.
fn copying(stream: &[u8]) -> Duration {
    let mut out = vec![0; stream.len()];
    let copy = || {
        out.copy_from_slice(black_box(stream));
        black_box(&out);
    };
    timed(copy, || {}).library
}

/// The least that painting can take: every byte of the plane stored once.
fn clearing() -> Duration {
    let mut room = Room::new();
    let clear = || {
        room.plane.fill(0);
        black_box(&room.plane);
    };
    timed(clear, || {}).library
}

fn reading(stream: &[u8]) -> Times {
    let segments = pgs::parse_segments(stream).expect("good captions").len();
    let mut list: Vec<SegmentRecord> = vec![[0; 5]; segments];
    let ours = || assert!(plain::parse_segments(black_box(stream), &mut list, &mut [0]) == 0);
    timed(ours, || drop(black_box(pgs::parse_segments(black_box(stream)))))
}

fn grouping(stream: &[u8]) -> Times {
    let mut list: Vec<SetRecord> = vec![[0; 3]; stream.len() / 37];
    let ours = || assert!(plain::parse_display_sets(black_box(stream), &mut list, &mut [0]) == 0);
    timed(ours, || drop(black_box(pgs::parse_display_sets(black_box(stream)))))
}

/// The sets of a stream, then the objects of each; the library is handed the bytes of each set alone.
fn objects(stream: &[u8]) -> Times {
    let mut sets: Vec<SetRecord> = vec![[0; 3]; stream.len() / 37];
    let mut scratch = vec![0; 1 << 20];
    let mut list: Vec<ObjectRecord> = vec![[0; 7]; 64];
    let ours = || {
        let mut count = [0];
        assert!(plain::parse_display_sets(black_box(stream), &mut sets, &mut count) == 0);
        for [from, to, _] in &sets[..count[0] as usize] {
            let set = &stream[*from as usize..*to as usize];
            assert!(plain::reassemble_objects(set, 0, &mut scratch, &mut list, &mut [0]) == 0);
        }
    };
    let theirs = || {
        for set in pgs::parse_display_sets(black_box(stream)).expect("good captions") {
            drop(black_box(set.reassemble_objects().expect("good objects")));
        }
    };
    timed(ours, theirs)
}

/// All segments read and written again, into one buffer.
fn writing(stream: &[u8]) -> Times {
    let mut out = vec![0; stream.len()];
    let ours = || assert!(plain::write_segments(black_box(stream), &mut out, &mut [0], &mut [0]) == 0);
    let theirs = || {
        let mut written = Vec::with_capacity(stream.len());
        for segment in pgs::parse_segments(black_box(stream)).expect("good captions") {
            written.extend(segment.encode());
        }
        drop(black_box(written));
    };
    timed(ours, theirs)
}

/// The pixels of whole lines of the screen, coded and decoded.
fn bitmap(pixels: &[u8]) -> Times {
    let (width, height) = (SCREEN.0 as u16, (pixels.len() / SCREEN.0) as u16);
    let data = encoded(pixels, SCREEN.0);
    let mut out = vec![0; pixels.len()];
    let ours = || assert!(plain::decode_rle(black_box(&data), width, height, &mut out) == 0);
    timed(ours, || drop(black_box(pgs::decode_rle(black_box(&data), width, height))))
}

/// The set 0 of a stream, painted.
fn painting(stream: &[u8]) -> Times {
    let sets = pgs::parse_display_sets(stream).expect("good captions");
    let mut room = Room::new();
    let ours = || room.paint(black_box(stream));
    timed(ours, || drop(black_box(black_box(&sets[0]).render().expect("a set that can be painted"))))
}

/// The sets of a stream, then the planes of some of them, from the first to the last; the library is handed the bytes
/// of each set alone.
fn browsing(stream: &[u8], planes: usize) -> Times {
    let mut sets: Vec<SetRecord> = vec![[0; 3]; stream.len() / 37];
    let mut room = Room::new();
    let ours = || {
        let mut count = [0];
        assert!(plain::parse_display_sets(black_box(stream), &mut sets, &mut count) == 0);
        let step = count[0] as usize / planes;
        for [from, to, _] in sets[..count[0] as usize].iter().step_by(step).take(planes) {
            room.paint(&stream[*from as usize..*to as usize]);
        }
    };
    let theirs = || {
        let sets = pgs::parse_display_sets(black_box(stream)).expect("good captions");
        for set in sets.iter().step_by(sets.len() / planes).take(planes) {
            drop(black_box(set.render().expect("a set that can be painted")));
        }
    };
    timed(ours, theirs)
}

/// Memory that is lent for painting, again and again.
struct Room {
    scratch: Vec<u8>,
    plane: Vec<u8>,
}

impl Room {
    fn new() -> Self {
        Room { scratch: vec![0; 1 << 20], plane: vec![0; 4 * SCREEN.0 * SCREEN.1] }
    }

    fn paint(&mut self, stream: &[u8]) {
        let mut shown = [0; 3];
        assert!(plain::render(stream, 0, &mut self.scratch, &mut self.plane, &mut shown) == 0);
        black_box(&self.plane);
    }
}
