//! Compares every bitmap data of up to 4 bytes, in bitmaps of 0 to 3 by 0 to 3, with the published Rust: the number of
//! a refusal, the pixels, the memory lent and that around it, the data. It takes long, and is no part of the gate.
//!
//!     exhaustive [FROM [TO]]     only the data whose first byte is FROM to TO, in hexadecimal (no data goes with 00)
//!
//! It is a program of its own for its allocator: the Rust asks for memory in almost every call.

#[allow(dead_code)]
#[path = "../numbers.rs"]
mod numbers;

use numbers::{NUMBERS, TOO_SHORT};
use published::error::BlurayError;
use published::pgs::{self, DecodedObject};
use std::alloc::{GlobalAlloc, Layout, System};
use std::cell::Cell;
use std::hint::black_box;
use std::io::{self, Write};
use std::process::ExitCode;
use std::ptr::addr_of_mut;
use std::time::Instant;

extern "C" {
    fn pgs_decode_rle(
        data: *const u8,
        data_len: usize,
        width: u16,
        height: u16,
        pixels: *mut u8,
        pixels_len: usize,
    ) -> u8;
}

/// Hands out a few small pieces of memory of the main thread again and again, and leaves all else to the system.
struct Pieces;

const PIECE: usize = 64;
const PIECES: usize = 16;

#[derive(Clone, Copy)]
#[repr(align(64))]
struct Piece {
    _bytes: [u8; PIECE],
}

static mut ARENA: [Piece; PIECES] = [Piece { _bytes: [0; PIECE] }; PIECES];

thread_local! {
    /// A bit for each piece that is free; the main thread frees them all for itself.
    static FREE: Cell<u32> = const { Cell::new(0) };
}

unsafe impl GlobalAlloc for Pieces {
    #[inline]
    unsafe fn alloc(&self, layout: Layout) -> *mut u8 {
        let free = FREE.get();
        if layout.size() <= PIECE && layout.align() <= PIECE && free != 0 {
            FREE.set(free & (free - 1));
            return addr_of_mut!(ARENA).cast::<u8>().add(PIECE * free.trailing_zeros() as usize);
        }
        System.alloc(layout)
    }

    #[inline]
    unsafe fn dealloc(&self, at: *mut u8, layout: Layout) {
        let place = (at as usize).wrapping_sub(addr_of_mut!(ARENA) as usize);
        if place < PIECE * PIECES {
            FREE.set(FREE.get() | 1 << (place / PIECE));
            return;
        }
        System.dealloc(at, layout);
    }
}

#[global_allocator]
static MEMORY: Pieces = Pieces;

/// The sides of the bitmaps.
const SIDES: u16 = 4;
/// The longest data.
const LONGEST: u32 = 4;

/// Bytes before and after what is lent.
const GUARD: usize = 16;
const SIZE: usize = 48;

/// What is lent before each call, and what stands around it.
const PATTERN: [u8; SIZE] = {
    let mut pattern = [0; SIZE];
    let mut i = 0;
    while i < SIZE {
        pattern[i] = (i * 37 + 11) as u8;
        i += 1;
    }
    pattern
};

#[repr(align(16))]
struct Run {
    pixels: [u8; SIZE],
    /// The data in the middle; a reader that goes past its end finds bytes that could belong to it.
    data: [u8; SIZE],
    messages: [&'static str; 256],
    bitmaps: u64,
    calls: u64,
    answers: [u64; 256],
}

impl Run {
    fn new() -> Self {
        let mut messages = [""; 256];
        for (number, message) in NUMBERS {
            messages[number as usize] = message;
        }
        Run { pixels: PATTERN, data: [1; SIZE], messages, bitmaps: 0, calls: 0, answers: [0; 256] }
    }

    /// Calls the library with room for so many pixels.
    #[inline(always)]
    fn ours(&mut self, len: usize, width: u16, height: u16, room: usize) -> u8 {
        self.calls += 1;
        let data = self.data.as_ptr().wrapping_add(GUARD);
        let pixels = self.pixels.as_mut_ptr().wrapping_add(GUARD);
        unsafe { pgs_decode_rle(data, len, width, height, black_box(pixels), room) }
    }

    /// Compares one bitmap; the data are `len` bytes.
    #[inline(always)]
    fn compare(&mut self, bytes: [u8; 4], len: usize, width: u16, height: u16) -> Result<(), String> {
        self.data[GUARD..GUARD + 4].copy_from_slice(&bytes);
        let wanted = pgs::decode_rle(black_box(&self.data[GUARD..GUARD + len]), width, height);
        let number = self.ours(len, width, height, width as usize * height as usize);
        self.bitmaps += 1;
        self.answers[number as usize] += 1;
        let same = match &wanted {
            Err(BlurayError::Malformed(said)) => {
                *said == *self.messages[number as usize] && black_box(&self.pixels) == &PATTERN
            }
            Err(_) => false,
            Ok(object) => return self.compare_accepted(object, number, bytes, len, width, height),
        };
        if same && self.data[GUARD..GUARD + 4] == bytes {
            return Ok(());
        }
        Err(format!("{number}, the Rust says {:?}; memory {:02X?}", wanted.err(), self.pixels))
    }

    /// The pixels, and calls with more room, too little and none.
    #[inline(never)]
    fn compare_accepted(
        &mut self,
        wanted: &DecodedObject,
        number: u8,
        bytes: [u8; 4],
        len: usize,
        width: u16,
        height: u16,
    ) -> Result<(), String> {
        let need = width as usize * height as usize;
        let mut after = PATTERN;
        after[GUARD..GUARD + wanted.pixels.len()].copy_from_slice(&wanted.pixels);
        if (wanted.width, wanted.height, wanted.pixels.len()) != (width, height, need) {
            return Err("the Rust changed the dimensions".to_string());
        }
        self.left(number, (0, &after), need)?;
        let more = self.ours(len, width, height, need + 2);
        self.left(more, (0, &after), need + 2)?;
        for room in [0, need.saturating_sub(1)] {
            if room < need {
                let less = self.ours(len, width, height, room);
                self.left(less, (TOO_SHORT, &PATTERN), room)?;
            }
        }
        if self.data[GUARD..GUARD + 4] != bytes {
            return Err("the call changed its data".to_string());
        }
        Ok(())
    }

    /// Whether a call answered this number and left this memory; the pattern is put back.
    fn left(&mut self, number: u8, wanted: (u8, &[u8; SIZE]), room: usize) -> Result<(), String> {
        if (number, black_box(&self.pixels)) != wanted {
            let (answer, memory) = wanted;
            return Err(format!(
                "room {room}: {number} and {:02X?}, it should be {answer} and {memory:02X?}",
                self.pixels
            ));
        }
        self.pixels = PATTERN;
        Ok(())
    }

    /// Every data of this length with this first byte.
    fn every(&mut self, first: u8, len: u32) -> Result<(), String> {
        for (width, height) in (0..SIDES).flat_map(|w| (0..SIDES).map(move |h| (w, h))) {
            for rest in 0..1_u32 << (8 * (len - 1)) {
                let [_, a, b, c] = (rest << (8 * (LONGEST - len))).to_be_bytes();
                let bytes = [first, a, b, c];
                self.compare(bytes, len as usize, width, height).map_err(|what| {
                    let data: String =
                        bytes[..len as usize].iter().map(|byte| format!(" {byte:02X}")).collect();
                    format!(
                        "MISMATCH: {what}\n  to compare it again: \
                         tests/differential/run bitmap {width:04X} {height:04X}{data}"
                    )
                })?;
            }
        }
        Ok(())
    }
}

/// The first and the last of the first bytes, of 256.
fn part(words: &[String]) -> Option<(u8, u8)> {
    let byte = |word: &String| u8::from_str_radix(word, 16).ok();
    match words {
        [] => Some((0, 255)),
        [from] => Some((byte(from)?, 255)),
        [from, to] => Some((byte(from)?, byte(to)?)),
        _ => None,
    }
}

fn run(words: &[String]) -> Result<(), String> {
    let (from, to) = part(words).ok_or("exhaustive [FROM [TO]]: first bytes, in hexadecimal")?;
    numbers::complete(published::PGS_TEXT)?;
    let began = Instant::now();
    let mut run = Run::new();
    FREE.set((1 << PIECES) - 1);
    let mut data = 0_u64;
    if from == 0 {
        for (width, height) in (0..SIDES).flat_map(|w| (0..SIDES).map(move |h| (w, h))) {
            run.compare([1; 4], 0, width, height).map_err(|what| format!("MISMATCH: no data: {what}"))?;
        }
        data += 1;
    }
    for first in from..=to {
        for len in 1..=LONGEST {
            run.every(first, len)?;
            data += 1 << (8 * (len - 1));
        }
        println!(
            "first byte {first:02X} done: {data} data, {} bitmaps, {} s",
            run.bitmaps,
            began.elapsed().as_secs()
        );
        io::stdout().flush().map_err(|e| e.to_string())?;
    }
    let sides = SIDES - 1;
    println!("first bytes {from:02X} to {to:02X}, up to {LONGEST} bytes, 0 to {sides} by 0 to {sides}:");
    for (number, count) in run.answers.iter().enumerate().filter(|(_, count)| **count > 0) {
        println!("  {number:2}: {count}");
    }
    println!(
        "the same on {data} data, {} bitmaps: {} calls of the library, {} of the Rust, 0 mismatches, {} s",
        run.bitmaps,
        run.calls,
        run.bitmaps,
        began.elapsed().as_secs()
    );
    Ok(())
}

fn main() -> ExitCode {
    let words: Vec<String> = std::env::args().skip(1).collect();
    match run(&words) {
        Ok(()) => ExitCode::SUCCESS,
        Err(what) => {
            println!("{what}");
            ExitCode::FAILURE
        }
    }
}
