//! Memory that is lent to a call: filled with a pattern, with guards at both ends, so that every change shows.

use crate::prng::mix;

/// A record as it is lent: a fixed array of numbers.
pub trait Record: Copy + PartialEq + std::fmt::Debug {
    /// What fills the record before the call.
    fn pattern(salt: u64) -> Self;
}

macro_rules! record_of {
    ($number:ty) => {
        impl<const N: usize> Record for [$number; N] {
            fn pattern(salt: u64) -> Self {
                std::array::from_fn(|cell| mix(salt.wrapping_mul(31) + cell as u64) as $number)
            }
        }
    };
}
record_of!(u8);
record_of!(u16);
record_of!(u64);

/// Records before and after the lent ones.
const GUARD: usize = 3;

/// A list of records that a call may fill from the front.
pub struct Lent<R> {
    records: Vec<R>,
    salt: u64,
}

impl<R: Record> Lent<R> {
    pub fn new(len: usize, salt: u64) -> Self {
        let records = (0..len + 2 * GUARD).map(|i| R::pattern(salt + i as u64)).collect();
        Lent { records, salt }
    }

    /// The number of records lent.
    pub fn len(&self) -> usize {
        self.records.len() - 2 * GUARD
    }

    /// The lent records.
    pub fn records(&self) -> &[R] {
        &self.records[GUARD..GUARD + self.len()]
    }

    /// The first lent record. The pointer may reach the guards too: a stray store is seen, not undefined.
    pub fn pointer(&mut self) -> *mut R {
        self.records[..].as_mut_ptr().wrapping_add(GUARD)
    }

    /// Whether the list now starts with these records and is otherwise as it was filled.
    pub fn holds(&self, name: &str, first: &[R]) -> Result<(), String> {
        for (i, now) in self.records.iter().enumerate() {
            let place = i as i64 - GUARD as i64;
            let wanted = match usize::try_from(place).ok().and_then(|p| first.get(p)) {
                Some(written) => *written,
                None => R::pattern(self.salt + i as u64),
            };
            if *now != wanted {
                let answered = place >= 0 && (place as usize) < first.len();
                let why = if answered { "" } else { ", as it was before the call" };
                return Err(format!("{name}[{place}] is {now:?}, it should be {wanted:?}{why}"));
            }
        }
        Ok(())
    }
}

/// Bytes before and after the lent ones.
const BYTE_GUARD: usize = 16;

/// Bytes that are lent again and again. Between calls they hold the pattern, so that small calls are cheap.
#[derive(Default)]
pub struct LentBytes {
    bytes: Vec<u8>,
    pattern: Vec<u8>,
}

impl LentBytes {
    /// Where the first of `room` lent bytes stands: at every remainder modulo 16.
    fn start(room: usize) -> usize {
        BYTE_GUARD + room % 16
    }

    /// The first of `room` lent bytes. The pointer may reach the guards too.
    pub fn pointer(&mut self, room: usize) -> *mut u8 {
        let start = Self::start(room);
        for i in self.bytes.len()..start + room + BYTE_GUARD {
            self.pattern.push(mix(i as u64) as u8);
            self.bytes.push(self.pattern[i]);
        }
        self.bytes[..].as_mut_ptr().wrapping_add(start)
    }

    /// What `room` lent bytes hold before a call.
    pub fn before(&mut self, room: usize) -> &[u8] {
        self.pointer(room);
        &self.pattern[Self::start(room)..][..room]
    }

    /// Whether the `room` lent bytes now start with `first` and are otherwise as they were. Then they are made so.
    pub fn hold(&mut self, room: usize, first: &[u8]) -> Result<(), String> {
        let start = Self::start(room);
        let (before, after, end) = (start - BYTE_GUARD, start + first.len(), start + room + BYTE_GUARD);
        let (bytes, pattern) = (&mut self.bytes, &self.pattern);
        if bytes[before..start] == pattern[before..start]
            && bytes[start..after] == *first
            && bytes[after..end] == pattern[after..end]
        {
            bytes[start..after].copy_from_slice(&pattern[start..after]);
            return Ok(());
        }
        let wanted = |i| if (start..after).contains(&i) { first[i - start] } else { pattern[i] };
        let at = (before..end).find(|i| bytes[*i] != wanted(*i)).expect("a byte that differs");
        let why = if (start..after).contains(&at) { "" } else { ", as it was before the call" };
        let (place, now) = (at as i64 - start as i64, bytes[at]);
        bytes.copy_from_slice(pattern);
        Err(format!("byte {place} is {now:02X}, it should be {:02X}{why}", wanted(at)))
    }
}

/// Input bytes with others around them: what stands after the end would make a longer reading plausible.
#[derive(Default)]
pub struct Input {
    bytes: Vec<u8>,
    at: usize,
    len: usize,
}

/// A whole END segment, then the front of a PCS.
const AFTER: [u8; 24] = *b"PG\0\0\0\0\0\0\0\0\x80\0\0PG\0\0\0\0\0\0\0\0\x16";

impl Input {
    pub fn new(content: &[u8]) -> Self {
        let mut input = Input::default();
        input.set(content);
        input
    }

    /// Hands over other bytes.
    pub fn set(&mut self, content: &[u8]) {
        (self.at, self.len) = (content.len() % 8, content.len());
        self.bytes.clear();
        self.bytes.reserve(self.at + self.len + AFTER.len());
        self.bytes.resize(self.at, 0x50);
        self.bytes.extend_from_slice(content);
        self.bytes.extend_from_slice(&AFTER);
    }

    pub fn pointer(&self) -> *const u8 {
        self.bytes[self.at..].as_ptr()
    }

    pub fn len(&self) -> usize {
        self.len
    }

    /// Whether the input is still what was handed over.
    pub fn holds(&self, content: &[u8]) -> Result<(), String> {
        if self.bytes[self.at..self.at + self.len] == *content {
            return Ok(());
        }
        Err("the call changed its input".to_string())
    }
}
