//! Makes a failing input smaller while it still fails.

use crate::bitmap::codes::line_starts;
use crate::generate::starts;

/// How many bytes of smaller inputs are tried at most.
const BUDGET: usize = 500_000_000;

/// What an input is made of, so how it may be cut.
#[derive(Clone, Copy, PartialEq)]
pub enum Form {
    /// Segments, whose heads hold sizes.
    Stream,
    /// Bytes without heads.
    Bytes,
    /// Width and height, 2 bytes each, then bytes without heads.
    Bitmap,
    /// Three bytes, as they are.
    Color,
    /// A byte that stays, then bytes without heads.
    Palettes,
}

impl Form {
    /// How many bytes at the front are never left out.
    fn fixed(self) -> usize {
        match self {
            Form::Stream | Form::Bytes => 0,
            Form::Bitmap => 4,
            Form::Color => 3,
            Form::Palettes => 1,
        }
    }
}

/// The smallest failing input found: shorter, or as long with more zeros.
pub fn smallest(form: Form, input: &[u8], fails: impl FnMut(&[u8]) -> bool) -> Vec<u8> {
    let mut search = Search { best: input.to_vec(), left: BUDGET, fails };
    loop {
        let before = search.best.clone();
        if form == Form::Stream {
            search.cut_segments();
            search.cut_bodies();
        }
        if form == Form::Bitmap {
            search.cut_lines();
            search.lower_dimensions();
        }
        search.cut_bytes(form.fixed());
        search.clear_bytes(form.fixed());
        if search.best == before {
            return before;
        }
    }
}

struct Search<F> {
    best: Vec<u8>,
    /// What is left of the budget.
    left: usize,
    fails: F,
}

impl<F: FnMut(&[u8]) -> bool> Search<F> {
    /// Takes a smaller input if it fails too.
    fn attempt(&mut self, smaller: Vec<u8>) -> bool {
        self.left = self.left.saturating_sub(smaller.len() + 100);
        let better = (self.fails)(&smaller);
        if better {
            self.best = smaller;
        }
        better
    }

    /// Leaves out a range of bytes, if the rest still fails.
    fn attempt_without(&mut self, from: usize, to: usize) -> bool {
        let smaller = [&self.best[..from], &self.best[to..]].concat();
        self.attempt(smaller)
    }

    /// Leaves out runs of whole segments.
    fn cut_segments(&mut self) {
        for run in parts(starts(&self.best).len()) {
            let mut first = 0;
            while self.left > 0 {
                let starts = starts(&self.best);
                let Some(&from) = starts.get(first) else { break };
                let to = starts.get(first + run).copied().unwrap_or(self.best.len());
                if !self.attempt_without(from, to) {
                    first += run;
                }
            }
        }
    }

    /// Leaves out parts of bodies, and lowers the size in the head.
    fn cut_bodies(&mut self) {
        let mut segment = 0;
        while let Some(&at) = starts(&self.best).get(segment) {
            for part in parts(self.announced(at)) {
                self.cut_body(at, part);
            }
            segment += 1;
        }
    }

    fn cut_body(&mut self, at: usize, part: usize) {
        let mut from = at + 13;
        while self.left > 0 {
            let end = at + 13 + self.announced(at);
            if from + part > end.min(self.best.len()) {
                return;
            }
            let mut smaller = self.best.clone();
            smaller.drain(from..from + part);
            let size = (end - part - at - 13) as u16;
            smaller[at + 11..at + 13].copy_from_slice(&size.to_be_bytes());
            if !self.attempt(smaller) {
                from += part;
            }
        }
    }

    /// The body size in the head at a place.
    fn announced(&self, at: usize) -> usize {
        u16::from_be_bytes([self.best[at + 11], self.best[at + 12]]) as usize
    }

    /// Leaves out runs of whole lines of a bitmap, and lowers the height by their number.
    fn cut_lines(&mut self) {
        for run in parts(line_starts(&self.best[4..]).len()) {
            let mut first = 0;
            while self.left > 0 {
                let starts = line_starts(&self.best[4..]);
                let Some(&from) = starts.get(first) else { break };
                let to = starts.get(first + run).copied().unwrap_or(self.best.len() - 4);
                let height = u16::from_be_bytes([self.best[2], self.best[3]]);
                let lower = height.saturating_sub(run.min(starts.len() - first) as u16).to_be_bytes();
                let smaller = [&self.best[..2], &lower, &self.best[4..4 + from], &self.best[4 + to..]];
                if !self.attempt(smaller.concat()) {
                    first += run;
                }
            }
        }
    }

    /// Lowers the width and the height.
    fn lower_dimensions(&mut self) {
        for at in [0, 2] {
            let dimension = u16::from_be_bytes([self.best[at], self.best[at + 1]]);
            for part in parts(dimension as usize) {
                loop {
                    let now = u16::from_be_bytes([self.best[at], self.best[at + 1]]);
                    let Some(lower) = now.checked_sub(part as u16) else { break };
                    let mut smaller = self.best.clone();
                    smaller[at..at + 2].copy_from_slice(&lower.to_be_bytes());
                    if self.left == 0 || !self.attempt(smaller) {
                        break;
                    }
                }
            }
        }
    }

    /// Leaves out runs of bytes, after those that are fixed.
    fn cut_bytes(&mut self, fixed: usize) {
        for run in parts(self.best.len() - fixed) {
            let mut from = fixed;
            while from + run <= self.best.len() && self.left > 0 {
                if !self.attempt_without(from, from + run) {
                    from += run;
                }
            }
        }
    }

    /// Sets bytes to 0, after those that are fixed.
    fn clear_bytes(&mut self, fixed: usize) {
        for at in fixed..self.best.len() {
            if self.best[at] != 0 && self.left > 0 {
                let mut smaller = self.best.clone();
                smaller[at] = 0;
                self.attempt(smaller);
            }
        }
    }
}

/// Parts to try leaving out of n: all, then halves, down to 1.
fn parts(n: usize) -> impl Iterator<Item = usize> {
    std::iter::successors(Some(n), |part| Some(part / 2)).take_while(|part| *part > 0)
}
