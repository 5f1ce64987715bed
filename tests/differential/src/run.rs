//! A run: its seed, what it has compared, and what it does at a mismatch.

use crate::compare::Tally;
use crate::record::Recorder;
use crate::regressions;
use crate::shrink::{smallest, Form};
use std::{env, fs, process, thread};

pub struct Run {
    pub seed: u64,
    /// How many random streams to make; other random inputs go by it.
    pub streams: usize,
    pub tally: Tally,
    /// Takes the inputs instead: then nothing is compared.
    pub recorder: Option<Recorder>,
}

/// What is compared together: a crate's functions.
pub struct Layer {
    pub name: &'static str,
    pub groups: fn() -> Vec<Group>,
    /// Each function with every answer that a run must come to.
    pub answers: &'static [(&'static str, &'static [u8])],
}

/// Takes the streams of a group that makes streams.
pub struct Sink<'a> {
    pub seed: u64,
    /// How many random streams to make.
    pub streams: usize,
    take: &'a mut dyn FnMut(&[u8]),
}

impl Sink<'_> {
    pub fn stream(&mut self, stream: &[u8]) {
        (self.take)(stream);
    }
}

/// Inputs of one kind.
pub struct Group {
    pub name: &'static str,
    pub inputs: fn(&mut Run),
}

impl Run {
    pub fn new(seed: u64, streams: usize) -> Self {
        Run { seed, streams, tally: Tally::default(), recorder: None }
    }

    /// Compares one input. A mismatch ends the run: it prints the smallest input found that shows one.
    /// `command` is how the program is told to compare that input again.
    pub fn compare(
        &mut self,
        form: Form,
        command: &str,
        input: &[u8],
        check: impl Fn(&[u8], &mut Tally) -> Result<(), String>,
    ) {
        if let Some(recorder) = &mut self.recorder {
            return recorder.offer(command, input);
        }
        let Err(found) = check(input, &mut self.tally) else { return };
        let mut unused = Tally::default();
        let small = smallest(form, input, |smaller| check(smaller, &mut unused).is_err());
        let shown = check(&small, &mut unused).err().unwrap_or_else(|| found.clone());
        println!("\nMISMATCH (seed {})", self.seed);
        println!("  found on {} bytes: {found}", input.len());
        println!("  smallest input found, {} bytes: {shown}", small.len());
        println!("  to compare it again: tests/differential/run {command} {}", shown_input(&small));
        match regressions::keep(command, &small) {
            Ok(name) => println!("  kept in tests/differential/regressions/{name}"),
            Err(why) => println!("  not kept: {why}"),
        }
        process::exit(1);
    }

    /// Compares the inputs of each part side by side, with a tally of its own.
    pub fn compare_parts<T: Sync>(&mut self, parts: &[T], inputs: fn(&mut Run, &T)) {
        let (seed, streams) = (self.seed, self.streams);
        let compare = |part| {
            let mut run = Run::new(seed, streams);
            inputs(&mut run, part);
            run.tally
        };
        thread::scope(|scope| {
            let running: Vec<_> = parts.iter().map(|part| scope.spawn(move || compare(part))).collect();
            for part in running {
                self.tally.add(&part.join().expect("a comparison that ends"));
            }
        });
    }

    /// Compares each stream that is made.
    pub fn compare_streams(
        &mut self,
        streams: usize,
        make: fn(&mut Sink),
        command: &str,
        check: fn(&[u8], &mut Tally) -> Result<(), String>,
    ) {
        let seed = self.seed;
        let mut take = |stream: &[u8]| self.compare(Form::Stream, command, stream, check);
        make(&mut Sink { seed, streams, take: &mut take });
    }

    /// Hands the inputs of a layer to the recorder.
    pub fn record_layer(&mut self, layer: &Layer) {
        for group in (layer.groups)() {
            (group.inputs)(self);
            self.recorder.iter_mut().for_each(Recorder::next_group);
        }
    }

    /// Compares the groups of a layer and prints how many inputs each had.
    pub fn compare_layer(&mut self, layer: &Layer) {
        for group in (layer.groups)() {
            let earlier = self.tally.inputs;
            (group.inputs)(self);
            println!("{}: {}: {}", layer.name, group.name, self.tally.inputs.since(earlier));
        }
    }
}

/// The input in hexadecimal; a long one goes into a file beside the program.
fn shown_input(bytes: &[u8]) -> String {
    let hex: String = bytes.iter().map(|b| format!("{b:02X}")).collect();
    if bytes.len() <= 4_096 {
        return hex;
    }
    let file = env::current_exe().unwrap_or_default().with_file_name("mismatch.hex");
    match fs::write(&file, &hex) {
        Ok(()) => format!("@{}", file.display()),
        Err(_) => hex,
    }
}

/// Bytes from hexadecimal digits; white space between them is allowed.
pub fn unhex(text: &str) -> Option<Vec<u8>> {
    let digits: Vec<u32> =
        text.chars().filter(|c| !c.is_whitespace()).map(|c| c.to_digit(16)).collect::<Option<_>>()?;
    let pairs = digits.chunks_exact(2);
    if !pairs.remainder().is_empty() {
        return None;
    }
    Some(pairs.map(|pair| (16 * pair[0] + pair[1]) as u8).collect())
}
