//! Compares the library with the published Rust on many inputs.

mod bench;
mod bitmap;
mod captions;
mod color;
mod commands;
mod compare;
mod examples;
mod generate;
mod lent;
mod library;
mod numbers;
mod paint;
mod prng;
mod record;
mod regressions;
mod run;
mod samples;
mod segments;
mod sets;
mod sheet;
mod shrink;
mod vast;
mod writer;

use commands::check_of;
use compare::Tally;
use record::Recorder;
use run::{unhex, Layer, Run};
use std::fs;
use std::num::NonZero;
use std::path::Path;
use std::process::ExitCode;
use std::sync::atomic::{AtomicUsize, Ordering};
use std::thread;
use std::time::Instant;

const USAGE: &str = "\
differential                                    the examples, then the comparison
differential examples                           the examples alone
differential compare [--seed N] [--streams N] [--scale N] [--layer NAME]
                                                the comparison alone, with N random streams, or N times as many as
                                                usual; NAME is segments, writer, bitmap, color, sets or paint
differential bench [--seed N]                   times of both sides
differential record FOLDER                      answers of the Rust, into the files stdin and stdout of pgs_replay
differential stream HEX                         one stream
differential sets HEX                           one stream: its sets and their objects
differential paint HEX                          one stream: the planes of its sets
differential browse HEX                         one stream: its sets, and the objects of each from its bytes alone
differential writes HEX                         one stream: its segments written again, one by one and as a list
differential fields HEX                         fields to write: the writer (14, 15, 16, 17, 80, or 00 for unknown
                                                kinds), PTS, DTS, the byte of an unknown kind, the cells of the
                                                record, then the list or the data
differential body KIND HEX                      one body; KIND is 14, 15, 16 or 17
differential bitmap HEX                         one bitmap: width and height, 2 bytes each, then the data
differential color HEX                          one colour: Y, Cb, Cr
differential palettes HEX                       palettes: the named id, then for each its id, its number of
                                                entries in 2 bytes, and the entries
HEX is hexadecimal digits, or @ and the name of a file that has them";

/// The layers in the order in which they are recorded.
const LAYERS: [Layer; 6] =
    [segments::LAYER, writer::LAYER, bitmap::LAYER, color::LAYER, sets::LAYER, paint::LAYER];

fn main() -> ExitCode {
    let words: Vec<String> = std::env::args().skip(1).collect();
    let words: Vec<&str> = words.iter().map(String::as_str).collect();
    let outcome = match words[..] {
        [] => run_examples().and_then(|()| run_comparison(&Options::default())),
        ["examples"] => run_examples(),
        ["compare", ref rest @ ..] => options(rest).and_then(|options| run_comparison(&options)),
        ["bench", ref rest @ ..] => options(rest).map(|options| bench::run(options.seed)),
        ["record", folder] => run_recording(Path::new(folder)),
        ["body", kind, ref hex @ ..] => one(&format!("body {kind}"), hex),
        [command, ref hex @ ..] => one(command, hex),
    };
    match outcome {
        Ok(()) => ExitCode::SUCCESS,
        Err(what) => {
            println!("{what}");
            ExitCode::FAILURE
        }
    }
}

fn run_examples() -> Result<(), String> {
    numbers::complete(published::PGS_TEXT)?;
    examples::run(&mut Tally::default())?;
    samples::run(&mut Tally::default())?;
    sheet::run(&mut Tally::default())
}

struct Options {
    seed: u64,
    /// The number of random streams.
    streams: usize,
    /// The layer to compare; none means all.
    layer: Option<String>,
}

impl Default for Options {
    fn default() -> Self {
        Options { seed: 1, streams: 500_000, layer: None }
    }
}

fn options(words: &[&str]) -> Result<Options, String> {
    let mut options = Options::default();
    for pair in words.chunks(2) {
        match pair {
            ["--seed", n] => options.seed = n.parse().map_err(|_| USAGE)?,
            ["--scale", n] => {
                let times: usize = n.parse().map_err(|_| USAGE)?;
                options.streams = Options::default().streams.checked_mul(times).ok_or(USAGE)?;
            }
            ["--streams", n] => options.streams = n.parse().map_err(|_| USAGE)?,
            ["--layer", name] if LAYERS.iter().any(|layer| layer.name == *name) => {
                options.layer = Some(name.to_string());
            }
            _ => return Err(USAGE.to_string()),
        }
    }
    Ok(options)
}

/// Compares one input from the command line.
fn one(command: &str, hex: &[&str]) -> Result<(), String> {
    let check = check_of(command).ok_or(USAGE)?;
    let text = match hex {
        [name] if name.starts_with('@') => {
            fs::read_to_string(&name[1..]).map_err(|e| format!("{name}: {e}"))?
        }
        _ => hex.concat(),
    };
    let bytes = unhex(&text).ok_or(USAGE)?;
    if command == "stream" {
        segments::show(&bytes);
    }
    let mut tally = Tally::default();
    check(&bytes, &mut tally)?;
    print!("{}", tally.answers());
    println!("the same in {} calls", tally.calls);
    Ok(())
}

/// The number of random streams that some are recorded of.
const RECORDED_STREAMS: usize = 20_000;

fn run_recording(folder: &Path) -> Result<(), String> {
    let seed = Options::default().seed;
    let mut recorder = Run::new(seed, RECORDED_STREAMS);
    recorder.recorder = Some(Recorder::new(seed));
    LAYERS.iter().for_each(|layer| recorder.record_layer(layer));
    let recorder = recorder.recorder.expect("the recorder of this run");
    let calls = recorder.write(folder).map_err(|e| format!("{}: {e}", folder.display()))?;
    println!("{calls} answers are in {}", folder.display());
    Ok(())
}

fn run_comparison(options: &Options) -> Result<(), String> {
    let began = Instant::now();
    let mut tally = Tally::default();
    let regressions = regressions::run(&mut tally)?;
    println!("regressions: {regressions}");
    let chosen = |layer: &&Layer| options.layer.as_ref().is_none_or(|name| name == layer.name);
    let mut layers: Vec<&Layer> = LAYERS.iter().filter(chosen).collect();
    // the longest comparison begins first
    layers.sort_by_key(|layer| layer.name != bitmap::LAYER.name);
    compare_layers(&layers, options).iter().for_each(|layer| tally.add(layer));
    print!("{}", tally.answers());
    println!(
        "the same on {}: {} calls, seed {}, {} s",
        tally.inputs,
        tally.calls,
        options.seed,
        began.elapsed().as_secs()
    );
    let mut answers = layers.iter().flat_map(|layer| layer.answers);
    answers.try_for_each(|(function, numbers)| tally.met(function, numbers))
}

/// Compares the layers, as many at a time as there are processors: inputs go by the seed and the layer alone.
fn compare_layers(layers: &[&Layer], options: &Options) -> Vec<Tally> {
    let next = AtomicUsize::new(0);
    let worker = || {
        let mut run = Run::new(options.seed, options.streams);
        while let Some(layer) = layers.get(next.fetch_add(1, Ordering::Relaxed)) {
            run.compare_layer(layer);
        }
        run.tally
    };
    let workers = thread::available_parallelism().map_or(1, NonZero::get).min(layers.len());
    thread::scope(|scope| {
        let running: Vec<_> = (0..workers).map(|_| scope.spawn(worker)).collect();
        running.into_iter().map(|worker| worker.join().expect("a comparison that ends")).collect()
    })
}
