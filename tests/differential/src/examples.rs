//! Worked examples, with their answers written out: both sides must give them. Each layer has its own.

use crate::compare::Tally;
use crate::run::unhex;
use crate::{bitmap, color, paint, segments, sets, writer};

pub type Outcome = Result<(), String>;

/// Its number, what it shows, and the example.
pub type Example = (u8, &'static str, fn(&mut Tally) -> Outcome);

/// Runs the examples. The first that does not hold is the answer.
pub fn run(tally: &mut Tally) -> Outcome {
    let layers: [&[Example]; 6] = [
        &segments::EXAMPLES,
        &writer::EXAMPLES,
        &sets::EXAMPLES,
        &bitmap::EXAMPLES,
        &color::EXAMPLES,
        &paint::EXAMPLES,
    ];
    for examples in layers {
        let before = tally.calls;
        for (number, what, example) in examples {
            example(tally).map_err(|e| format!("example {number}, {what}: {e}"))?;
        }
        let (first, last) = (examples[0].0, examples[examples.len() - 1].0);
        println!("examples: {first} to {last} hold ({} calls)", tally.calls - before);
    }
    Ok(())
}

/// Bytes written out in hexadecimal.
pub fn bytes(text: &str) -> Vec<u8> {
    unhex(text).expect("hexadecimal digits")
}

/// Whether the Rust gives the wanted answer.
pub fn rust_gives<T: PartialEq + std::fmt::Debug>(given: T, wanted: &T) -> Outcome {
    if given == *wanted {
        return Ok(());
    }
    Err(format!("the published Rust gives {given:?}, the example says {wanted:?}"))
}
