//! Inputs on which the library, or a wrong copy of it, once differed from the Rust. Each mismatch adds the smallest
//! input found to the folder regressions/, as a file with one line: the command, then the bytes in hexadecimal. A
//! comparison starts with them.

use crate::commands::check_of;
use crate::compare::Tally;
use crate::prng::mix;
use crate::run::unhex;
use std::path::{Path, PathBuf};
use std::{fs, io};

fn folder() -> PathBuf {
    PathBuf::from(concat!(env!("CARGO_MANIFEST_DIR"), "/regressions"))
}

/// Keeps an input; answers the name of its file.
pub fn keep(command: &str, input: &[u8]) -> io::Result<String> {
    let mark = input.iter().fold(0, |state, byte| mix(state ^ *byte as u64 ^ 0x100));
    let name = format!("{}-{:08x}", command.replace(' ', "-"), mark as u32);
    let hex: String = input.iter().map(|byte| format!("{byte:02X}")).collect();
    fs::create_dir_all(folder())?;
    fs::write(folder().join(&name), format!("{command} {hex}\n"))?;
    Ok(name)
}

/// Compares those that are kept; answers how many.
pub fn run(tally: &mut Tally) -> Result<usize, String> {
    let Ok(files) = fs::read_dir(folder()) else { return Ok(0) };
    let mut paths: Vec<PathBuf> = files.filter_map(|file| Some(file.ok()?.path())).collect();
    paths.sort();
    for path in &paths {
        compare(path, tally).map_err(|what| format!("regression {}: {what}", path.display()))?;
    }
    Ok(paths.len())
}

fn compare(path: &Path, tally: &mut Tally) -> Result<(), String> {
    let line = fs::read_to_string(path).map_err(|e| e.to_string())?;
    let (command, hex) = line.trim_end_matches('\n').rsplit_once(' ').ok_or("not a command and bytes")?;
    let check = check_of(command).ok_or(format!("no command {command}"))?;
    check(&unhex(hex).ok_or("not hexadecimal digits")?, tally)
}
