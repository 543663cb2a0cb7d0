//! `interpreter trace < IMAGE` prints a run step by step; `interpreter console < SCRIPT` answers commands.

#![warn(clippy::indexing_slicing, clippy::unwrap_used, clippy::expect_used, clippy::panic)]

use std::env;
use std::io::{self, Read, Write};
use std::process::ExitCode;

use interpreter::image::{BLOCK, BLOCKS};
use interpreter::{console, printing};

fn main() -> ExitCode {
    let arguments: Vec<String> = env::args_os().skip(1).map(|word| word.to_string_lossy().into_owned()).collect();
    let done = match arguments.iter().map(String::as_str).collect::<Vec<_>>()[..] {
        ["trace"] => trace(),
        ["console"] => console::serve(io::stdin().lock(), io::stdout().lock()),
        _ => {
            complain("usage: interpreter trace < IMAGE, or interpreter console < SCRIPT");
            return ExitCode::from(2);
        }
    };
    match done {
        Ok(()) => ExitCode::SUCCESS,
        Err(error) => {
            complain(&format!("interpreter: {error}"));
            ExitCode::FAILURE
        }
    }
}

/// Says something on standard error, if anybody listens.
fn complain(words: &str) {
    let _ = writeln!(io::stderr(), "{words}");
}

/// Reads an image, and one byte more than the longest has, so that a longer one is seen; prints its run.
fn trace() -> io::Result<()> {
    let mut image = Vec::new();
    io::stdin().lock().take((BLOCKS * BLOCK + 1) as u64).read_to_end(&mut image)?;
    printing::trace(&image, &mut io::stdout().lock())
}
