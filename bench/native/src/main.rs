//! `native image N` writes the image of a chain of N processes. Of an image on standard input, `native run BUDGET` makes a run from
//! position 0 and prints verdict, steps and next position; `native asks STEPS` prints the asks of its first steps as console commands.

use std::io::{self, Read, Write};
use std::process::ExitCode;

use interpreter::image;
use native::chain::chain;
use native::machine::Machine;

fn main() -> ExitCode {
    let arguments: Vec<String> = std::env::args().skip(1).collect();
    let number = arguments.get(1).and_then(|word| word.parse().ok());
    let output = match (arguments.first().map(String::as_str), number) {
        (Some("image"), Some(processes @ 2..=32)) => assembler::image(&chain(processes as usize)),
        (Some("run"), Some(budget)) => loaded().map(|mut machine| {
            let outcome = machine.run(budget, 0, |_| {});
            format!("{} {} {}\n", outcome.verdict, outcome.steps, outcome.next).into_bytes()
        }),
        (Some("asks"), Some(steps)) => loaded().map(|mut machine| {
            let mut lines = String::new();
            machine.run(steps, 0, |position| match position.checked_sub(32) {
                None => lines += &format!("R {position}\n"),
                Some(end) => lines += &format!("E {end}\n"),
            });
            lines.into_bytes()
        }),
        _ => None,
    };
    match output.map(|bytes| io::stdout().write_all(&bytes)) {
        Some(Ok(())) => ExitCode::SUCCESS,
        _ => {
            eprintln!("usage: native image N (2 to 32), native run BUDGET < IMAGE, native asks STEPS < IMAGE");
            ExitCode::FAILURE
        }
    }
}

/// The machine with the image on standard input, if that is right.
fn loaded() -> Option<Machine> {
    let mut bytes = Vec::new();
    io::stdin().read_to_end(&mut bytes).ok()?;
    image::read(&bytes).ok().map(Machine::new)
}
