//! What the printing program prints: each step of a run, and how it came out.

use std::fmt;
use std::io::{self, Write};

use crate::ends::Item;
use crate::run::{Run, Step};
use crate::state::State;

/// The budget of the run that the printing program makes, from position 0.
pub const BUDGET: u16 = 60_000;

/// The asked record or end, and the instruction's name, or value or handle with its number, or split or close.
impl fmt::Display for Step {
    fn fmt(&self, f: &mut fmt::Formatter<'_>) -> fmt::Result {
        match *self {
            Step::Record(r, name) => write!(f, "R{} {name}", r.number()),
            Step::End(e, item) => write!(f, "E{} {item}", e.number()),
        }
    }
}

impl fmt::Display for Item {
    fn fmt(&self, f: &mut fmt::Formatter<'_>) -> fmt::Result {
        match *self {
            Item::Value(value) => write!(f, "value {value}"),
            Item::Handle(n) => write!(f, "handle {n}"),
            Item::Split(..) => f.write_str("split"),
            Item::Close => f.write_str("close"),
            Item::Wait(_) => f.write_str("wait"),
        }
    }
}

/// Verdict, steps, next position.
impl fmt::Display for Run {
    fn fmt(&self, f: &mut fmt::Formatter<'_>) -> fmt::Result {
        write!(f, "{} {} {}", self.verdict, self.steps, self.next)
    }
}

/// Loads an image, runs it from position 0 with budget 60,000 and prints each step, from 1, and the outcome. A refused image
/// prints only "refused" and the number.
pub fn trace(image: &[u8], output: &mut impl Write) -> io::Result<()> {
    let mut lines = String::new();
    let mut number = 0;
    let outcome = State::load(image).and_then(|mut state| {
        state.run_watched(BUDGET, 0, |step| {
            number += 1;
            lines += &format!("{number} {step}\n");
        })
    });
    lines += &match outcome {
        Ok(run) => format!("{run}\n"),
        Err(refusal) => format!("refused {refusal}\n"),
    };
    output.write_all(lines.as_bytes())
}
