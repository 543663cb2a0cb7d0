//! The script, and what the interpreter's console answers to it.

use std::ops::Range;

use interpreter::console::Console;

use crate::images;
use crate::memory;
use crate::sheet::{hex, on_one_line};

/// How many bytes that stay a poke writes along, rather than leave them to a further poke.
const GAP: usize = 8;

/// A script with its answers so far, and the console that gave them.
#[derive(Default)]
pub struct Script {
    console: Console,
    /// The lines, each ended.
    pub lines: Vec<u8>,
    /// The answers to them.
    pub answers: Vec<u8>,
}

impl Script {
    /// Puts a line into the script: its answer.
    pub fn ask(&mut self, line: &str) -> String {
        assert!(!line.contains('\n'), "not one line: {line}");
        let answer = self.console.answer(line.as_bytes());
        self.lines.extend_from_slice(line.as_bytes());
        self.lines.push(b'\n');
        self.answers.extend_from_slice(&answer);
        String::from_utf8_lossy(&answer).trim_end_matches('\n').to_string()
    }

    /// The same, where just one answer is right.
    pub fn expect(&mut self, line: &str, right: &str) -> Result<(), String> {
        let answer = self.ask(line);
        if answer == right { Ok(()) } else { Err(format!("it came {answer} and not {right}")) }
    }

    /// That the console's memory is this one, byte for byte.
    pub fn expect_memory(&self, right: &[u8]) -> Result<(), String> {
        match differences(self.console.memory(), right).first() {
            None => Ok(()),
            Some(range) => Err(format!("another memory, at byte {}", range.start)),
        }
    }

    /// The words of a sheet become a memory, by a load and pokes.
    pub fn begin(&mut self, words: &str) -> Result<Vec<u8>, String> {
        self.ask(&format!("# = {}", on_one_line(words)));
        let mut wanted = memory::start(&[]);
        memory::build(&mut wanted, words)?;
        let code = match memory::code(&wanted) {
            [] => &[0x03],
            code => code,
        };
        self.expect(&format!("load {}", hex(&images::image(code))), "load 0")?;
        self.expect_memory(&memory::start(code))?;
        self.poke_to(&wanted)?;
        Ok(wanted)
    }

    /// Pokes what is not as it should be: which bytes that were.
    pub fn poke_to(&mut self, wanted: &[u8]) -> Result<Vec<Range<usize>>, String> {
        let ranges = differences(self.console.memory(), wanted);
        for range in &ranges {
            self.expect(&format!("poke {} {}", range.start, hex(&wanted[range.clone()])), "poke: ok")?;
        }
        self.expect_memory(wanted)?;
        Ok(ranges)
    }
}

/// Where two memories differ.
fn differences(now: &[u8], wanted: &[u8]) -> Vec<Range<usize>> {
    let mut ranges: Vec<Range<usize>> = Vec::new();
    for at in (0..now.len().max(wanted.len())).filter(|&at| now.get(at) != wanted.get(at)) {
        match ranges.last_mut() {
            Some(last) if at <= last.end + GAP => last.end = at + 1,
            _ => ranges.push(at..at + 1),
        }
    }
    ranges
}
