//! An assembler for document 01's instructions.
//!
//! [`code`] takes a method in words, one instruction a line, and answers its bytes. [`sheet`] reads the same words from the tables of
//! a Markdown file, beside the places and bytes that its readers see, and holds the one to the other.

mod instruction;
pub mod sheet;

use std::collections::HashMap;
use std::fmt;

use instruction::encode;
use interpreter::image::{self, BLOCK, BLOCKS};

/// Why a method could not be assembled.
#[derive(Clone, Debug, PartialEq, Eq)]
pub struct Fault {
    /// The line, from 1.
    pub line: usize,
    /// What is wrong with it.
    pub what: String,
}

impl fmt::Display for Fault {
    fn fmt(&self, f: &mut fmt::Formatter<'_>) -> fmt::Result {
        write!(f, "line {}: {}", self.line, self.what)
    }
}

/// An instruction in words, and the label of its place.
#[derive(Clone, Copy, Debug, PartialEq, Eq)]
pub struct Row<'text> {
    /// The line that it stands on, from 1.
    pub line: usize,
    /// The label, empty for none.
    pub label: &'text str,
    /// The instruction.
    pub instruction: &'text str,
}

/// The code of a method: each line is an instruction, with `LABEL:` in front where something goes there.
pub fn code(text: &str) -> Result<Vec<u8>, Fault> {
    let rows: Vec<Row<'_>> = (1..).zip(text.lines()).map(|(line, words)| row(line, words)).collect();
    Ok(assemble(&rows)?.concat())
}

fn row(line: usize, words: &str) -> Row<'_> {
    let (label, instruction) = words.split_once(':').unwrap_or(("", words));
    Row { line, label: label.trim(), instruction: instruction.trim() }
}

/// The bytes of each row. A place is named by its label or its number.
pub fn assemble(rows: &[Row<'_>]) -> Result<Vec<Vec<u8>>, Fault> {
    let mut places = HashMap::new();
    let mut place = 0usize;
    for row in rows {
        let fault = |what| Fault { line: row.line, what };
        let number = u16::try_from(place).map_err(|_| fault("the code is too long".to_string()))?;
        if !row.label.is_empty() && places.insert(row.label, number).is_some() {
            return Err(fault(format!("{} stands twice", row.label)));
        }
        place += encode(row.instruction, &|_| Some(0)).map_err(fault)?.len();
    }
    let find = |word: &str| places.get(word).copied().or_else(|| word.parse().ok());
    rows.iter().map(|row| encode(row.instruction, &find).map_err(|what| Fault { line: row.line, what })).collect()
}

/// The image of a code, if it has 1 to 8,156 bytes.
pub fn image(code: &[u8]) -> Option<Vec<u8>> {
    let mut output = vec![0; BLOCKS * BLOCK];
    let length = image::write(code, &mut output).ok()?;
    output.truncate(length);
    Some(output)
}
