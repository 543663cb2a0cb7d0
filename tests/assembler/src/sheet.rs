//! A method as a Markdown file: prose, and between it tables with a row for each instruction.
//!
//! A table of instructions is known by its first row, [`HEADER`]. The instructions of all such tables, in their order, are the code.

use crate::{Fault, Row, assemble};

/// The first row of a table of instructions.
pub const HEADER: &str = "| place | bytes | label | instruction | what it does |";

/// The code of a sheet, if its places and bytes are those of its instructions.
pub fn code(text: &str) -> Result<Vec<u8>, Fault> {
    let wrong = (1..).zip(text.lines()).zip(filled(text)?).find(|((_, is), should)| is != should);
    match wrong {
        Some(((line, _), should)) => Err(Fault { line, what: format!("this should be\n{should}") }),
        None => Ok(assemble(&rows(text)?)?.concat()),
    }
}

/// The lines of a sheet, with the places and bytes of its instructions filled in.
pub fn filled(text: &str) -> Result<Vec<String>, Fault> {
    let found = rows(text)?;
    let mut lines: Vec<String> = text.lines().map(str::to_string).collect();
    let mut place = 0;
    for (row, bytes) in found.iter().zip(assemble(&found)?) {
        if let Some(line) = lines.get_mut(row.line - 1) {
            let what = cells(line).map(|[.., what]| what.to_string()).unwrap_or_default();
            let hex: Vec<String> = bytes.iter().map(|byte| format!("{byte:02X}")).collect();
            *line = format!("| {place} | {} | {} | `{}` | {what} |", hex.join(" "), row.label, row.instruction);
        }
        place += bytes.len();
    }
    Ok(lines)
}

/// The rows of the tables of instructions.
fn rows(text: &str) -> Result<Vec<Row<'_>>, Fault> {
    let mut rows = Vec::new();
    let mut inside = false;
    for (line, words) in (1..).zip(text.lines()) {
        inside = words == HEADER || inside && words.starts_with('|');
        if !inside || words == HEADER || words.starts_with("|---") {
            continue;
        }
        let [_, _, label, instruction, _] = cells(words).ok_or_else(|| Fault { line, what: "not five cells".to_string() })?;
        rows.push(Row { line, label, instruction: instruction.trim_matches('`') });
    }
    Ok(rows)
}

/// The five cells of a row.
fn cells(line: &str) -> Option<[&str; 5]> {
    let inner = line.strip_prefix('|')?.strip_suffix('|')?;
    let cells: Vec<&str> = inner.split('|').map(str::trim).collect();
    cells.try_into().ok()
}
