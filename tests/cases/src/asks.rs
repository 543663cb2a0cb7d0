//! Cases of asks: a memory, a request, its number and the memory after.

use crate::memory::build;
use crate::script::Script;
use crate::sheet::{Case, Row, Word, hex, on_one_line, rows};

/// Puts a sheet's cases into the script: how many they are.
pub fn put(script: &mut Script, sheet: &str) -> Result<usize, String> {
    let mut base = Vec::new();
    let mut count = 0;
    for row in rows(sheet)? {
        match row {
            Row::Remark(line) => script.expect(line, line)?,
            Row::Base(words) => {
                base = script.begin(words)?;
                shown(script)?;
            }
            Row::Case(case) => {
                put_case(script, &base, case).map_err(|what| format!("{}: {what}", case.name))?;
                count += 1;
            }
        }
    }
    Ok(count)
}

/// A case: its memory by pokes, the request, what the memory is then, and back.
fn put_case(script: &mut Script, base: &[u8], case: Case<'_>) -> Result<(), String> {
    script.ask(format!("# {} | {}", case.name, on_one_line(case.words)).trim_end_matches([' ', '|']));
    let mut memory = base.to_vec();
    build(&mut memory, case.words)?;
    let changed = script.poke_to(&memory)?;
    build(&mut memory, case.changes)?;
    let (line, answer) = asked(case)?;
    script.expect(&line, &answer)?;
    script.expect_memory(&memory)?;
    let unsound = script.ask("dump") == "dump: refused 1";
    if unsound != (case.number == 1) {
        return Err(format!("whether the memory is sound, and {}", case.number));
    }
    if unsound {
        for range in changed {
            script.expect(&format!("peek {} {}", range.start, range.len()), &hex(&memory[range]))?;
        }
    }
    script.poke_to(base)?;
    if unsound { shown(script) } else { Ok(()) }
}

/// A dump of a memory that must be sound.
pub fn shown(script: &mut Script) -> Result<(), String> {
    if script.ask("dump").starts_with("dump: refused") { Err("a memory that is not sound".to_string()) } else { Ok(()) }
}

/// The line of a request, and the answer that it must get.
fn asked(case: Case<'_>) -> Result<(String, String), String> {
    let word = Word::all(case.request).next().ok_or("no request")?;
    let number = case.number;
    match word.name {
        "R" | "E" => {
            let line = format!("{} {}", word.name, word.numbers::<1>()?[0]);
            let answer = format!("{line}: {number}");
            Ok((line, answer))
        }
        "F" if number == 0 => {
            let [count, lowest] = word.numbers()?;
            Ok(("free".to_string(), format!("free: {count} {lowest}")))
        }
        "F" => Ok(("free".to_string(), format!("free: refused {number}"))),
        _ => Err(word.fault()),
    }
}
