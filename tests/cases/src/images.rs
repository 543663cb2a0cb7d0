//! Images, and cases of loads and writes.
//!
//! The images are made here, by a sum with end-around carry, and not by the interpreter.

use crate::asks::shown;
use crate::memory;
use crate::script::Script;
use crate::sheet::{Case, Row, Word, hex, on_one_line, rows};

/// The bytes of a block, and of the data in it.
const BLOCK: usize = 512;
const DATA: usize = 510;

/// The first two bytes of an image.
const BEGIN: [u8; 2] = [1, 0];

/// What an image is lengthened by.
const BEHIND: u8 = 0xAA;

/// The image of a code.
pub fn image(code: &[u8]) -> Vec<u8> {
    let data = [&BEGIN[..], &(code.len() as u16).to_be_bytes(), code].concat();
    let mut image = Vec::new();
    for part in data.chunks(DATA) {
        let block = image.len();
        image.extend_from_slice(part);
        image.resize(block + BLOCK, 0);
        seal(&mut image[block..]);
    }
    image
}

/// Makes the check of a block right.
fn seal(block: &mut [u8]) {
    let words = block[..DATA].chunks(2).map(|pair| u32::from(pair[0]) << 8 | u32::from(pair[1]));
    let sum = words.fold(0, |sum, word| if sum + word > 0xFFFF { sum + word - 0xFFFF } else { sum + word });
    block[DATA..BLOCK].copy_from_slice(&(0xFFFF - sum as u16).to_be_bytes());
}

/// Puts a sheet's cases into the script: how many they are.
pub fn put(script: &mut Script, sheet: &str) -> Result<usize, String> {
    let mut base = "";
    let mut count = 0;
    for row in rows(sheet)? {
        match row {
            Row::Remark(line) => script.expect(line, line)?,
            Row::Base(words) => {
                base = words;
                script.begin(words)?;
                shown(script)?;
            }
            Row::Case(case) => {
                put_case(script, base, case).map_err(|what| format!("{}: {what}", case.name))?;
                count += 1;
            }
        }
    }
    Ok(count)
}

/// A case: the request, and what the memory is then.
fn put_case(script: &mut Script, base: &str, case: Case<'_>) -> Result<(), String> {
    script.ask(&format!("# {} | {}", case.name, on_one_line(case.words)));
    let (code, image) = built(case.words)?;
    let number = case.number;
    match case.request {
        "write" => {
            let answer = if number == 0 { format!("write 0\n{}", hex(&image)) } else { format!("write {number}") };
            script.expect(format!("write {}", hex(&code)).trim_end(), &answer)
        }
        "load" => {
            script.expect(format!("load {}", hex(&image)).trim_end(), &format!("load {number}"))?;
            if number == 0 {
                return put_loaded(script, base, case);
            }
            let mut memory = memory::start(&[]);
            memory::build(&mut memory, base)?;
            script.expect_memory(&memory)?;
            shown(script)
        }
        request => Err(format!("not understood: {request}")),
    }
}

/// What a done load leaves: the code where it stands, and all in words. Then the memory of the cases again.
fn put_loaded(script: &mut Script, base: &str, case: Case<'_>) -> Result<(), String> {
    let memory = memory::start(&built(case.changes)?.0);
    script.expect_memory(&memory)?;
    let to = (memory::code(&memory).len() + 4).min(memory::CODE_END);
    script.expect(&format!("peek 0 {to}"), &hex(&memory[..to]))?;
    shown(script)?;
    script.begin(base)?;
    Ok(())
}

/// The code that words say, and its image, with the changes that they make to it.
fn built(words: &str) -> Result<(Vec<u8>, Vec<u8>), String> {
    let (mut code, mut out) = (Vec::new(), Vec::new());
    for word in Word::all(words) {
        match word.name {
            "code" => (code, out) = (word.bytes()?, image(&word.bytes()?)),
            "filled" => {
                let [length] = word.numbers()?;
                code = (0..length as usize).map(|i| (i % 251 + 1) as u8).collect();
                out = image(&code);
            }
            "zeros" => out = vec![0; word.numbers::<1>()?[0] as usize],
            "code-byte" => {
                let [at, new] = word.numbers()?;
                code[at as usize] = new as u8;
            }
            "byte" => {
                let [at, new] = word.numbers()?;
                out[at as usize] = new as u8;
            }
            "right" => seal(&mut out[BLOCK * word.numbers::<1>()?[0] as usize..]),
            "length" => out.resize(word.numbers::<1>()?[0] as usize, BEHIND),
            _ => return Err(word.fault()),
        }
    }
    Ok((code, out))
}
