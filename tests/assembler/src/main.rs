//! `assembler image < SHEET` writes the image of a method; `assembler fill < SHEET` writes the sheet with places and bytes filled in.

use std::io::{self, Read, Write};
use std::process::ExitCode;

use assembler::{image, sheet};

fn main() -> ExitCode {
    let arguments: Vec<String> = std::env::args().skip(1).collect();
    let written = match arguments.iter().map(String::as_str).collect::<Vec<_>>()[..] {
        ["image"] => read().and_then(|text| assembled(&text)),
        ["fill"] => read().and_then(|text| filled(&text)),
        _ => Err("usage: assembler image < SHEET, or assembler fill < SHEET".to_string()),
    };
    match written.and_then(|bytes| io::stdout().write_all(&bytes).map_err(|error| error.to_string())) {
        Ok(()) => ExitCode::SUCCESS,
        Err(what) => {
            eprintln!("{what}");
            ExitCode::FAILURE
        }
    }
}

fn read() -> Result<String, String> {
    let mut text = String::new();
    io::stdin().read_to_string(&mut text).map_err(|error| error.to_string())?;
    Ok(text)
}

fn assembled(text: &str) -> Result<Vec<u8>, String> {
    let code = sheet::code(text).map_err(|fault| fault.to_string())?;
    image(&code).ok_or_else(|| format!("an image has 1 to 8,156 bytes of code, not {}", code.len()))
}

fn filled(text: &str) -> Result<Vec<u8>, String> {
    let lines = sheet::filled(text).map_err(|fault| fault.to_string())?;
    Ok(lines.iter().flat_map(|line| [line, "\n"]).flat_map(str::bytes).collect())
}
