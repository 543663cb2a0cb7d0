//! `cases FOLDER` makes the console's script from the sheets of this package, asks the interpreter every line, holds its answers to
//! what the sheets say, and writes the files stdin and stdout to the folder.

mod asks;
mod grammar;
mod images;
mod memory;
mod script;
mod sheet;

use std::fs;
use std::path::Path;
use std::process::ExitCode;

use script::Script;

fn main() -> ExitCode {
    let arguments: Vec<String> = std::env::args().skip(1).collect();
    let [folder] = &arguments[..] else {
        eprintln!("usage: cases FOLDER");
        return ExitCode::from(2);
    };
    match made().and_then(|script| written(&script, Path::new(folder)).map_err(|error| error.to_string())) {
        Ok(()) => ExitCode::SUCCESS,
        Err(what) => {
            eprintln!("{what}");
            ExitCode::FAILURE
        }
    }
}

/// The script of all sheets, in their order.
fn made() -> Result<Script, String> {
    let mut script = Script::default();
    let lines = grammar::put(&mut script, include_str!("../grammar.sheet"))?;
    println!("grammar: {lines} lines");
    let asks = asks::put(&mut script, include_str!("../machine.sheet"))?;
    println!("machine: {asks} cases");
    let decodes = asks::put(&mut script, include_str!("../decoder.sheet"))?;
    println!("decoder: {decodes} cases");
    let images = images::put(&mut script, include_str!("../images.sheet"))?;
    println!("images: {images} cases");
    Ok(script)
}

/// Writes the script and its answers. What follows the last line feed is a line too: the script ends with such a one.
fn written(script: &Script, folder: &Path) -> std::io::Result<()> {
    fs::write(folder.join("stdin"), script.lines.trim_ascii_end())?;
    fs::write(folder.join("stdout"), &script.answers)
}
