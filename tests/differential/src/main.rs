//! Runs generated scripts through a console program and through the interpreter, and compares every answer.
//!
//! `differential --console COMMAND [--trace COMMAND] [--scripts N] [--seed N]`; the README says more.

mod counts;
mod damages;
mod images;
mod memories;
mod methods;
mod programs;
mod protocols;
mod random;
mod scripts;

use std::fs;
use std::path::PathBuf;
use std::process::ExitCode;

use counts::Counts;
use interpreter::console::Console;
use interpreter::printing;
use scripts::Script;

/// Scripts for one process of the console.
const BATCH: u64 = 100;

/// From so many scripts on, a run must reach everything.
const FULL: u64 = 4_000;

/// Of so many scripts, the image of one is also given to the printing program, and a damaged one.
const TRACED: u64 = 20;

/// What the run is to do.
struct Plan {
    console: String,
    trace: Option<String>,
    scripts: u64,
    seed: u64,
}

fn main() -> ExitCode {
    let Some(plan) = plan() else {
        eprintln!("usage: differential --console COMMAND [--trace COMMAND] [--scripts N] [--seed N]");
        return ExitCode::from(2);
    };
    match compare(&plan) {
        Ok(words) => {
            println!("{words}");
            ExitCode::SUCCESS
        }
        Err(words) => {
            println!("{words}");
            ExitCode::FAILURE
        }
    }
}

/// The plan that the arguments give.
fn plan() -> Option<Plan> {
    let mut plan = Plan { console: String::new(), trace: None, scripts: 4_000, seed: 1 };
    let mut arguments = std::env::args().skip(1);
    while let Some(name) = arguments.next() {
        let value = arguments.next()?;
        match name.as_str() {
            "--console" => plan.console = value,
            "--trace" => plan.trace = Some(value),
            "--scripts" => plan.scripts = value.parse().ok()?,
            "--seed" => plan.seed = value.parse().ok()?,
            _ => return None,
        }
    }
    (!plan.console.is_empty()).then_some(plan)
}

/// Compares all scripts: what was reached, or what is wrong.
fn compare(plan: &Plan) -> Result<String, String> {
    let mut counts = Counts::default();
    let mut commands = 0;
    for first in (0..plan.scripts).step_by(BATCH as usize) {
        let numbers = first..plan.scripts.min(first + BATCH);
        let scripts: Vec<(u64, Script)> = numbers.map(|number| (number, Script::new(plan.seed, number))).collect();
        commands += scripts.iter().map(|(_, script)| script.lines.len()).sum::<usize>();
        compare_consoles(plan, &scripts, &mut counts)?;
        if let Some(command) = &plan.trace {
            compare_traces(plan, command, &scripts)?;
        }
    }
    let reached = format!("{counts}\n{} scripts from seed {}, {commands} commands: ", plan.scripts, plan.seed);
    let missing = counts.missing();
    if missing.is_empty() {
        Ok(reached + "no difference, everything reached")
    } else if plan.scripts < FULL {
        Ok(format!("{reached}no difference; so few scripts did not reach {}", missing.join(", ")))
    } else {
        Err(format!("{reached}no difference, but no script reached {}", missing.join(", ")))
    }
}

/// Gives a batch of scripts to the interpreter, and to one process of the console.
fn compare_consoles(plan: &Plan, scripts: &[(u64, Script)], counts: &mut Counts) -> Result<(), String> {
    let mut console = Console::default();
    let mut answers = |script: &Script| script.lines.iter().map(|line| counts.answer(&mut console, line)).collect();
    let expected: Vec<Vec<Vec<u8>>> = scripts.iter().map(|(_, script)| answers(script)).collect();
    let length: usize = expected.iter().flatten().map(Vec::len).sum();
    let input = scripts.iter().flat_map(|(_, script)| &script.lines).flat_map(|line| [line, "\n"]).flat_map(str::bytes).collect();
    let given = output(&plan.console, input, length)?;
    let mut rest = &given[..];
    for ((number, script), expected) in scripts.iter().zip(&expected) {
        for ((at, line), expected) in (1..).zip(&script.lines).zip(expected) {
            match rest.strip_prefix(&expected[..]) {
                Some(further) => rest = further,
                None => {
                    let file = keep(plan, *number, "script", (script.lines.join("\n") + "\n").as_bytes())?;
                    let (seed, line, difference) = (plan.seed, cut(line), first_difference(expected, rest));
                    return Err(format!("seed {seed}, script {number}, line {at}: {line}\n{difference}\nthe script is {file}"));
                }
            }
        }
    }
    if rest.is_empty() { Ok(()) } else { Err(format!("seed {}: more than was asked for: {}", plan.seed, shown(rest))) }
}

/// Gives images to the printing program, one process each.
fn compare_traces(plan: &Plan, command: &str, scripts: &[(u64, Script)]) -> Result<(), String> {
    for (number, script) in scripts.iter().filter(|(number, _)| number % TRACED == 0) {
        for image in [&script.image, &script.damaged] {
            let mut expected = Vec::new();
            printing::trace(image, &mut expected).map_err(|error| error.to_string())?;
            let given = output(command, image.clone(), expected.len())?;
            if given != expected {
                let file = keep(plan, *number, "image", image)?;
                let (seed, difference) = (plan.seed, first_difference(&expected, &given));
                return Err(format!("seed {seed}, script {number}, trace of an image\n{difference}\nthe image is {file}"));
            }
        }
    }
    Ok(())
}

/// What a command writes, up to some bytes more than it should.
fn output(command: &str, input: Vec<u8>, length: usize) -> Result<Vec<u8>, String> {
    programs::output(command, input, length + 1_000).map_err(|error| format!("{command}: {error}"))
}

/// Keeps what led to a difference in a file.
fn keep(plan: &Plan, number: u64, kind: &str, bytes: &[u8]) -> Result<String, String> {
    let folder = PathBuf::from(concat!(env!("CARGO_MANIFEST_DIR"), "/target/differences"));
    let file = folder.join(format!("seed-{}-number-{number}.{kind}", plan.seed));
    let written = fs::create_dir_all(&folder).and_then(|()| fs::write(&file, bytes));
    written.map(|()| file.display().to_string()).map_err(|error| format!("{}: {error}", file.display()))
}

/// The first line that differs, from where it does.
fn first_difference(expected: &[u8], given: &[u8]) -> String {
    let mut lines = expected.split(|&byte| byte == b'\n').zip(given.split(|&byte| byte == b'\n'));
    let (expected, given) = lines.find(|(expected, given)| expected != given).unwrap_or((expected, given));
    let same = expected.iter().zip(given).take_while(|(expected, given)| expected == given).count();
    format!(
        "from character {same} of the line on\n  expected {}\n  given    {}",
        shown(expected.get(same..).unwrap_or_default()),
        shown(given.get(same..).unwrap_or_default())
    )
}

/// The first characters of some bytes.
fn shown(bytes: &[u8]) -> String {
    cut(&String::from_utf8_lossy(bytes.chunks(400).next().unwrap_or_default()))
}

/// The first characters of a line.
fn cut(line: &str) -> String {
    let first: String = line.chars().take(100).collect();
    if first.len() < line.len() { first + ".." } else { first }
}
