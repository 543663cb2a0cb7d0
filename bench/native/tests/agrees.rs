//! The fast interpreter takes the same steps as the plain one.

use std::fs;
use std::path::Path;

use interpreter::image;
use interpreter::state::State;
use native::chain::chain;
use native::machine::Machine;

/// Both runs of a code, step by step.
fn agree(code: Vec<u8>, budget: u16, name: &str) {
    let image = assembler::image(&code).unwrap();
    let (mut expected, mut taken) = (Vec::new(), Vec::new());
    let run = State::load(&image).unwrap().run_watched(budget, 0, |step| expected.push(step.position())).unwrap();
    let outcome = Machine::new(code).run(budget.into(), 0, |position| taken.push(position));
    assert!(taken == expected, "{name}: another step {:?}", taken.iter().zip(&expected).position(|(taken, step)| taken != step));
    assert_eq!(run.to_string(), format!("{} {} {}", outcome.verdict, outcome.steps, outcome.next), "{name}");
}

#[test]
fn chains() {
    for processes in 2..=32 {
        agree(chain(processes), 3_000, &format!("chain of {processes}"));
    }
}

/// The images of the examples, or of the folder that the environment variable `IMAGES` names; refused images are passed over.
#[test]
fn images() {
    let folder = std::env::var("IMAGES").unwrap_or_else(|_| concat!(env!("CARGO_MANIFEST_DIR"), "/../../examples").to_string());
    let files = fs::read_dir(Path::new(&folder)).unwrap().map(|file| file.unwrap().path());
    let mut images = 0;
    for path in files.filter(|path| path.extension().is_some_and(|extension| extension == "image")) {
        images += 1;
        if let Ok(code) = image::read(&fs::read(&path).unwrap()) {
            agree(code, 60_000, &path.display().to_string());
        }
    }
    assert!(images > 0);
}
