//! What the scripts of a run reached, told by the interpreter.

use std::collections::BTreeMap;
use std::fmt::{self, Write};

use interpreter::calls;
use interpreter::console::{Console, Event};
use interpreter::ends::Item;
use interpreter::instruction::decode;
use interpreter::numbers::RecordNumber;

/// The instructions, and for each the numbers that only its own step can give.
const INSTRUCTIONS: [(&str, &[u8]); 17] = [
    ("cst", &[6]),
    ("access", &[6, 7]),
    ("store", &[5, 6]),
    ("add", &[5, 9]),
    ("mul", &[5, 9]),
    ("leq", &[5]),
    ("put", &[5, 8, 13]),
    ("get", &[6, 8, 13]),
    ("split", &[8, 11, 13, 15]),
    ("fork", &[8, 10, 11, 13]),
    ("plug", &[8, 10, 11, 15]),
    ("close", &[8, 13]),
    ("halt", &[8, 10, 11, 13]),
    ("same", &[8, 10, 11, 12, 14]),
    ("hput", &[8, 13]),
    ("hcase", &[8, 13]),
    ("run", &[5, 8, 10]),
];

/// The numbers of document 01 that a console can be answered: not 24, as it lends the right memory, nor 27, as it has room for
/// every image.
const NUMBERS: [u8; 25] = [1, 2, 3, 4, 5, 6, 7, 8, 9, 10, 11, 12, 13, 14, 15, 16, 17, 18, 19, 20, 21, 22, 23, 25, 26];

const END_STEPS: [&str; 4] = ["value/get", "handle/hcase", "split/fork", "close/close"];
const VERDICTS: [&str; 3] = ["spent", "finished", "stuck"];

/// How often each thing happened, by its name.
#[derive(Default)]
pub struct Counts {
    numbers: BTreeMap<u8, u64>,
    instructions: BTreeMap<&'static str, u64>,
    refused: BTreeMap<(&'static str, u8), u64>,
    end_steps: BTreeMap<&'static str, u64>,
    verdicts: BTreeMap<String, u64>,
}

impl Counts {
    /// The interpreter's answer to a command, counted.
    pub fn answer(&mut self, console: &mut Console, line: &str) -> Vec<u8> {
        let mut refused = None;
        let answer = console.answer_watched(line.as_bytes(), |event| match event {
            Event::Did(name) => *self.instructions.entry(name).or_default() += 1,
            Event::Took(item) => *self.end_steps.entry(end_step(item)).or_default() += 1,
            Event::Came(verdict) => *self.verdicts.entry(verdict.to_string()).or_default() += 1,
            Event::Refused(refusal) => {
                *self.numbers.entry(refusal.number()).or_default() += 1;
                refused = Some(refusal.number());
            }
        });
        if let (Some(number @ 5..=15), Some(name)) = (refused, instruction_asked(console, line)) {
            *self.refused.entry((name, number)).or_default() += 1;
        }
        answer
    }

    /// What no script reached.
    pub fn missing(&self) -> Vec<String> {
        let numbers = NUMBERS.iter().filter(|number| !self.numbers.contains_key(number)).map(|number| format!("number {number}"));
        let instructions = INSTRUCTIONS.iter().map(|(name, _)| name).filter(|name| !self.instructions.contains_key(*name));
        let refused = INSTRUCTIONS.iter().flat_map(|(name, numbers)| numbers.iter().map(move |&number| (*name, number)));
        let refused = refused.filter(|pair| !self.refused.contains_key(pair));
        let end_steps = END_STEPS.iter().filter(|kind| !self.end_steps.contains_key(*kind));
        let verdicts = VERDICTS.iter().filter(|verdict| !self.verdicts.contains_key(**verdict));
        numbers
            .chain(instructions.map(|name| format!("a step of {name}")))
            .chain(refused.map(|(name, number)| format!("{name} refused with {number}")))
            .chain(end_steps.map(|kind| format!("an end step {kind}")))
            .chain(verdicts.map(|verdict| format!("verdict {verdict}")))
            .collect()
    }
}

/// The instruction at which the record of a refused `R n` stands.
fn instruction_asked(console: &Console, line: &str) -> Option<&'static str> {
    let record = RecordNumber::new(line.strip_prefix("R ")?.parse().ok()?)?;
    let state = calls::view(console.memory()).ok()?;
    decode(state.code(), state.records()[record].place()).map(|(instruction, _)| instruction.name())
}

fn end_step(item: Item) -> &'static str {
    match item {
        Item::Value(_) => "value/get",
        Item::Handle(_) => "handle/hcase",
        Item::Split(..) => "split/fork",
        Item::Close => "close/close",
        Item::Wait(_) => "wait",
    }
}

impl fmt::Display for Counts {
    fn fmt(&self, f: &mut fmt::Formatter<'_>) -> fmt::Result {
        let count = |times: Option<&u64>| times.copied().unwrap_or_default();
        let numbers = NUMBERS.map(|number| (number.to_string(), count(self.numbers.get(&number))));
        writeln!(f, "refusals      {}", list(&numbers))?;
        let steps = INSTRUCTIONS.map(|(name, _)| (name.to_string(), count(self.instructions.get(name))));
        writeln!(f, "instructions  {}", list(&steps))?;
        let end_steps = END_STEPS.map(|kind| (kind.to_string(), count(self.end_steps.get(kind))));
        writeln!(f, "end steps     {}", list(&end_steps))?;
        let verdicts = VERDICTS.map(|verdict| (verdict.to_string(), count(self.verdicts.get(verdict))));
        writeln!(f, "verdicts      {}", list(&verdicts))?;
        writeln!(f, "refused asks of a record, by instruction:")?;
        for (name, numbers) in INSTRUCTIONS {
            let refused: Vec<_> =
                numbers.iter().map(|&number| (number.to_string(), count(self.refused.get(&(name, number))))).collect();
            writeln!(f, "  {name:<12}{}", list(&refused))?;
        }
        f.write_str("24 and 27 cannot be met through a console.")
    }
}

/// Things with their counts.
fn list(counts: &[(String, u64)]) -> String {
    counts.iter().fold(String::new(), |mut line, (name, count)| {
        let _ = write!(line, "{name}: {count}  ");
        line
    })
}
