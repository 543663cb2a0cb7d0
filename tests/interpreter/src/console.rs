//! The console: commands that are read one a line, and the answer to each. The README of this package has the grammar.

use std::fmt::Display;
use std::io::{self, BufRead, Read, Write};

use crate::calls;
use crate::ends::Item;
use crate::image::{self, BLOCK, BLOCKS};
use crate::memory;
use crate::records::Status;
use crate::refusal::Refusal;
use crate::run::{Step, Verdict};
use crate::state::State;

/// The characters that a line may have.
pub const LINE: usize = 40_000;

/// What a command did, for those who count.
#[derive(Clone, Copy, Debug, PartialEq, Eq)]
pub enum Event {
    /// A record did the instruction of this name.
    Did(&'static str),
    /// At an end this value, handle, split or close was taken.
    Took(Item),
    /// A run came out so.
    Came(Verdict),
    /// A call was refused.
    Refused(Refusal),
}

impl From<Step> for Event {
    fn from(step: Step) -> Self {
        match step {
            Step::Record(_, name) => Event::Did(name),
            Step::End(_, item) => Event::Took(item),
        }
    }
}

/// A command that is understood.
#[derive(Clone, Debug, PartialEq, Eq)]
enum Command {
    Load(Vec<u8>),
    Write(Vec<u8>),
    Record(u32),
    End(u32),
    Run(u16, u32),
    Free,
    Dump,
    Peek(usize, usize),
    Poke(usize, Vec<u8>),
}

impl Command {
    /// The command of a line, if it is understood.
    fn of(line: &[u8]) -> Option<Self> {
        if line.len() > LINE {
            return None;
        }
        let words: Vec<&[u8]> = line.split(|&byte| byte == b' ').collect();
        Some(match *words {
            [b"load"] => Command::Load(Vec::new()),
            [b"load", image] => Command::Load(bytes(image)?),
            [b"write"] => Command::Write(Vec::new()),
            [b"write", code] => Command::Write(bytes(code)?),
            [b"R", n] => Command::Record(number(n)?),
            [b"E", n] => Command::End(number(n)?),
            [b"run", budget, start] => Command::Run(number(budget)?.try_into().ok()?, number(start)?),
            [b"free"] => Command::Free,
            [b"dump"] => Command::Dump,
            [b"peek", at, count] => Command::Peek(number(at)? as usize, number(count)? as usize),
            [b"poke", at, new] => Command::Poke(number(at)? as usize, bytes(new)?),
            _ => return None,
        })
    }
}

/// A line for whoever reads a script: it is answered with itself, and does nothing.
fn is_remark(line: &[u8]) -> bool {
    line.len() <= LINE && line.starts_with(b"#")
}

/// The number that a word means: decimal digits, at most 4,294,967,295.
fn number(word: &[u8]) -> Option<u32> {
    if word.is_empty() {
        return None;
    }
    word.iter().try_fold(0u32, |number, &byte| {
        let digit = char::from(byte).to_digit(10)?;
        number.checked_mul(10)?.checked_add(digit)
    })
}

/// The bytes that a word means: hex digits, two for each of at least one byte.
fn bytes(word: &[u8]) -> Option<Vec<u8>> {
    let (pairs, odd) = word.as_chunks::<2>();
    if pairs.is_empty() || !odd.is_empty() {
        return None;
    }
    let digit = |byte: u8| char::from(byte).to_digit(16);
    pairs.iter().map(|&[high, low]| u8::try_from(16 * digit(high)? + digit(low)?).ok()).collect()
}

/// The console, with the state memory that it works on.
#[derive(Clone, Debug)]
pub struct Console {
    memory: Vec<u8>,
}

impl Default for Console {
    /// The console with the start state and no code.
    fn default() -> Self {
        Console { memory: memory::write(&State::default()) }
    }
}

impl Console {
    /// The state memory.
    pub fn memory(&self) -> &[u8] {
        &self.memory
    }

    /// The answer to a line, each of its own lines ended.
    pub fn answer(&mut self, line: &[u8]) -> Vec<u8> {
        self.answer_watched(line, |_| {})
    }

    /// The same answer, all that the command did shown to `watch`.
    pub fn answer_watched(&mut self, line: &[u8], mut watch: impl FnMut(Event)) -> Vec<u8> {
        if is_remark(line) {
            return [line, b"\n"].concat();
        }
        match Command::of(line) {
            Some(command) => {
                let answer = self.obey(command, &mut watch).unwrap_or_else(|(words, refusal)| {
                    watch(Event::Refused(refusal));
                    format!("{words} {refusal}")
                });
                (answer + "\n").into_bytes()
            }
            None => [b"? ", first_word(line), b"\n"].concat(),
        }
    }

    /// Does what a command says: the answer, its last line not ended. If a call is refused the answer is these words and the number.
    fn obey(&mut self, command: Command, mut watch: impl FnMut(Event)) -> Result<String, (String, Refusal)> {
        let memory = &mut self.memory;
        Ok(match command {
            Command::Load(image) => {
                calls::load(memory, &image).map_err(|refusal| ("load".to_string(), refusal))?;
                "load 0".to_string()
            }
            Command::Write(code) => written(&code).map_err(|refusal| ("write".to_string(), refusal))?,
            Command::Record(n) => {
                watch(Event::Did(calls::ask_record(memory, n).map_err(|refusal| (format!("R {n}:"), refusal))?));
                format!("R {n}: 0")
            }
            Command::End(n) => {
                watch(Event::Took(calls::ask_end(memory, n).map_err(|refusal| (format!("E {n}:"), refusal))?));
                format!("E {n}: 0")
            }
            Command::Run(budget, start) => {
                let run = calls::run_watched(memory, budget, start, |step| watch(step.into()));
                let run = run.map_err(|refusal| ("run:".to_string(), refusal))?;
                watch(Event::Came(run.verdict));
                format!("run: 0 {} {} {}", run.steps, run.next, run.verdict)
            }
            Command::Free => {
                let free = calls::free_ends(memory).map_err(|refusal| ("free: refused".to_string(), refusal))?;
                format!("free: {} {}", free.count, free.lowest)
            }
            Command::Dump => dump(&calls::view(memory).map_err(|refusal| ("dump: refused".to_string(), refusal))?),
            Command::Peek(at, count) => match at.checked_add(count).and_then(|end| memory.get(at..end)) {
                Some(found) => hex(found),
                None => "peek: out of range".to_string(),
            },
            Command::Poke(at, new) => match at.checked_add(new.len()).and_then(|end| memory.get_mut(at..end)) {
                Some(cells) => {
                    cells.copy_from_slice(&new);
                    "poke: ok".to_string()
                }
                None => "poke: out of range".to_string(),
            },
        })
    }
}

/// Reads lines, at most 40,000 characters of each, and answers them.
pub fn serve(mut input: impl BufRead, mut output: impl Write) -> io::Result<()> {
    let mut console = Console::default();
    let mut line = Vec::new();
    loop {
        line.clear();
        if input.by_ref().take(LINE as u64 + 1).read_until(b'\n', &mut line)? == 0 {
            return Ok(());
        }
        if line.last() == Some(&b'\n') {
            line.pop();
        } else if line.len() > LINE {
            input.skip_until(b'\n')?;
        }
        output.write_all(&console.answer(&line))?;
    }
}

/// What stands in front of the first space, at most 40,000 characters of it.
fn first_word(line: &[u8]) -> &[u8] {
    line.split(|&byte| byte == b' ').next().and_then(|word| word.chunks(LINE).next()).unwrap_or_default()
}

/// The answer to a write that is done, or 26.
fn written(code: &[u8]) -> Result<String, Refusal> {
    let mut output = [0; BLOCKS * BLOCK];
    let length = image::write(code, &mut output)?;
    Ok(format!("write 0\n{}", hex(output.get(..length).unwrap_or_default())))
}

/// A state in words.
fn dump(state: &State) -> String {
    let code = if state.code().is_empty() { "-".to_string() } else { hex(state.code()) };
    let mut lines = vec![format!("code {code}")];
    for (r, record) in state.records().in_use() {
        let status = if record.status() == Status::Waiting { "waiting" } else { "running" };
        let slots = record.slots().ends().map(|(slot, end)| format!("{}:{}", slot.0, end.number()));
        let (place, stack, environment, slots) = (record.place(), list(record.stack()), list(record.environment()), list(slots));
        lines.push(format!("R{} {status} {place} stack {stack} env {environment} slots {slots}", r.number()));
    }
    for (e, end) in state.ends().in_use() {
        let queue = list(end.queue().iter().copied().map(in_short));
        lines.push(format!("E{} partner {} queue {queue}", e.number(), end.partner().number()));
    }
    lines.push("end".to_string());
    lines.join("\n")
}

/// An item as a dump shows it.
fn in_short(item: Item) -> String {
    match item {
        Item::Value(value) => format!("v{value}"),
        Item::Handle(n) => format!("h{n}"),
        Item::Split(first, second) => format!("s{}:{}", first.number(), second.number()),
        Item::Close => "c".to_string(),
        Item::Wait(record) => format!("w{}", record.number()),
    }
}

/// Things with commas between them, `-` for none.
fn list<T: Display>(things: impl Iterator<Item = T>) -> String {
    let things: Vec<String> = things.map(|thing| thing.to_string()).collect();
    if things.is_empty() { "-".to_string() } else { things.join(",") }
}

/// Bytes in lower-case hex.
fn hex(bytes: &[u8]) -> String {
    bytes.iter().flat_map(|byte| [byte >> 4, byte & 15]).filter_map(|digit| char::from_digit(digit.into(), 16)).collect()
}
