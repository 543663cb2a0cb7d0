//! Methods whose processes understand each other.
//!
//! A channel has a protocol, seen from one end; the other end has the mirrored one. A method begins with a process without channels,
//! which plugs; every process works its ends' protocols off in an order at random, and so reaches its halt, unless two of them wait
//! for each other, or a sum leaves 32 bits.

use crate::random::Random;

/// What is still to come at an end.
#[derive(Clone, PartialEq)]
enum Protocol {
    Send(Box<Protocol>),
    Receive(Box<Protocol>),
    Choose(Vec<Protocol>),
    Offer(Vec<Protocol>),
    Split(Box<[Protocol; 2]>),
    Fork(Box<[Protocol; 2]>),
    Close,
}

use Protocol::{Choose, Close, Fork, Offer, Receive, Send, Split};

impl Protocol {
    fn random(random: &mut Random, size: usize) -> Self {
        if size == 0 {
            return Close;
        }
        match random.below(13) {
            0..=3 => Send(Box::new(Self::random(random, size - 1))),
            4..=7 => Receive(Box::new(Self::random(random, size - 1))),
            8 => Choose(Self::several(random, size - 1)),
            9 => Offer(Self::several(random, size - 1)),
            10 => Split(Box::new([Self::random(random, size / 2), Self::random(random, size / 2)])),
            11 => Fork(Box::new([Self::random(random, size / 2), Self::random(random, size / 2)])),
            _ => (0..random.between(5, 10)).fold(Self::random(random, size / 2), |then, _| Send(Box::new(then))),
        }
    }

    fn several(random: &mut Random, size: usize) -> Vec<Self> {
        (0..random.between(1, 3)).map(|_| Self::random(random, size / 2)).collect()
    }

    fn mirrored(&self) -> Self {
        let both = |[first, second]: &[Protocol; 2]| Box::new([first.mirrored(), second.mirrored()]);
        match self {
            Send(then) => Receive(Box::new(then.mirrored())),
            Receive(then) => Send(Box::new(then.mirrored())),
            Choose(cases) => Offer(cases.iter().map(Self::mirrored).collect()),
            Offer(cases) => Choose(cases.iter().map(Self::mirrored).collect()),
            Split(parts) => Fork(both(parts)),
            Fork(parts) => Split(both(parts)),
            Close => Close,
        }
    }
}

/// A process as it is being written: what its slots are still to do, and how many values it has.
#[derive(Clone)]
struct Process {
    slots: [Option<Protocol>; 8],
    stack: usize,
    environment: usize,
}

impl Process {
    fn held(&self) -> Vec<usize> {
        (0..8).filter(|&slot| self.slots[slot].is_some()).collect()
    }

    fn empty(&self) -> Vec<usize> {
        (0..8).filter(|&slot| self.slots[slot].is_none()).collect()
    }
}

/// The most lines of a method; a longer one is given up.
const LINES: usize = 900;

/// With more values than these a process goes on by a run, which drops its environment.
const VALUES: usize = 13;

/// A method in words, for the assembler.
pub fn method(random: &mut Random) -> String {
    loop {
        let start = Process { slots: Default::default(), stack: 0, environment: 0 };
        let plugs = random.between(1, 8);
        let mut writer = Writer { random, lines: Vec::new(), label: String::new(), labels: 0, plugs, pending: Vec::new() };
        writer.plug(start);
        while let Some((label, process)) = writer.pending.pop()
            && writer.lines.len() < LINES
        {
            writer.label = format!("{label}: ");
            writer.process(process);
        }
        if writer.lines.len() < LINES {
            return writer.lines.join("\n");
        }
    }
}

struct Writer<'r> {
    random: &'r mut Random,
    lines: Vec<String>,
    /// What stands in front of the next line.
    label: String,
    labels: usize,
    /// How many more channels may be made.
    plugs: usize,
    /// Processes that are still to be written, each with its label.
    pending: Vec<(String, Process)>,
}

impl Writer<'_> {
    fn emit(&mut self, line: &str) {
        let label = std::mem::take(&mut self.label);
        self.lines.push(label + line);
    }

    /// A label at which a process is to go on.
    fn later(&mut self, process: Process) -> String {
        self.labels += 1;
        let label = format!("L{}", self.labels);
        self.pending.push((label.clone(), process));
        label
    }

    /// Writes a process until it ends or branches.
    fn process(&mut self, mut process: Process) {
        while self.lines.len() < LINES {
            if process.environment + process.stack > VALUES || self.random.one_in(12) {
                process = self.rename(process);
            }
            if self.plugs > 0 && self.random.one_in(6) && process.held().len() < 5 {
                return self.plug(process);
            }
            let held = process.held();
            if let [c, d] = held[..]
                && process.slots[c].as_ref().map(Protocol::mirrored) == process.slots[d]
                && !self.random.one_in(3)
            {
                self.store_all(&mut process);
                return self.emit(&format!("same {c} {d}"));
            }
            let c = self.random.pick(&held);
            match self.act(process, c) {
                Some(after) => process = after,
                None => return,
            }
        }
    }

    /// Does what comes next at the end in slot c; none if the process ended or branched.
    fn act(&mut self, mut process: Process, c: usize) -> Option<Process> {
        match process.slots[c].take()? {
            Send(then) => {
                self.push(&mut process);
                self.emit(&format!("put {c}"));
                process.stack -= 1;
                process.slots[c] = Some(*then);
            }
            Receive(then) => {
                self.emit(&format!("get {c}"));
                process.stack += 1;
                process.slots[c] = Some(*then);
                self.use_up(&mut process);
            }
            Choose(cases) => {
                let n = self.random.below(cases.len());
                self.emit(&format!("hput {c} {n}"));
                process.slots[c] = Some(cases[n].clone());
            }
            Offer(cases) => {
                let mut line = format!("hcase {c}");
                for case in cases {
                    process.slots[c] = Some(case);
                    line += " ";
                    line += &self.later(process.clone());
                }
                self.emit(&line);
                return None;
            }
            Split(parts) => return Some(self.split(process, c, *parts)),
            Fork(parts) => {
                self.fork(process, c, *parts);
                return None;
            }
            Close if process.held().is_empty() => {
                self.store_all(&mut process);
                self.emit(&format!("halt {c}"));
                return None;
            }
            Close => self.emit(&format!("close {c}")),
        }
        Some(process)
    }

    /// Pushes a value, unless there is one to be sent already.
    fn push(&mut self, process: &mut Process) {
        if process.stack > 0 && self.random.one_in(2) {
            return;
        }
        if process.environment > 0 && self.random.one_in(2) {
            let n = self.random.below(process.environment);
            self.emit(&format!("access {n}"));
        } else {
            let value = self.random.value();
            self.emit(&format!("cst {value}"));
        }
        process.stack += 1;
    }

    /// Stores a value or counts with it, or leaves it.
    fn use_up(&mut self, process: &mut Process) {
        let name = self.random.pick(&["add", "mul", "leq"]);
        match self.random.below(4) {
            0 => {
                self.emit("store");
                process.stack -= 1;
                process.environment += 1;
            }
            1 => {
                let value = self.random.value();
                self.emit(&format!("cst {value}"));
                self.emit(name);
            }
            2 if process.stack > 1 => {
                self.emit(name);
                process.stack -= 1;
            }
            _ => {}
        }
    }

    /// Empties the stack into the environment.
    fn store_all(&mut self, process: &mut Process) {
        for _ in 0..process.stack {
            self.emit("store");
        }
        process.environment += process.stack;
        process.stack = 0;
    }

    /// Goes on by a run with the slots in another order and some values of the stack as environment.
    fn rename(&mut self, mut process: Process) -> Process {
        let values = self.random.below(process.stack + 1);
        let mut listed = process.held();
        self.random.shuffle(&mut listed);
        let mut slots: [Option<Protocol>; 8] = Default::default();
        for (i, &slot) in listed.iter().enumerate() {
            slots[i] = process.slots[slot].take();
        }
        self.labels += 1;
        let next = format!("L{}", self.labels);
        let words: String = listed.iter().map(|slot| format!(" {slot}")).collect();
        self.emit(&format!("run {next} {values}{words}"));
        self.label = format!("{next}: ");
        Process { slots, stack: process.stack - values, environment: values }
    }

    fn split(&mut self, mut process: Process, c: usize, [first, second]: [Protocol; 2]) -> Process {
        self.store_all(&mut process);
        let empty = process.empty();
        if empty.len() < 2 {
            // No slot for the second channel: the other side will wait for it in vain.
            self.emit(&format!("close {c}"));
            return process;
        }
        let (a, b) = (self.random.pick(&empty), self.random.pick(&empty));
        let b = if a == b { empty[usize::from(empty[0] == a)] } else { b };
        self.emit(&format!("split {c} {a} {b}"));
        process.slots[a] = Some(first);
        process.slots[b] = Some(second);
        process
    }

    fn fork(&mut self, mut process: Process, c: usize, [first, second]: [Protocol; 2]) {
        self.store_all(&mut process);
        let (mut one, mut other) = self.share(&process);
        let a = self.random.pick(&one.empty());
        let b = self.random.pick(&other.empty());
        let (m, n) = (set(&one), set(&other));
        one.slots[a] = Some(first);
        other.slots[b] = Some(second);
        let (p, q) = (self.later(one), self.later(other));
        self.emit(&format!("fork {c}, {a} {m} {p}, {b} {n} {q}"));
    }

    fn plug(&mut self, mut process: Process) {
        self.plugs -= 1;
        self.store_all(&mut process);
        let a = self.random.pick(&process.empty());
        // The first branch may only stand between its one channel and the new one: it will end with same.
        let held = process.held();
        let (mut one, mut other, protocol) = if let [c] = held[..]
            && self.random.one_in(3)
        {
            let protocol = process.slots[c].as_ref().map_or(Close, Protocol::mirrored);
            let other = Process { slots: Default::default(), ..process.clone() };
            (process, other, protocol)
        } else {
            let (one, other) = self.share(&process);
            let size = self.random.between(1, 7);
            (one, other, Protocol::random(self.random, size))
        };
        let (m, n) = (set(&one), set(&other));
        other.slots[a] = Some(protocol.mirrored());
        one.slots[a] = Some(protocol);
        let (p, q) = (self.later(one), self.later(other));
        self.emit(&format!("plug {a}, {m} {p}, {n} {q}"));
    }

    /// The two branches of a process, its slots shared out between them.
    fn share(&mut self, process: &Process) -> (Process, Process) {
        let (mut one, mut other) = (process.clone(), process.clone());
        for slot in process.held() {
            let gives = if self.random.one_in(2) { &mut one } else { &mut other };
            gives.slots[slot] = None;
        }
        (one, other)
    }
}

/// The held slots of a process, as a set.
fn set(process: &Process) -> String {
    let listed: Vec<String> = process.held().iter().map(usize::to_string).collect();
    format!("{{{}}}", listed.join(","))
}
