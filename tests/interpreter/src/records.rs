//! The 32 process records.

use std::mem;
use std::ops::{Index, IndexMut};

use crate::instruction::Branch;
use crate::numbers::{EndNumber, RECORDS, RecordNumber, SlotNumber, VALUES};
use crate::refusal::Refusal;
use crate::slots::Slots;

/// What a record is doing.
#[derive(Clone, Copy, Debug, Default, PartialEq, Eq)]
pub enum Status {
    /// Not in use.
    #[default]
    Free,
    /// In use, and goes on when it is asked.
    Running,
    /// In use, and goes on when a step at an end releases it.
    Waiting,
}

/// A process record. All of a free one is empty.
#[derive(Clone, Debug, Default, PartialEq, Eq)]
pub struct Record {
    pub(crate) status: Status,
    pub(crate) place: u16,
    /// The top is last.
    pub(crate) stack: Vec<i32>,
    /// The newest is last.
    pub(crate) environment: Vec<i32>,
    pub(crate) slots: Slots,
}

impl Record {
    /// Free, running or waiting.
    pub fn status(&self) -> Status {
        self.status
    }

    /// Where it stands in the code.
    pub fn place(&self) -> u16 {
        self.place
    }

    /// The values on the stack, top first.
    pub fn stack(&self) -> impl ExactSizeIterator<Item = i32> {
        self.stack.iter().rev().copied()
    }

    /// The values in the environment, newest first.
    pub fn environment(&self) -> impl ExactSizeIterator<Item = i32> {
        self.environment.iter().rev().copied()
    }

    /// The local slots.
    pub fn slots(&self) -> &Slots {
        &self.slots
    }

    /// The end in slot c, or 8 if c is over 7 or empty.
    pub(crate) fn end(&self, c: SlotNumber) -> Result<EndNumber, Refusal> {
        self.slots.end(c).ok_or(Refusal::WrongSlot)
    }

    /// The top of the stack, or 5.
    pub(crate) fn top(&self) -> Result<i32, Refusal> {
        self.stack.last().copied().ok_or(Refusal::TooFewValues)
    }

    /// The top of the stack and the value below it, or 5.
    pub(crate) fn top_two(&self) -> Result<(i32, i32), Refusal> {
        match *self.stack {
            [.., below, top] => Ok((top, below)),
            _ => Err(Refusal::TooFewValues),
        }
    }

    /// 6 if the stack has no room for a further value.
    pub(crate) fn stack_has_room(&self) -> Result<(), Refusal> {
        if self.stack.len() < VALUES { Ok(()) } else { Err(Refusal::TooManyValues) }
    }

    /// 6 if the environment has no room for a further value.
    pub(crate) fn environment_has_room(&self) -> Result<(), Refusal> {
        if self.environment.len() < VALUES { Ok(()) } else { Err(Refusal::TooManyValues) }
    }

    /// 11 if the stack isn't empty.
    pub(crate) fn stack_is_empty(&self) -> Result<(), Refusal> {
        if self.stack.is_empty() { Ok(()) } else { Err(Refusal::StackNotEmpty) }
    }

    /// The value at an environment place, from 0 for the newest; 7 if there is none.
    pub(crate) fn environment_value(&self, n: u8) -> Result<i32, Refusal> {
        self.environment().nth(usize::from(n)).ok_or(Refusal::NoEnvironmentPlace)
    }

    /// Pops two values and pushes one.
    pub(crate) fn replace_two(&mut self, value: i32) {
        self.stack.pop();
        self.stack.pop();
        self.stack.push(value);
    }
}

/// The process records, and beside them the set of the running ones, so that a run finds the next of them at once.
#[derive(Clone, Debug, Default, PartialEq, Eq)]
pub struct Records {
    records: [Record; RECORDS],
    running: u32,
}

impl Records {
    /// These records.
    pub(crate) fn new(records: [Record; RECORDS]) -> Self {
        let mut all = Records { records, running: 0 };
        all.running = RecordNumber::all().filter(|&r| all[r].status == Status::Running).map(RecordNumber::bit).sum();
        all
    }

    /// Each record with its number, upward.
    pub fn iter(&self) -> impl Iterator<Item = (RecordNumber, &Record)> {
        RecordNumber::all().zip(&self.records)
    }

    /// The records in use, each with its number, upward.
    pub fn in_use(&self) -> impl Iterator<Item = (RecordNumber, &Record)> {
        self.iter().filter(|(_, record)| record.status != Status::Free)
    }

    /// The lowest free record.
    pub fn lowest_free(&self) -> Option<RecordNumber> {
        self.iter().find(|(_, record)| record.status == Status::Free).map(|(r, _)| r)
    }

    /// The set of the running records, bit r for record r.
    pub(crate) fn running(&self) -> u32 {
        self.running
    }

    /// The record runs on at a place.
    pub(crate) fn goes_on(&mut self, r: RecordNumber, place: u16) {
        self.running |= r.bit();
        let record = &mut self[r];
        record.status = Status::Running;
        record.place = place;
    }

    /// The two branches of a plug or fork, each with the end for its new slot: the first stays in record r, the second runs in the
    /// free record `other`. Each has the slots of its m and the new one; both have the environment of r; stacks are empty.
    pub(crate) fn branch(&mut self, r: RecordNumber, other: RecordNumber, first: (Branch, EndNumber), second: (Branch, EndNumber)) {
        let slots = self[r].slots;
        let mut environment = mem::take(&mut self[other].environment);
        environment.clone_from(&self[r].environment);
        self[other].environment = environment;
        for (record, (branch, end)) in [(r, first), (other, second)] {
            self[record].slots = slots.only(branch.keeps);
            self[record].slots.set(branch.slot, end);
            self.goes_on(record, branch.place);
        }
    }

    /// The record becomes waiting at its present place.
    pub(crate) fn waits(&mut self, r: RecordNumber) {
        self.running &= !r.bit();
        self[r].status = Status::Waiting;
    }

    /// The record becomes free, and nothing of it is left.
    pub(crate) fn becomes_free(&mut self, r: RecordNumber) {
        self.running &= !r.bit();
        let record = &mut self[r];
        record.status = Status::Free;
        record.place = 0;
        record.stack.clear();
        record.environment.clear();
        record.slots = Slots::default();
    }
}

impl Index<RecordNumber> for Records {
    type Output = Record;

    #[expect(clippy::indexing_slicing, reason = "a record number is under 32")]
    fn index(&self, r: RecordNumber) -> &Record {
        &self.records[r.index()]
    }
}

impl IndexMut<RecordNumber> for Records {
    #[expect(clippy::indexing_slicing, reason = "a record number is under 32")]
    fn index_mut(&mut self, r: RecordNumber) -> &mut Record {
        &mut self.records[r.index()]
    }
}
