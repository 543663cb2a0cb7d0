//! A step of a record.
//!
//! Each instruction tests its refusals in the order of their numbers, which stand beside the tests, and changes the state only
//! when all are past. The numbers 1 and 24 are given where a lent memory is read ([`crate::calls`]).

use crate::ends::{Ends, Item};
use crate::instruction::{Branch, Instruction, ListedSlots, decode};
use crate::numbers::{EndNumber, RecordNumber, SlotNumber};
use crate::records::{Record, Records, Status};
use crate::refusal::Refusal;
use crate::slots::{SlotSet, Slots};
use crate::state::State;

/// What becomes of a record after its step.
enum Then {
    /// It goes on at a place.
    GoesOn(u16),
    /// It waits at its present place.
    Waits,
    /// It becomes free.
    BecomesFree,
}

use Then::{BecomesFree, GoesOn, Waits};

impl State {
    /// Asks a record for a step: the name of the instruction done, or 2 to 15.
    pub fn ask_record(&mut self, number: u32) -> Result<&'static str, Refusal> {
        let r = RecordNumber::new(number).ok_or(Refusal::NoRecord)?; // 2
        self.step_record(r)
    }

    /// A step of record r.
    pub(crate) fn step_record(&mut self, r: RecordNumber) -> Result<&'static str, Refusal> {
        let State { code, records, ends } = self;
        let record = &mut records[r];
        match record.status {
            Status::Free => return Err(Refusal::NoRecord),         // 2
            Status::Waiting => return Err(Refusal::RecordWaiting), // 3
            Status::Running => {}
        }
        let (instruction, next) = decode(code, record.place).ok_or(Refusal::NoInstruction)?; // 4
        let then = match instruction {
            Instruction::Cst(value) => cst(record, value).map(|()| GoesOn(next)),
            Instruction::Access(n) => access(record, n).map(|()| GoesOn(next)),
            Instruction::Store => store(record).map(|()| GoesOn(next)),
            Instruction::Add => add(record).map(|()| GoesOn(next)),
            Instruction::Mul => mul(record).map(|()| GoesOn(next)),
            Instruction::Leq => leq(record).map(|()| GoesOn(next)),
            Instruction::Put(c) => put(record, ends, c).map(|()| GoesOn(next)),
            Instruction::Get(c) => may_get(record, c).and_then(|x| wait(ends, x, r)).map(|()| Waits),
            Instruction::Split(c, a, b) => split(record, ends, c, a, b).map(|()| GoesOn(next)),
            Instruction::Fork(c, first, second) => {
                may_fork(record, c, first, second).and_then(|x| wait(ends, x, r)).map(|()| Waits)
            }
            Instruction::Plug(first, second) => plug(records, ends, r, first, second).map(|()| GoesOn(first.place)),
            Instruction::Close(c) => close(record, ends, c).map(|()| GoesOn(next)),
            Instruction::Halt(c) => halt(record, ends, c).map(|()| BecomesFree),
            Instruction::Same(c, d) => same(record, ends, c, d).map(|()| BecomesFree),
            Instruction::HPut(c, n) => hput(record, ends, c, n).map(|()| GoesOn(next)),
            Instruction::HCase(c, _) => may_hcase(record, c).and_then(|x| wait(ends, x, r)).map(|()| Waits),
            Instruction::Run(place, n, listed) => run(record, n, listed).map(|()| GoesOn(place)),
        }?;
        match then {
            GoesOn(place) => records.goes_on(r, place),
            Waits => records.waits(r),
            BecomesFree => records.becomes_free(r),
        }
        Ok(instruction.name())
    }
}

fn cst(record: &mut Record, value: i32) -> Result<(), Refusal> {
    record.stack_has_room()?; // 6
    record.stack.push(value);
    Ok(())
}

/// access 0 is the newest environment value.
fn access(record: &mut Record, n: u8) -> Result<(), Refusal> {
    record.stack_has_room()?; // 6
    let value = record.environment_value(n)?; // 7
    record.stack.push(value);
    Ok(())
}

fn store(record: &mut Record) -> Result<(), Refusal> {
    let value = record.top()?; // 5
    record.environment_has_room()?; // 6
    record.stack.pop();
    record.environment.push(value);
    Ok(())
}

fn add(record: &mut Record) -> Result<(), Refusal> {
    let (top, below) = record.top_two()?; // 5
    let sum = top.checked_add(below).ok_or(Refusal::Outside32Bits)?; // 9
    record.replace_two(sum);
    Ok(())
}

fn mul(record: &mut Record) -> Result<(), Refusal> {
    let (top, below) = record.top_two()?; // 5
    let product = top.checked_mul(below).ok_or(Refusal::Outside32Bits)?; // 9
    record.replace_two(product);
    Ok(())
}

/// 1 if the top is at most the one below it, else 0.
fn leq(record: &mut Record) -> Result<(), Refusal> {
    let (top, below) = record.top_two()?; // 5
    record.replace_two(i32::from(top <= below));
    Ok(())
}

fn put(record: &mut Record, ends: &mut Ends, c: SlotNumber) -> Result<(), Refusal> {
    let value = record.top()?; // 5
    let x = record.end(c)?; // 8
    ends[x].has_room()?; // 13
    record.stack.pop();
    ends.append(x, Item::Value(value));
    Ok(())
}

fn hput(record: &Record, ends: &mut Ends, c: SlotNumber, n: u8) -> Result<(), Refusal> {
    let x = record.end(c)?; // 8
    ends[x].has_room()?; // 13
    ends.append(x, Item::Handle(n));
    Ok(())
}

fn close(record: &mut Record, ends: &mut Ends, c: SlotNumber) -> Result<(), Refusal> {
    let x = record.end(c)?; // 8
    ends[x].has_room()?; // 13
    ends.append(x, Item::Close);
    record.slots.empty(c);
    Ok(())
}

fn halt(record: &Record, ends: &mut Ends, c: SlotNumber) -> Result<(), Refusal> {
    let x = record.end(c)?; // 8
    holds_only(record, [c])?; // 10
    record.stack_is_empty()?; // 11
    ends[x].has_room()?; // 13
    ends.append(x, Item::Close);
    Ok(())
}

/// The end that a get waits on, or 6, 8. The stack must have room when the value comes.
pub(crate) fn may_get(record: &Record, c: SlotNumber) -> Result<EndNumber, Refusal> {
    record.stack_has_room()?; // 6
    record.end(c) // 8
}

/// The end that an hcase waits on, or 8.
pub(crate) fn may_hcase(record: &Record, c: SlotNumber) -> Result<EndNumber, Refusal> {
    record.end(c) // 8
}

/// The end that a fork waits on, or 8, 10, 11.
pub(crate) fn may_fork(record: &Record, c: SlotNumber, first: Branch, second: Branch) -> Result<EndNumber, Refusal> {
    let x = record.end(c)?; // 8
    new_slot_is_not_kept(first)?; // 8
    new_slot_is_not_kept(second)?; // 8
    branches_share(first, second, record.slots.held().without(c))?; // 10
    record.stack_is_empty()?; // 11
    Ok(x)
}

/// Appends the wait of a get, hcase or fork to the end that it waits on.
fn wait(ends: &mut Ends, x: EndNumber, r: RecordNumber) -> Result<(), Refusal> {
    ends[x].has_room()?; // 13
    ends.append(x, Item::Wait(r));
    Ok(())
}

/// p is paired with q and r with s; q and s are sent away.
fn split(record: &mut Record, ends: &mut Ends, c: SlotNumber, a: SlotNumber, b: SlotNumber) -> Result<(), Refusal> {
    let x = record.end(c)?; // 8
    let taken = |slot: SlotNumber| slot.is_over_7() || slot != c && record.slots.end(slot).is_some();
    if taken(a) || taken(b) || a == b {
        return Err(Refusal::WrongSlot); // 8
    }
    record.stack_is_empty()?; // 11
    ends[x].has_room()?; // 13
    let [p, q, r, s] = ends.lowest_free()?; // 15
    ends.pair(p, q);
    ends.pair(r, s);
    ends.append(x, Item::Split(q, s));
    record.slots.empty(c);
    record.slots.set(a, p);
    record.slots.set(b, r);
    Ok(())
}

/// The first branch stays in this record, the second goes into the lowest free one, with the two sides of a new channel.
fn plug(records: &mut Records, ends: &mut Ends, r: RecordNumber, first: Branch, second: Branch) -> Result<(), Refusal> {
    let record = &records[r];
    new_slot_is_not_kept(first)?; // 8
    new_slot_is_not_kept(second)?; // 8
    branches_share(first, second, record.slots.held())?; // 10
    record.stack_is_empty()?; // 11
    let [p, q] = ends.lowest_free()?; // 15
    let other = records.lowest_free().ok_or(Refusal::NothingFree)?; // 15
    ends.pair(p, q);
    records.branch(r, other, (first, p), (second, q));
    Ok(())
}

/// The own ends x and y become free and their partners become partners of each other, with their queues as they are.
fn same(record: &Record, ends: &mut Ends, c: SlotNumber, d: SlotNumber) -> Result<(), Refusal> {
    let x = record.end(c)?; // 8
    let y = record.end(d)?; // 8
    holds_only(record, [c, d])?; // 10
    record.stack_is_empty()?; // 11
    if c == d || ends[x].partner == y {
        return Err(Refusal::SameTwice); // 12
    }
    if !ends[x].queue.is_empty() || !ends[y].queue.is_empty() {
        return Err(Refusal::OwnQueueNotEmpty); // 14
    }
    let (partner_of_x, partner_of_y) = (ends[x].partner, ends[y].partner);
    ends.becomes_free(x);
    ends.becomes_free(y);
    ends.pair(partner_of_x, partner_of_y);
    Ok(())
}

/// With the stack v1 (top) to vn, the environment becomes vn first, v1 last: each popped value goes in front of the one before.
/// Callee slot i gets the i-th listed slot's end.
fn run(record: &mut Record, n: u8, listed: ListedSlots<'_>) -> Result<(), Refusal> {
    let rest = record.stack.len().checked_sub(usize::from(n)).ok_or(Refusal::TooFewValues)?; // 5
    let mut callee = Slots::default();
    let mut set = SlotSet::default();
    for (slot, i) in listed.iter().zip(0..=u8::MAX) {
        callee.set(SlotNumber(i), record.end(slot)?); // 8
        set = set.with(slot);
    }
    if set.count() < listed.iter().len() || set != record.slots.held() {
        return Err(Refusal::EndsLostOrDoubled); // 10
    }
    record.environment.clear();
    record.environment.extend(record.stack.drain(rest..).rev());
    record.slots = callee;
    Ok(())
}

/// 10 if others than these slots are held.
fn holds_only<const N: usize>(record: &Record, slots: [SlotNumber; N]) -> Result<(), Refusal> {
    let others = slots.into_iter().fold(record.slots.held(), SlotSet::without);
    if others.is_empty() { Ok(()) } else { Err(Refusal::EndsLostOrDoubled) }
}

/// 8 if the slot that gets a branch's new end is over 7 or in its m.
fn new_slot_is_not_kept(branch: Branch) -> Result<(), Refusal> {
    let wrong = branch.slot.is_over_7() || branch.keeps.contains(branch.slot);
    if wrong { Err(Refusal::WrongSlot) } else { Ok(()) }
}

/// 10 if the two m overlap or aren't together all slots to be shared out.
fn branches_share(first: Branch, second: Branch, all: SlotSet) -> Result<(), Refusal> {
    let wrong = first.keeps.overlaps(second.keeps) || first.keeps.union(second.keeps) != all;
    if wrong { Err(Refusal::EndsLostOrDoubled) } else { Ok(()) }
}
