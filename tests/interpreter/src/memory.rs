//! The state memory: a state as 16,902 bytes, laid out as `docs/STATE.md` says.
//!
//! Numbers stand low byte first, and cells not in use hold zero. S1 is tested here, where bytes are read: every count and number
//! is within its limits, and unused cells are zero.

use crate::ends::{End, Ends, Item};
use crate::numbers::{CODE, ENDS, EndNumber, ITEMS, RECORDS, RecordNumber, SLOTS, VALUES};
use crate::records::{Record, Records, Status};
use crate::slots::Slots;
use crate::soundness::sound;
use crate::state::State;

/// The bytes of a value on a stack or in an environment.
const VALUE_SIZE: usize = 4;

/// The bytes of a queue cell: the kind of the item and, above it, the payload.
const CELL_SIZE: usize = 8;

/// The bytes of the values on a stack or in an environment.
const VALUES_SIZE: usize = VALUES * VALUE_SIZE;

/// The bytes of a queue.
const QUEUE_SIZE: usize = ITEMS * CELL_SIZE;

/// The bytes of a record: status, place, two counts, slots, stack, environment.
const RECORD_SIZE: usize = 1 + 2 + 2 + SLOTS + 2 * VALUES_SIZE;

/// The bytes of the state memory: code length, code, records, free ends, partners, queue counts, queues.
pub const STATE_SIZE: usize = 2 + CODE + RECORDS * RECORD_SIZE + 8 + ENDS + ENDS + ENDS * QUEUE_SIZE;

/// The state memory of a state.
pub fn write(state: &State) -> Vec<u8> {
    let mut memory = Vec::with_capacity(STATE_SIZE);
    memory.extend((state.code.len() as u16).to_le_bytes());
    write_padded(&mut memory, CODE, state.code.iter().copied());
    for (_, record) in state.records.iter() {
        write_record(&mut memory, record);
    }
    memory.extend(state.ends.free().to_le_bytes());
    let ends = || EndNumber::all().map(|e| &state.ends[e]);
    memory.extend(ends().map(|end| end.partner.number()));
    memory.extend(ends().map(|end| end.queue.len() as u8));
    for end in ends() {
        write_padded(&mut memory, QUEUE_SIZE, end.queue.iter().copied().flat_map(write_item));
    }
    memory
}

fn write_record(memory: &mut Vec<u8>, record: &Record) {
    memory.push(match record.status {
        Status::Free => 0,
        Status::Running => 1,
        Status::Waiting => 2,
    });
    memory.extend(record.place.to_le_bytes());
    memory.push(record.stack.len() as u8);
    memory.push(record.environment.len() as u8);
    memory.extend(record.slots.0.map(|slot| slot.map_or(0, |end| end.number() + 1)));
    write_padded(memory, VALUES_SIZE, record.stack().flat_map(i32::to_le_bytes));
    write_padded(memory, VALUES_SIZE, record.environment().flat_map(i32::to_le_bytes));
}

fn write_item(item: Item) -> [u8; CELL_SIZE] {
    match item {
        Item::Value(value) => {
            let [v0, v1, v2, v3] = value.to_le_bytes();
            [1, v0, v1, v2, v3, 0, 0, 0]
        }
        Item::Handle(n) => [2, n, 0, 0, 0, 0, 0, 0],
        Item::Split(first, second) => [3, first.number(), second.number(), 0, 0, 0, 0, 0],
        Item::Close => [4, 0, 0, 0, 0, 0, 0, 0],
        Item::Wait(record) => [5, record.number(), 0, 0, 0, 0, 0, 0],
    }
}

/// Writes some bytes, and zeros after them up to a size.
fn write_padded(memory: &mut Vec<u8>, size: usize, bytes: impl Iterator<Item = u8>) {
    let end = memory.len() + size;
    memory.extend(bytes);
    memory.resize(end, 0);
}

/// The state that a memory holds; none if it isn't sound.
pub fn read(memory: &[u8; STATE_SIZE]) -> Option<State> {
    read_parts(memory).filter(sound)
}

/// (S1) Every count and number is within the limits, code length at most 8,156, unused cells zero: then this is the state that the
/// memory holds. Of a free end the partner and the queue are unused.
fn read_parts(memory: &[u8]) -> Option<State> {
    let mut memory = Parts(memory);
    let code_length = usize::from(u16::from_le_bytes(*memory.next()?));
    let code = in_use(memory.next::<CODE>()?, code_length)?.to_vec();
    let mut records: [Record; RECORDS] = Default::default();
    for record in &mut records {
        *record = read_record(memory.next()?)?;
    }
    let free = u64::from_le_bytes(*memory.next()?);
    let partners: &[u8; ENDS] = memory.next()?;
    let counts: &[u8; ENDS] = memory.next()?;
    let mut ends = [const { End::FREE }; ENDS];
    for (((e, end), &partner), &count) in EndNumber::all().zip(&mut ends).zip(partners).zip(counts) {
        *end = read_end(partner, count, memory.next()?)?;
        if free & e.bit() != 0 && *end != End::FREE {
            return None;
        }
    }
    Some(State { code, records: Records::new(records), ends: Ends::new(ends, free) })
}

fn read_record(bytes: &[u8; RECORD_SIZE]) -> Option<Record> {
    let [status, place0, place1, stack_count, environment_count, rest @ ..] = bytes;
    let mut rest = Parts(rest);
    let record = Record {
        status: match status {
            0 => Status::Free,
            1 => Status::Running,
            2 => Status::Waiting,
            _ => return None,
        },
        place: u16::from_le_bytes([*place0, *place1]),
        slots: read_slots(rest.next()?)?,
        stack: read_values(*stack_count, rest.next()?)?,
        environment: read_values(*environment_count, rest.next()?)?,
    };
    (record.status != Status::Free || record == Record::default()).then_some(record)
}

fn read_slots(bytes: &[u8; SLOTS]) -> Option<Slots> {
    let mut slots = Slots::default();
    for (slot, &byte) in slots.0.iter_mut().zip(bytes) {
        *slot = match byte.checked_sub(1) {
            Some(end) => Some(EndNumber::new(end.into())?),
            None => None,
        };
    }
    Some(slots)
}

/// The values of a stack or an environment, the top or newest last.
fn read_values(count: u8, bytes: &[u8; VALUES_SIZE]) -> Option<Vec<i32>> {
    let (values, _) = in_use(bytes, usize::from(count) * VALUE_SIZE)?.as_chunks();
    Some(values.iter().rev().copied().map(i32::from_le_bytes).collect())
}

fn read_end(partner: u8, count: u8, queue: &[u8; QUEUE_SIZE]) -> Option<End> {
    let (cells, _) = in_use(queue, usize::from(count) * CELL_SIZE)?.as_chunks();
    Some(End { partner: EndNumber::new(partner.into())?, queue: cells.iter().copied().map(read_item).collect::<Option<_>>()? })
}

fn read_item(cell: [u8; CELL_SIZE]) -> Option<Item> {
    match cell {
        [1, v0, v1, v2, v3, 0, 0, 0] => Some(Item::Value(i32::from_le_bytes([v0, v1, v2, v3]))),
        [2, n, 0, 0, 0, 0, 0, 0] => Some(Item::Handle(n)),
        [3, first, second, 0, 0, 0, 0, 0] => Some(Item::Split(EndNumber::new(first.into())?, EndNumber::new(second.into())?)),
        [4, 0, 0, 0, 0, 0, 0, 0] => Some(Item::Close),
        [5, record, 0, 0, 0, 0, 0, 0] => Some(Item::Wait(RecordNumber::new(record.into())?)),
        _ => None,
    }
}

/// The first `length` of some bytes, if there are so many and all after them are zero.
fn in_use(bytes: &[u8], length: usize) -> Option<&[u8]> {
    let (used, unused) = bytes.split_at_checked(length)?;
    unused.iter().all(|&byte| byte == 0).then_some(used)
}

/// Bytes that are read from the front, part after part.
struct Parts<'memory>(&'memory [u8]);

impl<'memory> Parts<'memory> {
    fn next<const N: usize>(&mut self) -> Option<&'memory [u8; N]> {
        let (part, rest) = self.0.split_first_chunk()?;
        self.0 = rest;
        Some(part)
    }
}
