//! Sound state memories, built byte by byte as `docs/STATE.md` says; also such as no run reaches.

use std::ops::Range;

use crate::methods::instruction;
use crate::random::Random;

/// The bytes of the state memory.
pub const SIZE: usize = 16_902;

// Where its parts stand, and how long a record and a queue are.
pub const CODE: Range<usize> = 2..8_158;
pub const RECORDS: usize = 8_158;
pub const RECORD_SIZE: usize = 141;
pub const FREE: usize = 12_670;
pub const PARTNERS: usize = 12_678;
pub const COUNTS: usize = 12_742;
pub const QUEUES: usize = 12_806;
pub const QUEUE_SIZE: usize = 64;
pub const CELL_SIZE: usize = 8;

/// A cell of a queue.
type Cell = [u8; CELL_SIZE];

const CLOSE: Cell = [4, 0, 0, 0, 0, 0, 0, 0];

/// A record in use, as it is being built.
struct Record {
    waiting: bool,
    place: usize,
    stack: Vec<i32>,
    environment: Vec<i32>,
    slots: [Option<u8>; 8],
}

impl Record {
    fn held(&self) -> Vec<u8> {
        (0..8).filter(|&slot| self.slots[usize::from(slot)].is_some()).collect()
    }
}

/// An end in use, as it is being built.
struct End {
    number: u8,
    partner: u8,
    queue: Vec<Cell>,
}

/// A sound memory at random.
pub fn sound(random: &mut Random) -> Vec<u8> {
    let mut records: Vec<Record> = (0..few_or_all(random, 6, 32)).map(|_| registers(random)).collect();
    let mut ends = pairs(random);
    let mut held = give_up(random, &mut ends);
    if random.one_in(4) {
        records[0].slots = both_of_a_pair(&ends, &mut held);
    }
    let others = if records[0].held().is_empty() { &mut records[..] } else { &mut records[1..] };
    hand_out(random, others, &mut ends, held);
    let mut numbers: Vec<u8> = (0..32).collect();
    if random.one_in(2) {
        random.shuffle(&mut numbers);
    }
    let mut code = Vec::new();
    for (record, &number) in records.iter_mut().zip(&numbers) {
        stand(random, record, number, &mut ends, &mut code);
    }
    written(&code, numbers.iter().copied().zip(&records), &ends)
}

/// How many: mostly up to a few, else all or nearly all there are.
fn few_or_all(random: &mut Random, few: usize, all: usize) -> usize {
    if random.one_in(4) { all - random.below(3) } else { random.between(1, few) }
}

/// The stack and environment of a record.
fn registers(random: &mut Random) -> Record {
    let mut values = |sizes: &[usize]| (0..random.pick(sizes)).map(|_| random.value()).collect();
    let stack = values(&[0, 0, 0, 0, 0, 0, 0, 1, 2, 2, 3, 5, 15, 16]);
    let environment = values(&[0, 0, 0, 1, 2, 3, 15, 16]);
    Record { waiting: false, place: 0, stack, environment, slots: [None; 8] }
}

/// Pairs of ends, whose queues hold values and handles.
fn pairs(random: &mut Random) -> Vec<End> {
    let pairs = few_or_all(random, 10, 32);
    let mut numbers: Vec<u8> = (0..if random.one_in(2) { 2 * pairs as u8 } else { 64 }).collect();
    random.shuffle(&mut numbers);
    let mut ends = Vec::new();
    for pair in numbers.chunks_exact(2).take(pairs) {
        for (number, partner) in [(pair[0], pair[1]), (pair[1], pair[0])] {
            let items = random.pick(&[0, 0, 0, 0, 1, 1, 2, 3, 7, 8]);
            ends.push(End { number, partner, queue: (0..items).map(|_| datum(random)).collect() });
        }
    }
    ends
}

fn datum(random: &mut Random) -> Cell {
    if random.one_in(3) {
        return [2, random.pick(&[0, 0, 1, 2, 3, 255]), 0, 0, 0, 0, 0, 0];
    }
    let [v0, v1, v2, v3] = random.value().to_le_bytes();
    [1, v0, v1, v2, v3, 0, 0, 0]
}

/// Lets some ends be given up, by a close or by a split that carries two others; answers which stand nowhere yet.
fn give_up(random: &mut Random, ends: &mut [End]) -> Vec<usize> {
    let mut standing: Vec<usize> = (0..ends.len()).collect();
    random.shuffle(&mut standing);
    for _ in 0..random.below(ends.len() / 2 + 1) {
        let Some(end) = standing.pop() else { break };
        let last = match standing[..] {
            [.., first, second] if random.one_in(2) => {
                standing.truncate(standing.len() - 2);
                [3, ends[first].number, ends[second].number, 0, 0, 0, 0, 0]
            }
            _ => CLOSE,
        };
        ends[end].queue.truncate(7);
        ends[end].queue.push(last);
    }
    standing
}

/// Slots with both ends of a pair and no other, where there is such a pair: no run gives these to one record.
fn both_of_a_pair(ends: &[End], held: &mut Vec<usize>) -> [Option<u8>; 8] {
    let mut slots = [None; 8];
    let pair = held.iter().find_map(|&one| {
        let other = held.iter().copied().find(|&other| ends[other].number == ends[one].partner)?;
        Some((one, other))
    });
    if let Some((one, other)) = pair {
        held.retain(|&end| end != one && end != other);
        slots[0] = Some(ends[one].number);
        slots[1] = Some(ends[other].number);
    }
    slots
}

/// Puts ends into slots, and gives up those for which there is no slot.
fn hand_out(random: &mut Random, records: &mut [Record], ends: &mut [End], held: Vec<usize>) {
    for end in held {
        let slot = if random.one_in(2) { random.below(2) } else { random.below(8) };
        let record = random.below(records.len());
        match records.get_mut(record).map(|record| &mut record.slots[slot]) {
            Some(empty @ None) => *empty = Some(ends[end].number),
            _ => {
                ends[end].queue.truncate(7);
                ends[end].queue.push(CLOSE);
            }
        }
    }
}

/// Lets a record stand at an instruction, which is appended to the code: waiting, or at one that is aimed at what it holds.
fn stand(random: &mut Random, record: &mut Record, number: u8, ends: &mut [End], code: &mut Vec<u8>) {
    record.place = code.len();
    let held = record.held();
    if held.is_empty() || random.one_in(12) {
        return instruction(random, 400, code);
    }
    let c = random.pick(&held);
    let number_of_end = record.slots[usize::from(c)];
    // The kind of the item that heads the partner's queue: a wait is meant for it, where there is one.
    let head = ends.iter().find(|end| Some(end.partner) == number_of_end).and_then(|partner| Some(partner.queue.first()?[0]));
    match ends.iter_mut().find(|end| Some(end.number) == number_of_end) {
        Some(end) if random.one_in(2) && end.queue.len() < 8 => {
            record.waiting = true;
            if random.one_in(2) {
                end.queue.clear();
            }
            end.queue.push([5, number, 0, 0, 0, 0, 0, 0]);
            wait(random, record, c, &held, head, code);
        }
        _ => aimed(random, record, c, &held, code),
    }
}

/// A get, hcase or fork at which a record may wait on slot c.
fn wait(random: &mut Random, record: &mut Record, c: u8, held: &[u8], head: Option<u8>, code: &mut Vec<u8>) {
    let kind = match head {
        Some(kind @ 1..=3) if !random.one_in(4) => kind,
        _ => random.pick(&[1, 2, 3]),
    };
    match kind {
        1 => {
            record.stack.truncate(15);
            code.extend([0x11, c]);
        }
        2 => hcase(random, c, code),
        _ => {
            record.stack.clear();
            fork(random, c, held, code);
        }
    }
}

fn hcase(random: &mut Random, c: u8, code: &mut Vec<u8>) {
    let places = random.pick(&[1, 2, 3, 16]);
    code.extend([0x19, c, places]);
    (0..places).for_each(|_| code.extend([random.below(2) as u8, random.byte()]));
}

fn fork(random: &mut Random, c: u8, held: &[u8], code: &mut Vec<u8>) {
    let all = set(held) & !(1 << c);
    let (m, n) = share(random, all);
    code.extend([0x13, c]);
    for m in [m, n] {
        code.extend([outside(random, m), m, random.below(2) as u8, random.byte()]);
    }
}

/// An instruction that a record may well be able to do, or that fails for one reason.
fn aimed(random: &mut Random, record: &mut Record, c: u8, held: &[u8], code: &mut Vec<u8>) {
    let at = code.len();
    let d = random.pick(held);
    let place = [random.below(2) as u8, random.byte()];
    if random.one_in(3) {
        record.stack.clear();
    }
    // One slot is what halt (1) is for, two are what same (10) is for.
    let choice = match held.len() {
        1 if random.one_in(3) => 1,
        2 if random.one_in(3) => 10,
        _ => random.below(12),
    };
    match choice {
        0 => code.extend([0x10 + random.below(2) as u8, c]),
        1 => code.extend([0x15 + random.below(2) as u8, c]),
        2 => code.extend([0x18, c, random.byte()]),
        3 => hcase(random, c, code),
        4 | 5 => {
            let a = outside(random, set(held) & !(1 << c));
            code.extend([0x12, c, a, outside(random, set(held) & !(1 << c) | 1 << a)]);
        }
        6 | 7 => {
            fork(random, c, held, code);
            if random.one_in(6) {
                code[at + 3] |= code[at + 7];
            }
        }
        8 | 9 => {
            let (m, n) = share(random, set(held));
            let m = if random.one_in(6) { m | n } else { m };
            code.extend([0x14, outside(random, set(held)), m, place[0], place[1], n, place[1] & 1, place[1]]);
        }
        10 => code.extend([0x17, c, d]),
        _ => {
            let mut listed = held.to_vec();
            random.shuffle(&mut listed);
            if random.one_in(4) {
                listed.push(d);
            }
            code.extend([0x1A, place[0], place[1], random.below(record.stack.len() + 1) as u8, listed.len() as u8]);
            code.extend(listed);
        }
    }
    if random.one_in(6) {
        let operand = random.between(at + 1, code.len() - 1);
        code[operand] = random.pick(&[code[operand] ^ 1, code[operand].wrapping_add(1), 7, 8, 255]);
    }
}

fn set(slots: &[u8]) -> u8 {
    slots.iter().fold(0, |set, slot| set | 1 << slot)
}

/// Shares a set out between two.
fn share(random: &mut Random, all: u8) -> (u8, u8) {
    let m = all & random.byte();
    (m, all & !m)
}

/// A slot that is not in the set; any if all are.
fn outside(random: &mut Random, set: u8) -> u8 {
    let slots: Vec<u8> = (0..8).filter(|slot| set & 1 << slot == 0).collect();
    if slots.is_empty() { 0 } else { random.pick(&slots) }
}

/// The memory with this code, these records and these ends.
fn written<'a>(code: &[u8], records: impl Iterator<Item = (u8, &'a Record)>, ends: &[End]) -> Vec<u8> {
    let mut memory = vec![0; SIZE];
    memory[..2].copy_from_slice(&(code.len() as u16).to_le_bytes());
    memory[CODE][..code.len()].copy_from_slice(code);
    for (number, record) in records {
        let bytes = &mut memory[RECORDS + RECORD_SIZE * usize::from(number)..][..RECORD_SIZE];
        bytes[0] = 1 + u8::from(record.waiting);
        bytes[1..3].copy_from_slice(&(record.place as u16).to_le_bytes());
        bytes[3] = record.stack.len() as u8;
        bytes[4] = record.environment.len() as u8;
        bytes[5..13].copy_from_slice(&record.slots.map(|slot| slot.map_or(0, |end| end + 1)));
        for (from, values) in [(13, &record.stack), (77, &record.environment)] {
            let values: Vec<u8> = values.iter().flat_map(|value| value.to_le_bytes()).collect();
            bytes[from..][..values.len()].copy_from_slice(&values);
        }
    }
    memory[FREE..PARTNERS].fill(0xFF);
    for end in ends {
        let e = usize::from(end.number);
        memory[FREE + e / 8] &= !(1 << (e % 8));
        memory[PARTNERS + e] = end.partner;
        memory[COUNTS + e] = end.queue.len() as u8;
        let queue = end.queue.concat();
        memory[QUEUES + QUEUE_SIZE * e..][..queue.len()].copy_from_slice(&queue);
    }
    memory
}

#[cfg(test)]
mod tests {
    use super::*;
    use interpreter::calls;

    #[test]
    fn built_memories_are_sound() {
        for number in 0..2_000 {
            let memory = sound(&mut Random::new(1, number));
            assert!(calls::view(&memory).is_ok(), "memory {number}");
        }
    }
}
