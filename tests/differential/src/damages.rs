//! Damages to sound memories: bytes that are poked into them.

use crate::memories::{CELL_SIZE, CODE, COUNTS, FREE, PARTNERS, QUEUE_SIZE, QUEUES, RECORD_SIZE, RECORDS, SIZE};
use crate::random::Random;

/// Changes of some bytes: where, and what is written there. Most of them make a sound memory unsound.
pub fn damage(random: &mut Random, memory: &[u8]) -> Vec<(usize, Vec<u8>)> {
    match random.below(9) {
        0..=2 => exchange(random, memory),
        3 => half_freed(random, memory),
        _ => vec![change(random, memory)],
    }
}

/// Frees an end and empties its slot; its partner keeps it as its own. This is harder to see where the partner is end 0, as the zero
/// cell of a free end reads like that number.
fn half_freed(random: &mut Random, memory: &[u8]) -> Vec<(usize, Vec<u8>)> {
    let e = if random.one_in(2) { random.below(64) } else { usize::from(memory[PARTNERS]) };
    let records = RECORDS..FREE;
    let slot = records.step_by(RECORD_SIZE).flat_map(|at| at + 5..at + 13).find(|&at| usize::from(memory[at]) == e + 1);
    let mut changes = vec![
        (FREE + e / 8, vec![memory[FREE + e / 8] | 1 << (e % 8)]),
        (PARTNERS + e, vec![0]),
        (COUNTS + e, vec![0]),
        (QUEUES + QUEUE_SIZE * e, vec![0; QUEUE_SIZE]),
    ];
    changes.extend(slot.map(|at| (at, vec![0])));
    changes
}

/// Exchanges two parts of the same kind that are in use: slots, statuses, places, partners, whole queues, or head and last of a queue.
fn exchange(random: &mut Random, memory: &[u8]) -> Vec<(usize, Vec<u8>)> {
    let (records, ends) = (records_in_use(memory), ends_in_use(memory));
    let mut slots: Vec<usize> = records.iter().flat_map(|at| at + 5..at + 13).collect();
    if random.one_in(2) {
        slots.retain(|&at| memory[at] != 0);
    }
    let slots = if slots.is_empty() { &records } else { &slots };
    let (record, other) = (random.pick(&records), random.pick(&records));
    let (end, partner) = (random.pick(&ends), random.pick(&ends));
    let queue = QUEUES + QUEUE_SIZE * end;
    let last = usize::from(memory[COUNTS + end]).saturating_sub(1);
    let parts = match random.below(8) {
        0 | 1 => vec![(random.pick(slots), random.pick(slots), 1)],
        2 => vec![(record, other, random.between(1, 4))],
        3 => vec![(record + 1, other + 1, 2)],
        4 => vec![(PARTNERS + end, PARTNERS + partner, 1)],
        5 => vec![(COUNTS + end, COUNTS + partner, 1), (queue, QUEUES + QUEUE_SIZE * partner, QUEUE_SIZE)],
        _ => vec![(queue, queue + CELL_SIZE * last, CELL_SIZE)],
    };
    let copy = |to: usize, from: usize, size: usize| (to, memory[from..from + size].to_vec());
    parts.into_iter().flat_map(|(one, other, size)| [copy(one, other, size), copy(other, one, size)]).collect()
}

/// Where the records in use begin.
fn records_in_use(memory: &[u8]) -> Vec<usize> {
    (RECORDS..FREE).step_by(RECORD_SIZE).filter(|&at| memory[at] != 0).collect()
}

/// The ends in use.
fn ends_in_use(memory: &[u8]) -> Vec<usize> {
    (0..64).filter(|e| memory[FREE + e / 8] & 1 << (e % 8) == 0).collect()
}

/// Changes one byte, most often of something that is in use.
fn change(random: &mut Random, memory: &[u8]) -> (usize, Vec<u8>) {
    let record = if random.one_in(5) { RECORDS + RECORD_SIZE * random.below(32) } else { random.pick(&records_in_use(memory)) };
    let e = if random.one_in(5) { random.below(64) } else { random.pick(&ends_in_use(memory)) };
    let items = usize::from(memory[COUNTS + e]);
    let cell = QUEUES + QUEUE_SIZE * e + CELL_SIZE * if random.one_in(4) { random.below(8) } else { random.below(items) };
    let at = match random.below(16) {
        0 => random.below(2),
        1 => CODE.start + random.below(60),
        2 => CODE.start + random.below(CODE.len()),
        3 => record,
        4 => record + random.between(1, 2),
        5 => record + random.between(3, 4),
        6 | 7 => record + random.between(5, 12),
        8 => record + random.between(13, RECORD_SIZE - 1),
        9 => FREE + e / 8,
        10 => PARTNERS + e,
        11 => COUNTS + e,
        12 => cell,
        13 => cell + 1,
        14 => cell + random.between(2, 7),
        _ => random.below(SIZE),
    };
    let old = memory[at];
    let new = match random.below(7) {
        0 => old.wrapping_add(1),
        1 => old.wrapping_sub(1),
        2 => old ^ 1 << random.below(8),
        3 => 0,
        4 => random.below(7) as u8,
        // What stands in the next place of this kind: an end held twice, a partner of two.
        5 => memory[(at + 1).min(SIZE - 1)],
        _ => random.byte(),
    };
    (at, vec![new])
}

#[cfg(test)]
mod tests {
    use super::*;
    use crate::memories::sound;
    use interpreter::calls;

    #[test]
    fn most_damages_are_seen() {
        let (mut seen, mut unseen) = (0, 0);
        for number in 0..1_000 {
            let mut random = Random::new(2, number);
            let mut memory = sound(&mut random);
            for (at, new) in damage(&mut random, &memory) {
                memory[at..at + new.len()].copy_from_slice(&new);
            }
            *if calls::view(&memory).is_ok() { &mut unseen } else { &mut seen } += 1;
        }
        assert!(seen > unseen && unseen > 100, "{seen} seen, {unseen} not");
    }
}
