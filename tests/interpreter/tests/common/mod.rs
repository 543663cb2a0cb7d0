//! What the tests share: images of codes, state memories written byte by byte as `docs/STATE.md` says, and numbers at random.

#![allow(dead_code)]

use interpreter::image;
use interpreter::refusal::Refusal;
use interpreter::state::State;

/// The bytes of the state memory.
pub const SIZE: usize = 16_902;

pub const RUNNING: u8 = 1;
pub const WAITING: u8 = 2;

/// The code of document 01's one run in full.
pub const ONE_RUN: [u8; 22] = [
    0x14, 0x00, 0x00, 0x00, 0x08, 0x00, 0x00, 0x11, 0x01, 0x00, 0x00, 0x00, 0x04, 0x10, 0x00, 0x16, 0x00, 0x11, 0x00, 0x03, 0x16,
    0x00,
];

/// The image of a code.
pub fn image_of(code: &[u8]) -> Vec<u8> {
    let mut output = vec![0; 8_192];
    let length = image::write(code, &mut output).unwrap();
    output.truncate(length);
    output
}

/// The start state with a code.
pub fn loaded(code: &[u8]) -> State {
    State::load(&image_of(code)).unwrap()
}

/// Document 01's number of an answer, 0 for done.
pub fn number<T>(answer: Result<T, Refusal>) -> u8 {
    answer.map_or_else(Refusal::number, |_| 0)
}

/// An item of a queue, as its cell holds it.
pub type Cell = [u8; 8];

pub fn value(value: i32) -> Cell {
    let [v0, v1, v2, v3] = value.to_le_bytes();
    [1, v0, v1, v2, v3, 0, 0, 0]
}

pub fn handle(n: u8) -> Cell {
    [2, n, 0, 0, 0, 0, 0, 0]
}

pub fn split(first: u8, second: u8) -> Cell {
    [3, first, second, 0, 0, 0, 0, 0]
}

pub const CLOSE: Cell = [4, 0, 0, 0, 0, 0, 0, 0];

pub fn wait(record: u8) -> Cell {
    [5, record, 0, 0, 0, 0, 0, 0]
}

/// A record as a test names it: stack top first, environment newest first, each slot with its end.
pub struct Rec<'a> {
    pub status: u8,
    pub place: u16,
    pub stack: &'a [i32],
    pub environment: &'a [i32],
    pub slots: &'a [(usize, u8)],
}

impl Default for Rec<'_> {
    fn default() -> Self {
        Rec { status: RUNNING, place: 0, stack: &[], environment: &[], slots: &[] }
    }
}

/// A memory with a code, no record and 64 free ends.
pub fn memory(code: &[u8]) -> Vec<u8> {
    let mut memory = vec![0; SIZE];
    memory[..2].copy_from_slice(&(code.len() as u16).to_le_bytes());
    memory[2..2 + code.len()].copy_from_slice(code);
    memory[12_670..12_678].fill(0xFF);
    memory
}

/// Where a record stands in the memory.
pub fn record_at(r: usize) -> usize {
    8_158 + 141 * r
}

/// Where a cell of the queue of an end stands in the memory.
pub fn cell_at(e: usize, i: usize) -> usize {
    12_806 + 64 * e + 8 * i
}

/// Puts a record into a memory.
pub fn put_record(memory: &mut [u8], r: usize, record: Rec<'_>) {
    let bytes = &mut memory[record_at(r)..][..141];
    bytes.fill(0);
    bytes[0] = record.status;
    bytes[1..3].copy_from_slice(&record.place.to_le_bytes());
    bytes[3] = record.stack.len() as u8;
    bytes[4] = record.environment.len() as u8;
    for &(slot, end) in record.slots {
        bytes[5 + slot] = end + 1;
    }
    for (i, v) in record.stack.iter().take(16).enumerate() {
        bytes[13 + 4 * i..][..4].copy_from_slice(&v.to_le_bytes());
    }
    for (i, v) in record.environment.iter().take(16).enumerate() {
        bytes[77 + 4 * i..][..4].copy_from_slice(&v.to_le_bytes());
    }
}

/// Puts an end in use into a memory, with its partner and its queue, head first.
pub fn put_end(memory: &mut [u8], e: usize, partner: u8, queue: &[Cell]) {
    memory[12_670 + e / 8] &= !(1 << (e % 8));
    memory[12_678 + e] = partner;
    memory[12_742 + e] = queue.len() as u8;
    for (i, cell) in queue.iter().take(8).enumerate() {
        memory[cell_at(e, i)..][..8].copy_from_slice(cell);
    }
}

/// Numbers at random, the same each time.
pub struct Random(u64);

impl Random {
    pub fn new(seed: u64) -> Self {
        Random(seed.wrapping_mul(0x9E37_79B9_7F4A_7C15) | 1)
    }

    /// A number below `limit`.
    pub fn below(&mut self, limit: usize) -> usize {
        self.0 ^= self.0 << 13;
        self.0 ^= self.0 >> 7;
        self.0 ^= self.0 << 17;
        (self.0.wrapping_mul(0x2545_F491_4F6C_DD1D) >> 33) as usize % limit
    }

    pub fn byte(&mut self) -> u8 {
        self.below(256) as u8
    }
}

/// A code at random: instructions with operands that are often right, so that runs go somewhere.
pub fn random_code(random: &mut Random) -> Vec<u8> {
    let length = 20 + random.below(200);
    let mut code = Vec::new();
    while code.len() < length {
        let slot = |random: &mut Random| if random.below(20) == 0 { random.byte() } else { random.below(3) as u8 };
        let place = |random: &mut Random| (random.below(length) as u16).to_be_bytes();
        match random.below(18) {
            0 | 1 => code.extend([0x01, 0, 0, 0, random.byte()]),
            2 => code.extend([0x02, random.below(3) as u8]),
            3 => code.push(0x03 + random.below(4) as u8),
            4 | 5 => code.extend([0x10, slot(random)]),
            6 | 7 => code.extend([0x11, slot(random)]),
            8 => code.extend([0x12, slot(random), slot(random), slot(random)]),
            9 => {
                let (p, q) = (place(random), place(random));
                let m = random.below(8) as u8;
                code.extend([0x13, slot(random), slot(random), m, p[0], p[1], slot(random), random.below(8) as u8, q[0], q[1]]);
            }
            10..=12 => {
                let (p, q) = (place(random), place(random));
                let m = random.below(4) as u8;
                code.extend([0x14, slot(random), m, p[0], p[1], random.below(2) as u8, q[0], q[1]]);
            }
            13 => code.extend([0x15 + random.below(2) as u8, slot(random)]),
            14 => code.extend([0x17, slot(random), slot(random)]),
            15 => code.extend([0x18, slot(random), random.below(3) as u8]),
            16 => {
                let p = place(random);
                code.extend([0x19, slot(random), 1, p[0], p[1]]);
            }
            _ => {
                let p = place(random);
                code.extend([0x1A, p[0], p[1], random.below(2) as u8, 1, slot(random)]);
            }
        }
    }
    code
}
