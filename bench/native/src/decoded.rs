//! The code, decoded once for every place.

/// The set of slots that a branch keeps, the slot of its new end, and where it goes on.
#[derive(Clone, Copy)]
pub struct Branch {
    pub slot: u8,
    pub keeps: u8,
    pub place: u16,
}

/// An instruction. Of hcase and run, `at` is where the list begins in the code.
#[derive(Clone, Copy)]
pub enum Instruction {
    /// No instruction begins here, or it runs past the code.
    Nothing,
    Cst(i32),
    Access(u8),
    Store,
    Add,
    Mul,
    Leq,
    Put(u8),
    Get(u8),
    Split(u8, u8, u8),
    Fork(u8, Branch, Branch),
    Plug(Branch, Branch),
    Close(u8),
    Halt(u8),
    Same(u8, u8),
    HPut(u8, u8),
    HCase {
        c: u8,
        places: u8,
        at: u16,
    },
    Run {
        place: u16,
        values: u8,
        slots: u8,
        at: u16,
    },
}

/// The instruction at each place of a code, with the place after it.
pub fn decoded(code: &[u8]) -> Vec<(Instruction, u16)> {
    (0..code.len()).map(|place| decode(code, place).unwrap_or((Instruction::Nothing, 0))).collect()
}

fn decode(code: &[u8], place: usize) -> Option<(Instruction, u16)> {
    use Instruction::*;
    let place_of = |high: u8, low: u8| u16::from_be_bytes([high, low]);
    let branch = |slot, keeps, high, low| Branch { slot, keeps, place: place_of(high, low) };
    let (instruction, length) = match code[place..] {
        [0x01, a, b, c, d, ..] => (Cst(i32::from_be_bytes([a, b, c, d])), 5),
        [0x02, n, ..] => (Access(n), 2),
        [0x03, ..] => (Store, 1),
        [0x04, ..] => (Add, 1),
        [0x05, ..] => (Mul, 1),
        [0x06, ..] => (Leq, 1),
        [0x10, c, ..] => (Put(c), 2),
        [0x11, c, ..] => (Get(c), 2),
        [0x12, c, a, b, ..] => (Split(c, a, b), 4),
        [0x13, c, a, m, p, q, b, n, s, t, ..] => (Fork(c, branch(a, m, p, q), branch(b, n, s, t)), 10),
        [0x14, a, m, p, q, n, s, t, ..] => (Plug(branch(a, m, p, q), branch(a, n, s, t)), 8),
        [0x15, c, ..] => (Close(c), 2),
        [0x16, c, ..] => (Halt(c), 2),
        [0x17, c, d, ..] => (Same(c, d), 3),
        [0x18, c, n, ..] => (HPut(c, n), 3),
        [0x19, c, places @ 1..=16, ..] => (HCase { c, places, at: place as u16 + 3 }, 3 + 2 * usize::from(places)),
        [0x1A, p, q, values, slots, ..] => {
            (Run { place: place_of(p, q), values, slots, at: place as u16 + 5 }, 5 + usize::from(slots))
        }
        _ => return None,
    };
    let next = place + length;
    (next <= code.len()).then_some((instruction, next as u16))
}
