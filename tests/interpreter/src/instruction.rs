//! Instructions, and the decoder.

use crate::numbers::SlotNumber;
use crate::slots::SlotSet;

/// An instruction, its operands in the order of document 01's table.
#[derive(Clone, Copy, Debug, PartialEq, Eq)]
pub enum Instruction<'code> {
    /// Pushes a number.
    Cst(i32),
    /// Pushes the value at an environment place.
    Access(u8),
    /// Pops and puts in front of the environment.
    Store,
    /// Adds.
    Add,
    /// Multiplies.
    Mul,
    /// Compares.
    Leq,
    /// put c
    Put(SlotNumber),
    /// get c
    Get(SlotNumber),
    /// split c a b
    Split(SlotNumber, SlotNumber, SlotNumber),
    /// fork c, and its two branches
    Fork(SlotNumber, Branch, Branch),
    /// plug, and its two branches, both with the same slot a
    Plug(Branch, Branch),
    /// close c
    Close(SlotNumber),
    /// halt c
    Halt(SlotNumber),
    /// same c d
    Same(SlotNumber, SlotNumber),
    /// hput c n
    HPut(SlotNumber, u8),
    /// hcase c, and its places
    HCase(SlotNumber, Places<'code>),
    /// run place n, and the listed slots
    Run(u16, u8, ListedSlots<'code>),
}

/// A branch of a fork or plug.
#[derive(Clone, Copy, Debug, PartialEq, Eq)]
pub struct Branch {
    /// The slot that gets the new end: a or b.
    pub slot: SlotNumber,
    /// The slots that the branch keeps: m.
    pub keeps: SlotSet,
    /// Where the branch goes on.
    pub place: u16,
}

impl Branch {
    fn new(slot: u8, m: u8, high: u8, low: u8) -> Self {
        Branch { slot: SlotNumber(slot), keeps: SlotSet(m), place: u16::from_be_bytes([high, low]) }
    }
}

/// The places of an hcase.
#[derive(Clone, Copy, Debug, PartialEq, Eq)]
pub struct Places<'code>(&'code [[u8; 2]]);

impl Places<'_> {
    /// Place n, from 0, if n < k.
    pub fn get(&self, n: u8) -> Option<u16> {
        self.0.get(usize::from(n)).copied().map(u16::from_be_bytes)
    }
}

/// The slots that a run lists.
#[derive(Clone, Copy, Debug, PartialEq, Eq)]
pub struct ListedSlots<'code>(&'code [u8]);

impl<'code> ListedSlots<'code> {
    /// The slots in their order.
    pub fn iter(&self) -> impl ExactSizeIterator<Item = SlotNumber> + use<'code> {
        self.0.iter().copied().map(SlotNumber)
    }
}

impl Instruction<'_> {
    /// The instruction's name, as it is printed.
    pub fn name(&self) -> &'static str {
        match self {
            Instruction::Cst(..) => "cst",
            Instruction::Access(..) => "access",
            Instruction::Store => "store",
            Instruction::Add => "add",
            Instruction::Mul => "mul",
            Instruction::Leq => "leq",
            Instruction::Put(..) => "put",
            Instruction::Get(..) => "get",
            Instruction::Split(..) => "split",
            Instruction::Fork(..) => "fork",
            Instruction::Plug(..) => "plug",
            Instruction::Close(..) => "close",
            Instruction::Halt(..) => "halt",
            Instruction::Same(..) => "same",
            Instruction::HPut(..) => "hput",
            Instruction::HCase(..) => "hcase",
            Instruction::Run(..) => "run",
        }
    }
}

/// For each first byte the length of the instruction's fixed part, 0 where no instruction begins.
pub const LENGTHS: [u8; 256] = {
    let mut lengths = [0; 256];
    lengths[0x01] = 5;
    lengths[0x02] = 2;
    lengths[0x03] = 1;
    lengths[0x04] = 1;
    lengths[0x05] = 1;
    lengths[0x06] = 1;
    lengths[0x10] = 2;
    lengths[0x11] = 2;
    lengths[0x12] = 4;
    lengths[0x13] = 10;
    lengths[0x14] = 8;
    lengths[0x15] = 2;
    lengths[0x16] = 2;
    lengths[0x17] = 3;
    lengths[0x18] = 3;
    lengths[0x19] = 3;
    lengths[0x1A] = 5;
    lengths
};

/// The instruction at a place of the code, with the place after it. None in the case of number 4: the place is not in the code,
/// the first byte begins no instruction, k is not 1 to 16, or the instruction runs past the code.
#[inline(always)]
pub fn decode(code: &[u8], place: u16) -> Option<(Instruction<'_>, u16)> {
    use Instruction::*;
    let code = code.get(usize::from(place)..)?;
    let length = LENGTHS.get(usize::from(*code.first()?)).copied().map(usize::from)?;
    let (fixed, rest) = code.split_at_checked(length)?;
    let slot = SlotNumber;
    let mut listed = 0;
    let instruction = match *fixed {
        [0x01, n0, n1, n2, n3] => Cst(i32::from_be_bytes([n0, n1, n2, n3])),
        [0x02, n] => Access(n),
        [0x03] => Store,
        [0x04] => Add,
        [0x05] => Mul,
        [0x06] => Leq,
        [0x10, c] => Put(slot(c)),
        [0x11, c] => Get(slot(c)),
        [0x12, c, a, b] => Split(slot(c), slot(a), slot(b)),
        [0x13, c, a, am, ap0, ap1, b, bm, bp0, bp1] => Fork(slot(c), Branch::new(a, am, ap0, ap1), Branch::new(b, bm, bp0, bp1)),
        [0x14, a, m, p0, p1, n, q0, q1] => Plug(Branch::new(a, m, p0, p1), Branch::new(a, n, q0, q1)),
        [0x15, c] => Close(slot(c)),
        [0x16, c] => Halt(slot(c)),
        [0x17, c, d] => Same(slot(c), slot(d)),
        [0x18, c, n] => HPut(slot(c), n),
        [0x19, c, k @ 1..=16] => {
            listed = 2 * usize::from(k);
            let (places, _) = rest.get(..listed)?.as_chunks();
            HCase(slot(c), Places(places))
        }
        [0x1A, p0, p1, n, j] => {
            listed = usize::from(j);
            Run(u16::from_be_bytes([p0, p1]), n, ListedSlots(rest.get(..listed)?))
        }
        _ => return None,
    };
    let next = usize::from(place) + length + listed;
    Some((instruction, u16::try_from(next).ok()?))
}
