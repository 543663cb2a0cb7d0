//! The numbers returned by a refused call, as document 01's table has them. 0, done, is not a refusal.

use std::fmt;

/// Why a call was refused, with document 01's number.
#[derive(Clone, Copy, Debug, PartialEq, Eq)]
#[repr(u8)]
pub enum Refusal {
    /// The state isn't sound.
    NotSound = 1,
    /// Record number over 31, or record free.
    NoRecord = 2,
    /// Record waiting.
    RecordWaiting = 3,
    /// Place not in the code, first byte begins no instruction, k not 1 to 16, or instruction runs past the code.
    NoInstruction = 4,
    /// Fewer stack values than needed.
    TooFewValues = 5,
    /// Stack would pass 16 (for get: on release), or environment would.
    TooManyValues = 6,
    /// No such environment place.
    NoEnvironmentPlace = 7,
    /// A slot over 7; c, d or a listed slot empty; split: a = b, or a or b holds an end and isn't c; fork: a in its m, or b in its
    /// m; plug: a in either m.
    WrongSlot = 8,
    /// Sum or product outside 32 bits.
    Outside32Bits = 9,
    /// Ends lost or doubled.
    EndsLostOrDoubled = 10,
    /// Stack not empty at split, fork, plug, halt, same.
    StackNotEmpty = 11,
    /// Same names one slot twice, or two partners.
    SameTwice = 12,
    /// Queue to be appended to has 8 items.
    QueueFull = 13,
    /// Same: an own queue isn't empty.
    OwnQueueNotEmpty = 14,
    /// Too few free ends, or no free record.
    NothingFree = 15,
    /// End number over 63, or end free.
    NoEnd = 16,
    /// A queue of the pair is empty.
    QueueEmpty = 17,
    /// Heads don't match.
    NoMatch = 18,
    /// Fork released with no free record.
    NoRecordForFork = 19,
    /// Image length not 512 times 1 to 16.
    ImageLength = 20,
    /// Some block's check wrong.
    BlockCheck = 21,
    /// First two bytes of the image, L or block count wrong.
    ImageHead = 22,
    /// A nonzero byte after the code.
    ByteAfterCode = 23,
    /// A lent state memory has another length than the fixed one.
    MemoryLength = 24,
    /// Run: start position over 95.
    StartPosition = 25,
    /// Writing: code length not 1 to 8,156.
    CodeLength = 26,
    /// Writing: output shorter than the blocks.
    OutputTooShort = 27,
}

impl Refusal {
    /// Document 01's number.
    pub fn number(self) -> u8 {
        self as u8
    }
}

impl fmt::Display for Refusal {
    fn fmt(&self, f: &mut fmt::Formatter<'_>) -> fmt::Result {
        self.number().fmt(f)
    }
}
