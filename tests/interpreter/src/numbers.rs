//! The limits of document 01, and the numbers of slots, ends and records.
//!
//! The three numbers are three types, so that one is never taken for another. A record number and an end number are within their
//! limits from the start. A slot number comes out of the code as it stands there and may be over 7.

/// Process records.
pub const RECORDS: usize = 32;

/// Ends of channels.
pub const ENDS: usize = 64;

/// Local slots of a record.
pub const SLOTS: usize = 8;

/// Values that a stack may have, and an environment.
pub const VALUES: usize = 16;

/// Items that a queue may have.
pub const ITEMS: usize = 8;

/// Bytes that the code may have.
pub const CODE: usize = 8_156;

/// The number of a process record, 0 to 31.
#[derive(Clone, Copy, Debug, PartialEq, Eq)]
pub struct RecordNumber(u8);

impl RecordNumber {
    /// Record 0, which a start state has running.
    pub(crate) const ZERO: Self = Self(0);

    /// The record number `number`, if there is such a record.
    pub fn new(number: u32) -> Option<Self> {
        u8::try_from(number).ok().filter(|&n| usize::from(n) < RECORDS).map(Self)
    }

    /// All of them, upward.
    pub fn all() -> impl Iterator<Item = Self> {
        (0..RECORDS as u8).map(Self)
    }

    /// The plain number.
    pub fn number(self) -> u8 {
        self.0
    }

    /// Where the record stands among all records.
    pub(crate) fn index(self) -> usize {
        usize::from(self.0)
    }

    /// The set of this record alone.
    pub(crate) fn bit(self) -> u32 {
        1 << self.0
    }
}

/// The number of an end, 0 to 63: the notes' global name.
#[derive(Clone, Copy, Debug, PartialEq, Eq)]
pub struct EndNumber(u8);

impl EndNumber {
    /// End 0, which also fills the cells that are not in use.
    pub(crate) const ZERO: Self = Self(0);

    /// The end number `number`, if there is such an end.
    pub fn new(number: u32) -> Option<Self> {
        u8::try_from(number).ok().filter(|&n| usize::from(n) < ENDS).map(Self)
    }

    /// All of them, upward.
    pub fn all() -> impl Iterator<Item = Self> {
        (0..ENDS as u8).map(Self)
    }

    /// The plain number.
    pub fn number(self) -> u8 {
        self.0
    }

    /// Where the end stands among all ends.
    pub(crate) fn index(self) -> usize {
        usize::from(self.0)
    }

    /// The set of this end alone.
    pub(crate) fn bit(self) -> u64 {
        1 << self.0
    }
}

/// The number of a local slot as the code names it, 0 to 255: the notes' local name. There are slots 0 to 7.
#[derive(Clone, Copy, Debug, PartialEq, Eq)]
pub struct SlotNumber(pub u8);

impl SlotNumber {
    /// Is it over 7?
    pub fn is_over_7(self) -> bool {
        self.index() >= SLOTS
    }

    /// Where the slot stands among the slots of its record.
    pub(crate) fn index(self) -> usize {
        usize::from(self.0)
    }
}
