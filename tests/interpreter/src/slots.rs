//! The eight local slots of a record, and sets of slots.
//!
//! The slots are what translates a local name to a global one.

use crate::numbers::{EndNumber, SLOTS, SlotNumber};

/// The local slots of a record, each empty or holding an end.
#[derive(Clone, Copy, Debug, Default, PartialEq, Eq)]
pub struct Slots(pub(crate) [Option<EndNumber>; SLOTS]);

impl Slots {
    /// The end that a slot holds; none if it is empty or over 7.
    pub fn end(&self, slot: SlotNumber) -> Option<EndNumber> {
        self.0.get(slot.index()).copied().flatten()
    }

    /// The ends that are held, each with its slot, upward.
    pub fn ends(&self) -> impl Iterator<Item = (SlotNumber, EndNumber)> {
        (0u8..).map(SlotNumber).zip(self.0).filter_map(|(slot, end)| Some((slot, end?)))
    }

    /// The slots that hold an end.
    pub fn held(&self) -> SlotSet {
        SlotSet(self.0.iter().rev().fold(0, |set, end| set << 1 | u8::from(end.is_some())))
    }

    /// Puts an end into a slot.
    pub(crate) fn set(&mut self, slot: SlotNumber, end: EndNumber) {
        if let Some(cell) = self.0.get_mut(slot.index()) {
            *cell = Some(end);
        }
    }

    /// Empties a slot.
    pub(crate) fn empty(&mut self, slot: SlotNumber) {
        if let Some(cell) = self.0.get_mut(slot.index()) {
            *cell = None;
        }
    }

    /// The slots of a set as they are, the others empty.
    pub(crate) fn only(&self, set: SlotSet) -> Slots {
        let mut slots = Slots::default();
        for (slot, end) in self.ends().filter(|&(slot, _)| set.contains(slot)) {
            slots.set(slot, end);
        }
        slots
    }
}

/// A set m of slots: bit i for slot i.
#[derive(Clone, Copy, Debug, Default, PartialEq, Eq)]
pub struct SlotSet(pub u8);

impl SlotSet {
    /// Is the slot in the set?
    pub fn contains(self, slot: SlotNumber) -> bool {
        self.0 & Self::of(slot).0 != 0
    }

    /// The set with a slot more.
    pub fn with(self, slot: SlotNumber) -> Self {
        Self(self.0 | Self::of(slot).0)
    }

    /// The set with a slot less.
    pub fn without(self, slot: SlotNumber) -> Self {
        Self(self.0 & !Self::of(slot).0)
    }

    /// Is some slot in both sets?
    pub fn overlaps(self, other: Self) -> bool {
        self.0 & other.0 != 0
    }

    /// The slots in either set.
    pub fn union(self, other: Self) -> Self {
        Self(self.0 | other.0)
    }

    /// How many slots are in it?
    pub fn count(self) -> usize {
        self.0.count_ones() as usize
    }

    /// Is no slot in it?
    pub fn is_empty(self) -> bool {
        self.0 == 0
    }

    /// The set of one slot; of none if it is over 7.
    fn of(slot: SlotNumber) -> Self {
        Self(1u8.checked_shl(u32::from(slot.0)).unwrap_or(0))
    }
}
