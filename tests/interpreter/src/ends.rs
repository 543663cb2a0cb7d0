//! The 64 ends of channels, and their queues.

use std::collections::VecDeque;
use std::ops::{Index, IndexMut};

use crate::numbers::{ENDS, EndNumber, ITEMS, RecordNumber};
use crate::refusal::Refusal;

/// An item of a queue.
#[derive(Clone, Copy, Debug, PartialEq, Eq)]
pub enum Item {
    /// A value.
    Value(i32),
    /// A handle.
    Handle(u8),
    /// A split with two different ends: of a fork that takes it, the first branch gets the first, the second the second.
    Split(EndNumber, EndNumber),
    /// A close.
    Close,
    /// A wait naming a record.
    Wait(RecordNumber),
}

impl Item {
    /// Does it stand only last in a queue?
    pub fn stands_last(self) -> bool {
        matches!(self, Item::Split(..) | Item::Close | Item::Wait(_))
    }

    /// Is an end given up when this is the last item of its own queue?
    pub fn gives_up(self) -> bool {
        matches!(self, Item::Split(..) | Item::Close)
    }
}

/// An end of a channel: its partner and its own queue, head first. A free one has partner 0 and an empty queue.
#[derive(Clone, Debug, PartialEq, Eq)]
pub struct End {
    pub(crate) partner: EndNumber,
    pub(crate) queue: VecDeque<Item>,
}

impl End {
    /// A free end.
    pub(crate) const FREE: Self = End { partner: EndNumber::ZERO, queue: VecDeque::new() };

    /// The end at the other side of the channel.
    pub fn partner(&self) -> EndNumber {
        self.partner
    }

    /// The items queued, head first.
    pub fn queue(&self) -> &VecDeque<Item> {
        &self.queue
    }

    /// 13 if its queue has no room for a further item.
    pub(crate) fn has_room(&self) -> Result<(), Refusal> {
        if self.queue.len() < ITEMS { Ok(()) } else { Err(Refusal::QueueFull) }
    }
}

/// How many ends are free, and the lowest free end: 0 and 64 with none free.
#[derive(Clone, Copy, Debug, PartialEq, Eq)]
pub struct FreeEnds {
    /// How many ends are free.
    pub count: u32,
    /// The lowest of them.
    pub lowest: u32,
}

/// The ends, the set of the free ones, and the set of those whose pair has an item on both queues, so that a run finds the next
/// of them at once.
#[derive(Clone, Debug, PartialEq, Eq)]
pub struct Ends {
    ends: [End; ENDS],
    free: u64,
    meeting: u64,
}

impl Ends {
    /// 64 free ends.
    pub(crate) fn all_free() -> Self {
        Ends { ends: [End::FREE; ENDS], free: u64::MAX, meeting: 0 }
    }

    /// These ends, with bit e of `free` for a free end e.
    pub(crate) fn new(ends: [End; ENDS], free: u64) -> Self {
        let mut all = Ends { ends, free, meeting: 0 };
        for e in EndNumber::all() {
            if !all.is_free(e) {
                all.mark(e);
            }
        }
        all
    }

    /// Is the end free?
    pub fn is_free(&self, e: EndNumber) -> bool {
        self.free & e.bit() != 0
    }

    /// The ends in use, each with its number, upward.
    pub fn in_use(&self) -> impl Iterator<Item = (EndNumber, &End)> {
        EndNumber::all().zip(&self.ends).filter(|&(e, _)| !self.is_free(e))
    }

    /// How many ends are free, and the lowest.
    pub fn free_ends(&self) -> FreeEnds {
        FreeEnds { count: self.free.count_ones(), lowest: self.free.trailing_zeros() }
    }

    /// The set of the free ends, bit e for end e.
    pub(crate) fn free(&self) -> u64 {
        self.free
    }

    /// The set of the ends whose pair has an item on both queues, bit e for end e.
    pub(crate) fn meeting(&self) -> u64 {
        self.meeting
    }

    /// The `N` lowest free ends, upward; 15 if there are fewer.
    pub(crate) fn lowest_free<const N: usize>(&self) -> Result<[EndNumber; N], Refusal> {
        let mut lowest = [EndNumber::ZERO; N];
        let mut free = self.free;
        for e in &mut lowest {
            *e = EndNumber::new(free.trailing_zeros()).ok_or(Refusal::NothingFree)?;
            free &= !e.bit();
        }
        Ok(lowest)
    }

    /// Makes partners of two ends. Their queues stay.
    pub(crate) fn pair(&mut self, e: EndNumber, f: EndNumber) {
        self.free &= !(e.bit() | f.bit());
        self[e].partner = f;
        self[f].partner = e;
        self.mark(e);
    }

    /// Appends an item to the queue of an end.
    pub(crate) fn append(&mut self, e: EndNumber, item: Item) {
        self[e].queue.push_back(item);
        self.mark(e);
    }

    /// The heads of the two queues of a pair, this end's own first; 17 if there is none on one of them.
    pub(crate) fn heads(&self, e: EndNumber) -> Result<(Item, Item), Refusal> {
        let own = &self[e];
        let heads = own.queue.front().copied().zip(self[own.partner].queue.front().copied());
        heads.ok_or(Refusal::QueueEmpty)
    }

    /// Removes the heads of the two queues of a pair.
    pub(crate) fn remove_heads(&mut self, e: EndNumber) {
        let partner = self[e].partner;
        self[e].queue.pop_front();
        self[partner].queue.pop_front();
        self.mark(e);
    }

    /// The end becomes free.
    pub(crate) fn becomes_free(&mut self, e: EndNumber) {
        self.free |= e.bit();
        self.meeting &= !e.bit();
        self[e].partner = EndNumber::ZERO;
        self[e].queue.clear();
    }

    /// Brings the set of meeting ends up to date for the pair of an end.
    fn mark(&mut self, e: EndNumber) {
        let partner = self[e].partner;
        let pair = e.bit() | partner.bit();
        if self[e].queue.is_empty() || self[partner].queue.is_empty() {
            self.meeting &= !pair;
        } else {
            self.meeting |= pair;
        }
    }
}

impl Index<EndNumber> for Ends {
    type Output = End;

    #[expect(clippy::indexing_slicing, reason = "an end number is under 64")]
    fn index(&self, e: EndNumber) -> &End {
        &self.ends[e.index()]
    }
}

impl IndexMut<EndNumber> for Ends {
    #[expect(clippy::indexing_slicing, reason = "an end number is under 64")]
    fn index_mut(&mut self, e: EndNumber) -> &mut End {
        &mut self.ends[e.index()]
    }
}
