//! Sound: S2 to S5.
//!
//! S1 is met by every [`State`]: numbers are within their limits by their types, and counts, code length and unused cells are
//! tested where bytes are read ([`crate::memory::read`]), the only place where they could be wrong.

use crate::ends::Item;
use crate::instruction::{Instruction, decode};
use crate::numbers::{ENDS, EndNumber, RecordNumber};
use crate::record_step::{may_fork, may_get, may_hcase};
use crate::records::Status;
use crate::state::State;

/// Is the state sound? So is every state that can be held; [`crate::memory::read`] asks it of what it has read.
pub fn sound(state: &State) -> bool {
    s2(state) && s3(state) && s4(state) && s5(state)
}

/// (S2) An end in use has a partner other than itself, whose partner it is. A free end is nobody's partner.
pub fn s2(state: &State) -> bool {
    state.ends.in_use().all(|(e, end)| {
        let partner = end.partner;
        partner != e && !state.ends.is_free(partner) && state.ends[partner].partner == e
    })
}

/// (S3) Each end in use is in exactly one of: one slot of one record in use, one split item, or given up; given up exactly when
/// the last item of its own queue is a close or a split. Free ends stand nowhere. (That their queues are empty is part of S1.)
pub fn s3(state: &State) -> bool {
    let mut stands = [0u32; ENDS];
    let mut stand = |e: EndNumber| {
        if let Some(count) = stands.get_mut(e.index()) {
            *count += 1;
        }
    };
    for (_, record) in state.records.in_use() {
        record.slots.ends().for_each(|(_, e)| stand(e));
    }
    for (e, end) in state.ends.in_use() {
        for item in &end.queue {
            if let Item::Split(first, second) = *item {
                stand(first);
                stand(second);
            }
        }
        if end.queue.back().is_some_and(|last| last.gives_up()) {
            stand(e);
        }
    }
    EndNumber::all().zip(stands).all(|(e, count)| count == u32::from(!state.ends.is_free(e)))
}

/// (S4) Wait, close and split stand only last in a queue; each waiting record is named by exactly one wait item, on an end it
/// holds, and running or free ones by none.
pub fn s4(state: &State) -> bool {
    let only_last = state.ends.in_use().all(|(_, end)| !end.queue.iter().rev().skip(1).any(|item| item.stands_last()));
    let on_held_ends = waits(state).all(|(r, e)| state.records[r].slots.ends().any(|(_, held)| held == e));
    let each_once = state.records.iter().all(|(r, record)| {
        let named = waits(state).filter(|&(named, _)| named == r).count();
        named == usize::from(record.status == Status::Waiting)
    });
    only_last && on_held_ends && each_once
}

/// (S5) A waiting record stands at a get, hcase or fork naming that end's slot, and none of the causes 4, 6, 8, 10, 11 holds there.
pub fn s5(state: &State) -> bool {
    waits(state).all(|(r, e)| {
        let record = &state.records[r];
        let awaited = match decode(&state.code, record.place) {
            Some((Instruction::Get(c), _)) => may_get(record, c),
            Some((Instruction::HCase(c, _), _)) => may_hcase(record, c),
            Some((Instruction::Fork(c, first, second), _)) => may_fork(record, c, first, second),
            _ => return false,
        };
        awaited == Ok(e)
    })
}

/// The wait items: the record that each names, and the end on whose queue it stands.
fn waits(state: &State) -> impl Iterator<Item = (RecordNumber, EndNumber)> {
    state.ends.in_use().flat_map(|(e, end)| {
        end.queue.iter().filter_map(move |item| match *item {
            Item::Wait(r) => Some((r, e)),
            _ => None,
        })
    })
}
