//! A step at an end.
//!
//! Asked by either end of a pair: the two heads must match, whichever queue each of them heads, and both are removed.

use crate::ends::Item;
use crate::instruction::{Instruction, decode};
use crate::numbers::{EndNumber, RecordNumber};
use crate::refusal::Refusal;
use crate::state::State;

impl State {
    /// Asks an end for a step: the value, handle, split or close that was taken, or 16 to 19.
    pub fn ask_end(&mut self, number: u32) -> Result<Item, Refusal> {
        let e = EndNumber::new(number).ok_or(Refusal::NoEnd)?; // 16
        self.step_end(e)
    }

    /// A step at end e.
    pub(crate) fn step_end(&mut self, e: EndNumber) -> Result<Item, Refusal> {
        if self.ends.is_free(e) {
            return Err(Refusal::NoEnd); // 16
        }
        let heads = self.ends.heads(e)?; // 17
        match heads {
            (Item::Close, Item::Close) => {
                self.free_pair(e);
                Ok(Item::Close)
            }
            (Item::Wait(r), datum) | (datum, Item::Wait(r)) => {
                self.release(e, r, datum)?;
                Ok(datum)
            }
            _ => Err(Refusal::NoMatch), // 18
        }
    }

    /// The heads of the pair of e are a datum and the wait of record r: the record runs on if they match.
    fn release(&mut self, e: EndNumber, r: RecordNumber, datum: Item) -> Result<(), Refusal> {
        let State { code, records, ends } = self;
        let (instruction, next) = decode(code, records[r].place).ok_or(Refusal::NoMatch)?; // 18
        match (datum, instruction) {
            (Item::Value(value), Instruction::Get(_)) => {
                records[r].stack.push(value);
                records.goes_on(r, next);
                ends.remove_heads(e);
            }
            (Item::Handle(n), Instruction::HCase(_, places)) => {
                let place = places.get(n).ok_or(Refusal::NoMatch)?; // 18
                records.goes_on(r, place);
                ends.remove_heads(e);
            }
            (Item::Split(q, s), Instruction::Fork(_, first, second)) => {
                let other = records.lowest_free().ok_or(Refusal::NoRecordForFork)?; // 19
                records.branch(r, other, (first, q), (second, s));
                self.free_pair(e);
            }
            _ => return Err(Refusal::NoMatch), // 18
        }
        Ok(())
    }

    /// Removes the heads of a pair, which are the last of their queues, and frees both its ends.
    fn free_pair(&mut self, e: EndNumber) {
        let partner = self.ends[e].partner;
        self.ends.becomes_free(e);
        self.ends.becomes_free(partner);
    }
}
