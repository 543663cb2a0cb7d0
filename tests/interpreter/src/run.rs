//! Runs: positions, steps in their order, and the verdict.

use std::fmt;

use crate::ends::Item;
use crate::numbers::{ENDS, EndNumber, RECORDS, RecordNumber};
use crate::refusal::Refusal;
use crate::state::State;

/// Positions: 0 to 31 are records, 32 to 95 are ends 0 to 63.
pub const POSITIONS: usize = RECORDS + ENDS;

/// A step that was made: what was asked, and what it did.
#[derive(Clone, Copy, Debug, PartialEq, Eq)]
pub enum Step {
    /// A record did the instruction of this name.
    Record(RecordNumber, &'static str),
    /// At an end this value, handle, split or close was taken.
    End(EndNumber, Item),
}

impl Step {
    /// The position that was asked.
    pub fn position(&self) -> u32 {
        match *self {
            Step::Record(r, _) => u32::from(r.number()),
            Step::End(e, _) => RECORDS as u32 + u32::from(e.number()),
        }
    }
}

/// How a run came out.
#[derive(Clone, Copy, Debug, PartialEq, Eq)]
pub enum Verdict {
    /// Something can step.
    Spent,
    /// Nothing can step, and no record and no end is in use.
    Finished,
    /// Nothing can step, and some record or some end is in use.
    Stuck,
}

impl fmt::Display for Verdict {
    fn fmt(&self, f: &mut fmt::Formatter<'_>) -> fmt::Result {
        f.write_str(match self {
            Verdict::Spent => "spent",
            Verdict::Finished => "finished",
            Verdict::Stuck => "stuck",
        })
    }
}

/// What a run returns.
#[derive(Clone, Copy, Debug, PartialEq, Eq)]
pub struct Run {
    /// The steps made.
    pub steps: u16,
    /// The position after the last one taken, or the given one if no step was made.
    pub next: u32,
    /// How it came out, judged on the state reached.
    pub verdict: Verdict,
}

impl State {
    /// A run with a budget of steps, from a start position; 25 if that is over 95.
    pub fn run(&mut self, budget: u16, start: u32) -> Result<Run, Refusal> {
        self.run_watched(budget, start, |_| {})
    }

    /// The same run, each step shown to `watch`.
    pub fn run_watched(&mut self, budget: u16, start: u32, mut watch: impl FnMut(Step)) -> Result<Run, Refusal> {
        if start >= POSITIONS as u32 {
            return Err(Refusal::StartPosition); // 25
        }
        let mut run = Run { steps: 0, next: start, verdict: Verdict::Spent };
        while run.steps < budget {
            let Some(step) = self.first_step(run.next) else {
                return Ok(Run { verdict: self.verdict_at_rest(), ..run });
            };
            watch(step);
            run.steps += 1;
            run.next = (step.position() + 1) % POSITIONS as u32;
        }
        if self.clone().first_step(run.next).is_none() {
            run.verdict = self.verdict_at_rest();
        }
        Ok(run)
    }

    /// The step of the first position that can step, searching upward from a position and around.
    fn first_step(&mut self, from: u32) -> Option<Step> {
        let mut candidates = self.candidates();
        while candidates != 0 {
            let upward = candidates & u128::MAX << from;
            let position = if upward != 0 { upward.trailing_zeros() } else { candidates.trailing_zeros() };
            if let Some(step) = self.step(position) {
                return Some(step);
            }
            candidates &= !(1 << position);
        }
        None
    }

    /// The step of a position, if it can step.
    fn step(&mut self, position: u32) -> Option<Step> {
        if let Some(r) = RecordNumber::new(position) {
            Some(Step::Record(r, self.step_record(r).ok()?))
        } else {
            let e = EndNumber::new(position - RECORDS as u32)?;
            Some(Step::End(e, self.step_end(e).ok()?))
        }
    }

    /// The positions that are worth asking: running records, and ends whose pair has an item on both queues. All others would be
    /// refused with 2, 3, 16 or 17.
    fn candidates(&self) -> u128 {
        u128::from(self.records.running()) | u128::from(self.ends.meeting()) << RECORDS
    }

    /// The verdict where nothing can step.
    fn verdict_at_rest(&self) -> Verdict {
        let nothing_in_use = self.records.in_use().next().is_none() && self.ends.in_use().next().is_none();
        if nothing_in_use { Verdict::Finished } else { Verdict::Stuck }
    }
}
