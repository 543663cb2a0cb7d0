//! The calls on a lent state memory.
//!
//! Each tests the memory's length first (24), then whether its state is sound (1, not for loading), then the rest. A refused call
//! leaves the memory as found.

use crate::ends::{FreeEnds, Item};
use crate::memory::{self, STATE_SIZE};
use crate::refusal::Refusal;
use crate::run::{Run, Step};
use crate::state::State;

/// Fills the memory with the start state and the code of an image; 24, 20 to 23.
pub fn load(memory: &mut [u8], image: &[u8]) -> Result<(), Refusal> {
    of_right_length(memory)?;
    let state = State::load(image)?;
    fill(memory, &state);
    Ok(())
}

/// Asks a record for a step: the name of the instruction done, or 24, 1, 2 to 15.
pub fn ask_record(memory: &mut [u8], number: u32) -> Result<&'static str, Refusal> {
    change(memory, |state| state.ask_record(number))
}

/// Asks an end for a step: the value, handle, split or close that was taken, or 24, 1, 16 to 19.
pub fn ask_end(memory: &mut [u8], number: u32) -> Result<Item, Refusal> {
    change(memory, |state| state.ask_end(number))
}

/// A run; 24, 1, 25.
pub fn run(memory: &mut [u8], budget: u16, start: u32) -> Result<Run, Refusal> {
    run_watched(memory, budget, start, |_| {})
}

/// The same run, each step shown to `watch`.
pub fn run_watched(memory: &mut [u8], budget: u16, start: u32, watch: impl FnMut(Step)) -> Result<Run, Refusal> {
    change(memory, |state| state.run_watched(budget, start, watch))
}

/// How many ends are free, and the lowest free end; 24, 1.
pub fn free_ends(memory: &[u8]) -> Result<FreeEnds, Refusal> {
    Ok(view(memory)?.free_ends())
}

/// The state that a memory holds; 24, 1.
pub fn view(memory: &[u8]) -> Result<State, Refusal> {
    memory::read(of_right_length(memory)?).ok_or(Refusal::NotSound)
}

/// Changes the state that a memory holds, unless the change is refused.
fn change<T>(memory: &mut [u8], change: impl FnOnce(&mut State) -> Result<T, Refusal>) -> Result<T, Refusal> {
    let mut state = view(memory)?;
    let answer = change(&mut state)?;
    fill(memory, &state);
    Ok(answer)
}

/// The memory, or 24.
fn of_right_length(memory: &[u8]) -> Result<&[u8; STATE_SIZE], Refusal> {
    memory.try_into().map_err(|_| Refusal::MemoryLength)
}

fn fill(memory: &mut [u8], state: &State) {
    for (cell, byte) in memory.iter_mut().zip(memory::write(state)) {
        *cell = byte;
    }
}
