//! Safe functions over the C interface, `include/amulingsad.h`: slices in, answers or a refusal out.

use std::error::Error;
use std::fmt;
use std::num::NonZeroU8;

/// The bytes of the state memory.
pub const STATE_SIZE: usize = 16_902;

/// A refused call: document 01's number. All lent memory is as it was.
#[derive(Clone, Copy, Debug, PartialEq, Eq)]
pub struct Refused(NonZeroU8);

impl Refused {
    /// Document 01's number.
    pub fn number(self) -> u8 {
        self.0.get()
    }
}

impl fmt::Display for Refused {
    fn fmt(&self, f: &mut fmt::Formatter<'_>) -> fmt::Result {
        write!(f, "refused {}", self.0)
    }
}

impl Error for Refused {}

/// How many ends are free, and the lowest free end, 64 if there is none.
#[derive(Clone, Copy, Debug, PartialEq, Eq)]
pub struct FreeEnds {
    pub count: u8,
    pub lowest: u8,
}

/// How a run came out.
#[derive(Clone, Copy, Debug, PartialEq, Eq)]
pub enum Verdict {
    Spent,
    Finished,
    Stuck,
}

/// What a run returns.
#[derive(Clone, Copy, Debug, PartialEq, Eq)]
pub struct Run {
    pub steps: u16,
    pub next: u8,
    pub verdict: Verdict,
}

mod c {
    // As in include/amulingsad.h; a slice is passed as its pointer and its length.
    unsafe extern "C" {
        pub fn amul_load(state: *mut u8, state_len: usize, image: *const u8, image_len: usize) -> u8;
        pub fn amul_write(code: *const u8, code_len: usize, out: *mut u8, out_len: usize) -> u8;
        pub fn amul_ask_record(state: *mut u8, state_len: usize, record: u32) -> u8;
        pub fn amul_ask_end(state: *mut u8, state_len: usize, end: u32) -> u8;
        pub fn amul_free_ends(state: *const u8, state_len: usize, count: *mut u8, lowest: *mut u8) -> u8;
        pub fn amul_run(
            state: *mut u8,
            state_len: usize,
            budget: u16,
            start: u32,
            steps: *mut u16,
            next: *mut u8,
            verdict: *mut u8,
        ) -> u8;
    }
}

/// Done, or refused with this number.
fn answer(number: u8) -> Result<(), Refused> {
    NonZeroU8::new(number).map_or(Ok(()), |number| Err(Refused(number)))
}

// SAFETY, of every call below: the pointers come from slices and references, so they are valid for the lengths that are passed with
// them, and what is lent to be written is borrowed as `&mut`, so nothing overlaps it. The library keeps none of them.

/// Fills the state memory with the start state and the code of an image; 24, 20 to 23.
pub fn load(state: &mut [u8], image: &[u8]) -> Result<(), Refused> {
    answer(unsafe { c::amul_load(state.as_mut_ptr(), state.len(), image.as_ptr(), image.len()) })
}

/// Writes the image of a code to the front of `out`; 26, 27.
pub fn write(code: &[u8], out: &mut [u8]) -> Result<(), Refused> {
    answer(unsafe { c::amul_write(code.as_ptr(), code.len(), out.as_mut_ptr(), out.len()) })
}

/// Asks a record for a step; 24, 1, 2 to 15.
pub fn ask_record(state: &mut [u8], record: u32) -> Result<(), Refused> {
    answer(unsafe { c::amul_ask_record(state.as_mut_ptr(), state.len(), record) })
}

/// Asks an end for a step; 24, 1, 16 to 19.
pub fn ask_end(state: &mut [u8], end: u32) -> Result<(), Refused> {
    answer(unsafe { c::amul_ask_end(state.as_mut_ptr(), state.len(), end) })
}

/// How many ends are free, and the lowest; 24, 1.
pub fn free_ends(state: &[u8]) -> Result<FreeEnds, Refused> {
    let mut free = FreeEnds { count: 0, lowest: 0 };
    answer(unsafe { c::amul_free_ends(state.as_ptr(), state.len(), &mut free.count, &mut free.lowest) })?;
    Ok(free)
}

/// A run with a budget of steps, from a start position; 24, 1, 25.
pub fn run(state: &mut [u8], budget: u16, start: u32) -> Result<Run, Refused> {
    let (mut steps, mut next, mut verdict) = (0, 0, 0);
    answer(unsafe { c::amul_run(state.as_mut_ptr(), state.len(), budget, start, &mut steps, &mut next, &mut verdict) })?;
    let verdict = match verdict {
        0 => Verdict::Spent,
        1 => Verdict::Finished,
        _ => Verdict::Stuck,
    };
    Ok(Run { steps, next, verdict })
}
