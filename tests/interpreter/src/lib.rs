//! An ordinary interpreter of document 01, with native structures and nothing else.
//!
//! It stands beside the proved machine for two uses: as the other side of tests that compare the two, and as the measure of
//! speed. It was written from document 01 and from the byte tables of `docs/STATE.md`, not from the definitions in `crates/`.
//!
//! The modules follow document 01's sections:
//!
//! | section | module |
//! |---|---|
//! | The state | [`numbers`], [`slots`], [`records`], [`ends`], [`state`] |
//! | Sound, S1 to S5 | [`soundness`]; S1 on bytes is in [`memory`] |
//! | Instructions | [`instruction`] |
//! | A step of a record | [`record_step`] |
//! | A step at an end | [`end_step`] |
//! | Numbers returned | [`refusal`] |
//! | Runs | [`run`] |
//! | Method image | [`image`] |
//! | One run in full | [`printing`] |
//!
//! [`memory`] writes a state as the 16,902 bytes of the state memory and reads one back, [`calls`] are the calls on such a lent
//! memory, and [`console`] answers commands, one a line.
//!
//! A [`State`](state::State) is sound from the moment that anybody can hold it: it is loaded from an image or read from a memory
//! that was tested, and every step keeps it so. Number 1 is therefore given where bytes come in, and nowhere else.

#![warn(clippy::indexing_slicing, clippy::unwrap_used, clippy::expect_used, clippy::panic)]

pub mod calls;
pub mod console;
pub mod end_step;
pub mod ends;
pub mod image;
pub mod instruction;
pub mod memory;
pub mod numbers;
pub mod printing;
pub mod record_step;
pub mod records;
pub mod refusal;
pub mod run;
pub mod slots;
pub mod soundness;
pub mod state;
