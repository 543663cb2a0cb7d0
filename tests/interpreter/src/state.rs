//! The state: the loaded code, the process records and the ends.

use crate::ends::{Ends, FreeEnds};
use crate::image;
use crate::numbers::RecordNumber;
use crate::records::Records;
use crate::refusal::Refusal;

/// A sound state.
#[derive(Clone, Debug, PartialEq, Eq)]
pub struct State {
    pub(crate) code: Vec<u8>,
    pub(crate) records: Records,
    pub(crate) ends: Ends,
}

impl State {
    /// The start state: record 0 running at place 0, all else empty, 64 ends free.
    pub(crate) fn start(code: Vec<u8>) -> Self {
        let mut records = Records::default();
        records.goes_on(RecordNumber::ZERO, 0);
        State { code, records, ends: Ends::all_free() }
    }

    /// The start state with the code of a method image, or 20 to 23.
    pub fn load(image: &[u8]) -> Result<Self, Refusal> {
        image::read(image).map(Self::start)
    }

    /// The loaded code.
    pub fn code(&self) -> &[u8] {
        &self.code
    }

    /// The process records.
    pub fn records(&self) -> &Records {
        &self.records
    }

    /// The ends.
    pub fn ends(&self) -> &Ends {
        &self.ends
    }

    /// How many ends are free, and the lowest free end.
    pub fn free_ends(&self) -> FreeEnds {
        self.ends.free_ends()
    }
}

impl Default for State {
    /// The start state with no code.
    fn default() -> Self {
        Self::start(Vec::new())
    }
}
