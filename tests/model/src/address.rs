//! Sender ranges, and what comes with each telegram.

use crate::refusal::{refuse_if, Refusal};

/// Both ends 0: any; end 0: only the start; else start to end.
#[derive(Clone, Copy, Debug, PartialEq, Eq)]
pub struct SenderRange {
    pub start: u32,
    pub end: u32,
}

impl SenderRange {
    /// 11: range end not 0 and below its start.
    pub fn judge(&self) -> Result<(), Refusal> {
        refuse_if(self.end != 0 && self.end < self.start, Refusal::Range)
    }

    pub fn admits(&self, sender: u32) -> bool {
        match (self.start, self.end) {
            (0, 0) => true,
            (start, 0) => sender == start,
            (start, end) => (start..=end).contains(&sender),
        }
    }
}

/// What the host says of an arriving telegram.
#[derive(Clone, Copy, Debug)]
pub struct Arrival {
    pub sender: u32,
    pub destination: u32,
    pub time: u64,
}
