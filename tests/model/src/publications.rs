//! Push publications.

use crate::headers::PdHeader;
use crate::refusal::{refuse_if, Refusal};
use crate::timing::has_passed;

/// Header fields (the next counter among them), cycle and last sending.
#[derive(Clone, Debug)]
pub struct Publication {
    pub header: PdHeader,
    pub cycle: u32,
    pub last: Option<u64>,
}

impl Publication {
    /// The first is due at once, later ones when now is not before the last and at least a cycle after.
    pub fn is_due(&self, now: u64) -> bool {
        match self.last {
            None => true,
            Some(last) => has_passed(last, self.cycle, now),
        }
    }

    /// 14, then the writer's; a refused sending leaves the record as it was.
    pub fn send(&mut self, now: u64, dataset: &[u8], target: &mut [u8]) -> Result<usize, Refusal> {
        refuse_if(!self.is_due(now), Refusal::NotDue)?;
        let length = self.header.write(dataset, target)?;
        let counter = &mut self.header.common.sequence_counter;
        *counter = counter.wrapping_add(1);
        self.last = Some(now);
        Ok(length)
    }
}
