//! Push publications.

use crate::raw::{self, PdHeader};
use crate::refusal::Refusal;

/// A publication: its header with the next counter, its cycle and its last sending.
#[derive(Clone, Copy, Debug, PartialEq, Eq)]
pub struct Publication(raw::Publication);

impl Publication {
    /// A publication that has sent nothing yet; the cycle in microseconds.
    pub fn new(header: PdHeader, cycle: u32) -> Publication {
        // SAFETY: it is lent nothing
        Publication(unsafe { raw::trdp_publish(header, cycle) })
    }

    /// The counter that the next telegram will bear.
    pub fn next_counter(&self) -> u32 {
        self.0.header.common.sequence_counter
    }

    /// Octets written, or 14, 4, 5, 16, 15.
    pub fn send(&mut self, time: u64, dataset: &[u8], target: &mut [u8]) -> Result<usize, Refusal> {
        // SAFETY: the dataset is readable and the target writable, each for its length
        let sending = unsafe { raw::trdp_send(self.0, time, dataset.as_ptr(), dataset.len(), target.as_mut_ptr(), target.len()) };
        self.0 = sending.publication;
        Refusal::or(sending.refusal, sending.length)
    }
}

#[cfg(test)]
mod tests {
    use super::*;
    use crate::msg_type;
    use crate::raw::Common;

    #[test]
    fn due_once_a_cycle() {
        let common = Common { protocol_version: 0x0100, msg_type: msg_type::PD, com_id: 1000, ..Common::default() };
        let mut publication = Publication::new(PdHeader { common, ..PdHeader::default() }, 10);
        let mut target = [0; 40];
        assert_eq!(publication.send(100, &[], &mut target), Ok(40));
        assert_eq!(publication.next_counter(), 1);
        assert_eq!(publication.send(109, &[], &mut target), Err(Refusal::NotDue));
        assert_eq!(publication.send(110, &[], &mut target), Ok(40));
        assert_eq!(PdHeader::take(&target).map(|header| header.common.sequence_counter), Ok(1));
    }
}
