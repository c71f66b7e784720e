//! The frame check, and PD and MD telegrams taken apart and written.

use crate::raw::{self, MdHeader, PdHeader};
use crate::refusal::Refusal;

/// Octets of the headers.
pub const PD_HEADER: usize = 40;
pub const MD_HEADER: usize = 116;
/// The longest datasets.
pub const PD_DATASET: usize = 1432;
pub const MD_DATASET: usize = 65388;

/// CRC-32 of IEEE 802.3.
pub fn frame_check(octets: &[u8]) -> u32 {
    // SAFETY: the octets are readable for their length
    unsafe { raw::trdp_frame_check(octets.as_ptr(), octets.len()) }
}

impl PdHeader {
    /// A datagram taken apart, or 2, 3, 4, 5, 6.
    pub fn take(datagram: &[u8]) -> Result<PdHeader, Refusal> {
        // SAFETY: the datagram is readable for its length
        let taken = unsafe { raw::trdp_take_pd(datagram.as_ptr(), datagram.len()) };
        Refusal::or(taken.refusal, taken.header)
    }

    /// Octets written, or 4, 5, 16, 15. Octets of the target behind them stay.
    pub fn write(&self, dataset: &[u8], target: &mut [u8]) -> Result<usize, Refusal> {
        // SAFETY: the dataset is readable and the target writable, each for its length
        let outcome = unsafe { raw::trdp_write_pd(*self, dataset.as_ptr(), dataset.len(), target.as_mut_ptr(), target.len()) };
        Refusal::or(outcome.refusal, outcome.value)
    }
}

/// An MD telegram without its dataset.
#[derive(Clone, Copy, Debug, Default, PartialEq, Eq)]
pub struct MdTelegram {
    pub header: MdHeader,
    pub session_id: [u8; 16],
    pub source_uri: [u8; 32],
    pub destination_uri: [u8; 32],
}

impl MdTelegram {
    /// A datagram taken apart, or 2, 3, 4, 5, 6.
    pub fn take(datagram: &[u8]) -> Result<MdTelegram, Refusal> {
        // SAFETY: the datagram is readable for its length
        let raw::MdDatagram { refusal, header, session_id, source_uri, destination_uri } =
            unsafe { raw::trdp_take_md(datagram.as_ptr(), datagram.len()) };
        Refusal::or(refusal, MdTelegram { header, session_id, source_uri, destination_uri })
    }

    /// Octets written, or 4, 5, 16, 20, 15. Octets of the target behind them stay.
    pub fn write(&self, dataset: &[u8], target: &mut [u8]) -> Result<usize, Refusal> {
        // SAFETY: the arrays and the dataset are readable and the target writable, each for its length
        let outcome = unsafe {
            raw::trdp_write_md(
                self.header,
                &self.session_id,
                &self.source_uri,
                &self.destination_uri,
                dataset.as_ptr(),
                dataset.len(),
                target.as_mut_ptr(),
                target.len(),
            )
        };
        Refusal::or(outcome.refusal, outcome.value)
    }
}

#[cfg(test)]
mod tests {
    use super::*;
    use crate::msg_type;
    use crate::raw::Common;

    fn common(msg_type: u16) -> Common {
        Common { sequence_counter: 5, protocol_version: 0x0100, msg_type, com_id: 1000, ..Common::default() }
    }

    #[test]
    fn published_check() {
        assert_eq!(frame_check(b"123456789"), 0xCBF4_3926);
        assert_eq!(frame_check(b""), 0);
    }

    #[test]
    fn pd_there_and_back() {
        let header = PdHeader { common: common(msg_type::PD), reserved: 1, reply_com_id: 2, reply_ip_address: 3 };
        let mut target = [0xAA; 50];
        assert_eq!(header.write(b"hello", &mut target), Ok(48));
        let common = Common { dataset_length: 5, ..header.common };
        assert_eq!(PdHeader::take(&target[..48]), Ok(PdHeader { common, ..header }));
        assert_eq!(&target[40..], b"hello\0\0\0\xAA\xAA");
        assert_eq!(PdHeader::take(&target), Err(Refusal::Length));
        assert_eq!(header.write(b"hello", &mut target[..47]), Err(Refusal::TargetTooShort));
    }

    #[test]
    fn md_there_and_back() {
        let header = MdHeader { common: common(msg_type::MP), reply_status: -3, reply_timeout: 7 };
        let mut telegram = MdTelegram { header, session_id: *b"session number 1", ..MdTelegram::default() };
        telegram.source_uri[..3].copy_from_slice(b"car");
        telegram.destination_uri[..4].copy_from_slice(b"door");
        let mut target = [0xAA; 124];
        assert_eq!(telegram.write(b"hello", &mut target), Ok(124));
        let mut taken = MdTelegram::take(&target).expect("as written");
        assert_eq!(taken.header.common.dataset_length, 5);
        taken.header.common.dataset_length = 0;
        assert_eq!(taken, telegram);
        telegram.source_uri = [1; 32];
        assert_eq!(telegram.write(b"", &mut target), Err(Refusal::Uri));
        target[50] ^= 1;
        assert_eq!(MdTelegram::take(&target), Err(Refusal::FrameCheck));
    }
}
