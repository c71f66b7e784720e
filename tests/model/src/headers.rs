//! PD and MD headers, taken apart and written.

use crate::fcs::frame_check;
use crate::refusal::{refuse_if, Refusal};

pub const PD_DATA: u16 = 0x5064;
pub const PD_REPLY: u16 = 0x5070;
pub const MD_NOTIFICATION: u16 = 0x4D6E;
pub const MD_REQUEST: u16 = 0x4D72;
pub const MD_REPLY: u16 = 0x4D70;
pub const MD_REPLY_QUERY: u16 = 0x4D71;
pub const MD_CONFIRM: u16 = 0x4D63;
pub const MD_ERROR: u16 = 0x4D65;

/// What tells PD from MD on the wire.
pub struct Family {
    /// octets of the header; its last four are the check
    pub header: usize,
    pub types: &'static [u16],
    /// the longest dataset
    pub limit: usize,
}

pub const PD: Family = Family { header: 40, types: &[PD_DATA, PD_REPLY], limit: 1432 };
pub const MD: Family =
    Family { header: 116, types: &[MD_NOTIFICATION, MD_REQUEST, MD_REPLY, MD_REPLY_QUERY, MD_CONFIRM, MD_ERROR], limit: 65388 };

/// The dataset is padded to a multiple of 4.
pub fn padded(length: usize) -> usize {
    length.div_ceil(4) * 4
}

/// The first 24 octets, the same in PD and MD.
#[derive(Clone, Copy, Debug, PartialEq, Eq)]
pub struct Common {
    pub sequence_counter: u32,
    pub protocol_version: u16,
    pub msg_type: u16,
    pub com_id: u32,
    pub etb_topo_cnt: u32,
    pub op_trn_topo_cnt: u32,
    pub dataset_length: u32,
}

#[derive(Clone, Copy, Debug, PartialEq, Eq)]
pub struct PdHeader {
    pub common: Common,
    pub reserved: u32,
    pub reply_com_id: u32,
    pub reply_ip_address: u32,
}

#[derive(Clone, Copy, Debug, PartialEq, Eq)]
pub struct MdHeader {
    pub common: Common,
    pub reply_status: i32,
    pub session_id: [u8; 16],
    pub reply_timeout: u32,
    pub source_uri: [u8; 32],
    pub destination_uri: [u8; 32],
}

/// A URI ends at its first zero octet; a field without one holds no URI.
pub fn uri(field: &[u8; 32]) -> Option<&[u8]> {
    let end = field.iter().position(|octet| *octet == 0)?;
    Some(&field[..end])
}

/// The N octets at `at`.
fn octets<const N: usize>(datagram: &[u8], at: usize) -> [u8; N] {
    datagram[at..at + N].try_into().expect("N octets")
}

fn big2(datagram: &[u8], at: usize) -> u16 {
    u16::from_be_bytes(octets(datagram, at))
}

fn big4(datagram: &[u8], at: usize) -> u32 {
    u32::from_be_bytes(octets(datagram, at))
}

impl Family {
    /// Where the check stands; it covers the octets before it.
    pub fn check_at(&self) -> usize {
        self.header - 4
    }

    /// Checks 2 to 6.
    fn judge(&self, datagram: &[u8]) -> Result<Common, Refusal> {
        refuse_if(datagram.len() < self.header, Refusal::Short)?;
        let (covered, rest) = datagram.split_at(self.check_at());
        let check = u32::from_le_bytes(octets(rest, 0));
        refuse_if(frame_check(covered) != check, Refusal::FrameCheck)?;
        let common = Common::read(datagram);
        refuse_if(common.protocol_version >> 8 != 1, Refusal::Version)?;
        refuse_if(!self.types.contains(&common.msg_type), Refusal::Type)?;
        let length = common.dataset_length as usize;
        refuse_if(length > self.limit, Refusal::Length)?;
        refuse_if(datagram.len() != self.header + padded(length), Refusal::Length)?;
        Ok(common)
    }

    /// Writing any telegram: 4, 5, 16, 20, 15. `fields` are the octets from 24 up to the check. Answers the octets written;
    /// those behind them stay.
    fn write(
        &self,
        common: &Common,
        fields: &[u8],
        uris: &[&[u8; 32]],
        dataset: &[u8],
        target: &mut [u8],
    ) -> Result<usize, Refusal> {
        let length = self.header + padded(dataset.len());
        refuse_if(common.protocol_version >> 8 != 1, Refusal::Version)?;
        refuse_if(!self.types.contains(&common.msg_type), Refusal::Type)?;
        refuse_if(dataset.len() > self.limit, Refusal::TooLong)?;
        refuse_if(uris.iter().any(|field| uri(field).is_none()), Refusal::Uri)?;
        refuse_if(target.len() < length, Refusal::Room)?;

        let mut telegram = Common { dataset_length: dataset.len() as u32, ..*common }.written();
        telegram.extend_from_slice(fields);
        let check = frame_check(&telegram);
        telegram.extend_from_slice(&check.to_le_bytes());
        telegram.extend_from_slice(dataset);
        telegram.resize(length, 0);
        target[..length].copy_from_slice(&telegram);
        Ok(length)
    }
}

impl Common {
    fn read(datagram: &[u8]) -> Common {
        Common {
            sequence_counter: big4(datagram, 0),
            protocol_version: big2(datagram, 4),
            msg_type: big2(datagram, 6),
            com_id: big4(datagram, 8),
            etb_topo_cnt: big4(datagram, 12),
            op_trn_topo_cnt: big4(datagram, 16),
            dataset_length: big4(datagram, 20),
        }
    }

    /// The 24 octets.
    pub fn written(&self) -> Vec<u8> {
        let mut octets = Vec::new();
        octets.extend_from_slice(&self.sequence_counter.to_be_bytes());
        octets.extend_from_slice(&self.protocol_version.to_be_bytes());
        octets.extend_from_slice(&self.msg_type.to_be_bytes());
        octets.extend_from_slice(&self.com_id.to_be_bytes());
        octets.extend_from_slice(&self.etb_topo_cnt.to_be_bytes());
        octets.extend_from_slice(&self.op_trn_topo_cnt.to_be_bytes());
        octets.extend_from_slice(&self.dataset_length.to_be_bytes());
        octets
    }
}

impl PdHeader {
    pub fn take(datagram: &[u8]) -> Result<PdHeader, Refusal> {
        let common = PD.judge(datagram)?;
        Ok(PdHeader {
            common,
            reserved: big4(datagram, 24),
            reply_com_id: big4(datagram, 28),
            reply_ip_address: big4(datagram, 32),
        })
    }

    /// The header's own datasetLength is not used: the dataset's is written.
    pub fn write(&self, dataset: &[u8], target: &mut [u8]) -> Result<usize, Refusal> {
        let fields = [self.reserved, self.reply_com_id, self.reply_ip_address].map(u32::to_be_bytes).concat();
        PD.write(&self.common, &fields, &[], dataset, target)
    }
}

impl MdHeader {
    pub fn take(datagram: &[u8]) -> Result<MdHeader, Refusal> {
        let common = MD.judge(datagram)?;
        Ok(MdHeader {
            common,
            reply_status: big4(datagram, 24) as i32,
            session_id: octets(datagram, 28),
            reply_timeout: big4(datagram, 44),
            source_uri: octets(datagram, 48),
            destination_uri: octets(datagram, 80),
        })
    }

    /// The octets from 24 up to the check.
    pub fn fields(&self) -> Vec<u8> {
        let mut fields = Vec::new();
        fields.extend_from_slice(&self.reply_status.to_be_bytes());
        fields.extend_from_slice(&self.session_id);
        fields.extend_from_slice(&self.reply_timeout.to_be_bytes());
        fields.extend_from_slice(&self.source_uri);
        fields.extend_from_slice(&self.destination_uri);
        fields
    }

    /// The header's own datasetLength is not used: the dataset's is written.
    pub fn write(&self, dataset: &[u8], target: &mut [u8]) -> Result<usize, Refusal> {
        MD.write(&self.common, &self.fields(), &[&self.source_uri, &self.destination_uri], dataset, target)
    }
}

#[cfg(test)]
mod tests {
    use super::padded;

    #[test]
    fn measured_by_hand() {
        assert_eq!([0, 1, 1432].map(padded), [0, 4, 1432]);
    }
}
