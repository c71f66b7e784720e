//! PD and MD headers.

use super::fcs::FrameCheck;
use super::Arrival;

pub use trdp::{Common, PdHeader};

pub const PD_HEADER: usize = 40;
pub const MD_HEADER: usize = 116;
pub const MD_REQUEST: u16 = 0x4D72;

/// What a request needs of its header; the array fields stay in the datagram.
pub struct MdHeader<'a> {
    pub common: Common,
    pub session_id: &'a [u8; 16],
    pub reply_timeout: u32,
    pub source_uri: &'a [u8; 32],
    pub destination_uri: &'a [u8; 32],
}

fn octets<const N: usize>(datagram: &[u8], at: usize) -> &[u8; N] {
    datagram[at..at + N].try_into().expect("N octets")
}

fn big2(datagram: &[u8], at: usize) -> u16 {
    u16::from_be_bytes(*octets(datagram, at))
}

fn big4(datagram: &[u8], at: usize) -> u32 {
    u32::from_be_bytes(*octets(datagram, at))
}

fn common(datagram: &[u8]) -> Common {
    Common {
        sequence_counter: big4(datagram, 0),
        protocol_version: big2(datagram, 4),
        msg_type: big2(datagram, 6),
        com_id: big4(datagram, 8),
        etb_topo_cnt: big4(datagram, 12),
        op_trn_topo_cnt: big4(datagram, 16),
        dataset_length: big4(datagram, 20),
    }
}

/// What tells PD from MD on the wire: octets of the header, the longest dataset, the types.
struct Family {
    header: usize,
    limit: u32,
    types: &'static [u16],
}

const PD: Family = Family { header: PD_HEADER, limit: 1432, types: &[0x5064, 0x5070] };
const MD: Family = Family { header: MD_HEADER, limit: 65388, types: &[0x4D6E, MD_REQUEST, 0x4D70, 0x4D71, 0x4D63, 0x4D65] };

/// Checks 2 to 6.
fn judge(datagram: &[u8], family: &Family, frame_check: impl FrameCheck) -> Result<Common, u8> {
    let Family { header, limit, types } = *family;
    if datagram.len() < header {
        return Err(2);
    }
    if frame_check(&datagram[..header - 4]) != u32::from_le_bytes(*octets(datagram, header - 4)) {
        return Err(3);
    }
    let common = common(datagram);
    if common.protocol_version >> 8 != 1 {
        return Err(4);
    }
    if !types.contains(&common.msg_type) {
        return Err(5);
    }
    let length = common.dataset_length;
    if length > limit || datagram.len() != header + length.div_ceil(4) as usize * 4 {
        return Err(6);
    }
    Ok(common)
}

#[inline(never)]
pub fn take_pd(datagram: &[u8], frame_check: impl FrameCheck) -> Result<PdHeader, u8> {
    let common = judge(datagram, &PD, frame_check)?;
    Ok(PdHeader { common, reserved: big4(datagram, 24), reply_com_id: big4(datagram, 28), reply_ip_address: big4(datagram, 32) })
}

pub fn take_md(datagram: &[u8], frame_check: impl FrameCheck) -> Result<MdHeader<'_>, u8> {
    let common = judge(datagram, &MD, frame_check)?;
    Ok(MdHeader {
        common,
        session_id: octets(datagram, 28),
        reply_timeout: big4(datagram, 44),
        source_uri: octets(datagram, 48),
        destination_uri: octets(datagram, 80),
    })
}

/// Check 7.
pub fn judge_topography(common: &Common, arrival: &Arrival) -> Result<(), u8> {
    let agrees = |telegram, local| telegram == 0 || telegram == local;
    let (etb, op_trn) = (common.etb_topo_cnt, common.op_trn_topo_cnt);
    let passes = agrees(etb, arrival.etb_topo_cnt) && agrees(op_trn, arrival.op_trn_topo_cnt) && (etb != 0 || op_trn == 0);
    if passes {
        Ok(())
    } else {
        Err(7)
    }
}
