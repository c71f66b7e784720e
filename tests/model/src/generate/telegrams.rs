//! Datagrams: a right one, then perhaps one thing wrong.

use super::Generator;
use crate::fcs::frame_check;
use crate::headers::{padded, Common, Family, MdHeader, MD, PD};

const WRONG_TYPES: &[u16] = &[0x5072, 0x5000, 0x0000, 0xFFFF, 0x4D00, 0x6450, 0x5065, 0x4D6F, 0x4D73];
const URIS: [&[u8]; 9] = [
    b"",
    b"",
    b"a",
    b"a\0x",
    b"a\0UUUUUUUUUUUUUUUUUUUUUUUUUUUUUU",
    b"\0junk",
    b"grp.car1",
    b"0123456789012345678901234567890",
    b"b",
];
/// No zero octet in any of its 32.
const NO_URI: &[u8; 32] = b"01234567890123456789012345678901";

impl Generator {
    /// A URI field; some have no zero octet.
    pub fn uri_field(&mut self) -> [u8; 32] {
        if self.is_wrong(30) {
            return *NO_URI;
        }
        let uri = self.random.pick(&URIS);
        let mut field = [0; 32];
        field[..uri.len()].copy_from_slice(uri);
        field
    }

    /// Mostly 1 and any low octet.
    pub fn version(&mut self) -> u16 {
        if self.is_wrong(25) {
            self.random.pick(&[0x0000, 0x0001, 0x0200, 0x8100, 0xFF01, 0x1001])
        } else {
            0x0100 | self.random.pick(&[0, 0, 1, 7, 0xFF])
        }
    }

    /// Mostly a type of this family.
    pub fn msg_type(&mut self, family: &Family) -> u16 {
        let other = if family.header == PD.header { MD.types } else { PD.types };
        if self.is_wrong(15) {
            let types = self.random.pick(&[WRONG_TYPES, other]);
            self.random.pick(types)
        } else {
            self.random.pick(family.types)
        }
    }

    pub fn common(&mut self, family: &Family, sequence_counter: u32) -> Common {
        let (etb_topo_cnt, op_trn_topo_cnt) = self.topo_counters();
        Common {
            sequence_counter,
            protocol_version: self.version(),
            msg_type: self.msg_type(family),
            com_id: self.com_id(),
            etb_topo_cnt,
            op_trn_topo_cnt,
            dataset_length: 0,
        }
    }

    pub fn pd_datagram(&mut self, sequence_counter: u32) -> Vec<u8> {
        let common = self.common(&PD, sequence_counter);
        let fields = self.random.octets(12);
        self.datagram(&PD, common, &fields)
    }

    pub fn md_datagram(&mut self, header: &MdHeader) -> Vec<u8> {
        let fields = header.fields();
        self.datagram(&MD, header.common, &fields)
    }

    /// Header, check, dataset, padding; one in eight has something wrong.
    fn datagram(&mut self, family: &Family, mut common: Common, fields: &[u8]) -> Vec<u8> {
        let length = self.dataset_length(family);
        common.dataset_length = length as u32;
        let wrong = self.random.below(80);
        if wrong == 0 {
            let near = [length as u32 ^ 1, length as u32 + 4, family.limit as u32 + 1, 0xFFFF_FFFF, 0xFFFF_FFFC, 0x0001_0000];
            common.dataset_length = self.random.pick(&near);
        }
        let mut datagram = common.written();
        datagram.extend_from_slice(fields);
        let check = frame_check(&datagram);
        datagram.extend_from_slice(&if wrong == 1 { check.to_be_bytes() } else { check.to_le_bytes() });
        datagram.extend_from_slice(&self.random.octets(length));
        let padding = if wrong == 2 { 0xFF } else { 0 };
        datagram.resize(family.header + padded(length), padding);
        self.damaged_datagram(wrong, family, &mut datagram);
        datagram
    }

    fn damaged_datagram(&mut self, wrong: usize, family: &Family, datagram: &mut Vec<u8>) {
        let place = self.random.below(datagram.len());
        match wrong {
            3 => datagram[place] ^= 1 << self.random.below(8),
            4 => datagram[self.random.below(family.header)] ^= 1 << self.random.below(8),
            5 => datagram.truncate(place),
            6 => datagram.truncate(self.random.pick(&[0, 1, 4, 36, family.header - 1, family.header])),
            7 => datagram.truncate(datagram.len() - 1),
            8 => datagram.extend_from_slice(&[0; 4][..1 + self.random.below(4)]),
            9 => datagram.clear(),
            _ => {}
        }
    }
}
