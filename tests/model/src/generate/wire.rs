//! `local crc pdtake pdwrite mdtake mdwrite pub send`.

use super::{Generator, COUNTERS, TOPO_COUNTERS};
use crate::headers::{padded, Common, Family, MdHeader, MD, PD};
use crate::hex::{shown, OCTETS};
use crate::timing::Timing;

fn common_fields(common: &Common) -> String {
    let Common { protocol_version, msg_type, com_id, etb_topo_cnt, op_trn_topo_cnt, .. } = common;
    format!("{protocol_version:04X} {msg_type:04X} {com_id:08X} {etb_topo_cnt:08X} {op_trn_topo_cnt:08X}")
}

impl Generator {
    pub fn wire_line(&mut self) -> String {
        match self.random.below(40) {
            0..=2 => self.local_line(),
            3..=6 => self.crc_line(),
            7..=12 => {
                let counter = self.random.pick(&COUNTERS);
                format!("pdtake {}", shown(&self.pd_datagram(counter)))
            }
            13..=18 => self.pdwrite_line(),
            19..=24 => {
                let header = self.md_header();
                format!("mdtake {}", shown(&self.md_datagram(&header)))
            }
            25..=30 => self.mdwrite_line(),
            31..=33 => self.pub_line(),
            _ => self.send_line(),
        }
    }

    pub fn local_line(&mut self) -> String {
        let (etb, op_trn) = (self.random.pick(&TOPO_COUNTERS), self.random.pick(&TOPO_COUNTERS));
        format!("local {etb:08X} {op_trn:08X}")
    }

    fn crc_line(&mut self) -> String {
        let length = match self.random.below(120) {
            0 => OCTETS + self.random.below(2),
            1..=8 => self.random.below(2000),
            _ => self.random.below(130),
        };
        format!("crc {}", shown(&self.random.octets(length)))
    }

    /// ROOM and OCTETS for a telegram of this family.
    fn room_and_dataset(&mut self, family: &Family) -> String {
        let length = self.dataset_length(family);
        let room = self.room(family.header + padded(length));
        format!("{room:04X} {}", shown(&self.random.octets(length)))
    }

    /// VERSION to REPLYIP.
    fn pd_fields(&mut self) -> String {
        let common = common_fields(&self.common(&PD, 0));
        let others = self.random.octets(12);
        format!("{common} {} {} {}", shown(&others[..4]), shown(&others[4..8]), shown(&others[8..]))
    }

    fn pdwrite_line(&mut self) -> String {
        let (counter, fields) = (self.random.pick(&COUNTERS), self.pd_fields());
        format!("pdwrite {counter:08X} {fields} {}", self.room_and_dataset(&PD))
    }

    pub fn md_header(&mut self) -> MdHeader {
        let counter = self.random.pick(&COUNTERS);
        MdHeader {
            common: self.common(&MD, counter),
            reply_status: self.random.pick(&[0, 0, 1, -1, -3, -4, i32::MAX, i32::MIN]),
            session_id: self.session_id(),
            reply_timeout: self.timeout(),
            source_uri: self.uri_field(),
            destination_uri: self.uri_field(),
        }
    }

    fn mdwrite_line(&mut self) -> String {
        let header = self.md_header();
        let common = common_fields(&header.common);
        let session = format!("{:08X} {} {:08X}", header.reply_status, shown(&header.session_id), header.reply_timeout);
        let uris = format!("{} {}", shown(&header.source_uri), shown(&header.destination_uri));
        format!("mdwrite {:08X} {common} {session} {uris} {}", header.common.sequence_counter, self.room_and_dataset(&MD))
    }

    fn pub_line(&mut self) -> String {
        let (fields, cycle) = (self.pd_fields(), self.timeout());
        format!("pub {fields} {cycle:08X}")
    }

    fn send_line(&mut self) -> String {
        let running: Vec<Timing> = match &self.stack.publication {
            Some(publication) => {
                publication.last.iter().map(|last| Timing { start: *last, timeout: publication.cycle }).collect()
            }
            None => Vec::new(),
        };
        let now = self.now(&running);
        format!("send {now:016X} {}", self.room_and_dataset(&PD))
    }
}
