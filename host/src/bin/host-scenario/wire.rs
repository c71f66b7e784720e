//! `crc pdtake pdwrite mdtake mdwrite pub send types tohost towire`.

use trdp::{frame_check, Common, MdHeader, MdTelegram, PdHeader, Publication, Refusal};

use crate::hex::{shown, Fields};
use crate::{answer, ok};

/// The most numbers in a description run.
const MOST_NUMBERS: usize = 5_000;
/// Every target holds these octets before the call that writes it.
const FILLER: u8 = 0xAA;

/// `to_host` or `to_wire`.
type Conversion = fn(&[u32], u32, &[u8], &mut [u8]) -> Result<usize, Refusal>;

#[derive(Default)]
pub struct Wire {
    publication: Option<Publication>,
    run: Vec<u32>,
}

fn target(room: u16) -> Vec<u8> {
    vec![FILLER; usize::from(room)]
}

/// A word, the octets written, and the whole target.
fn written(word: &str, outcome: Result<usize, Refusal>, target: &[u8]) -> String {
    answer(outcome, |length| format!("{word} {length} {}", shown(target)))
}

/// VERSION TYPE COMID ETB OPTRN.
fn common(fields: &mut Fields, sequence_counter: u32) -> Option<Common> {
    Some(Common {
        sequence_counter,
        protocol_version: fields.number4()?,
        msg_type: fields.number4()?,
        com_id: fields.number8()?,
        etb_topo_cnt: fields.number8()?,
        op_trn_topo_cnt: fields.number8()?,
        dataset_length: 0,
    })
}

/// VERSION TYPE COMID ETB OPTRN RESERVED REPLYCOMID REPLYIP.
fn pd_header(fields: &mut Fields, sequence_counter: u32) -> Option<PdHeader> {
    Some(PdHeader {
        common: common(fields, sequence_counter)?,
        reserved: fields.number8()?,
        reply_com_id: fields.number8()?,
        reply_ip_address: fields.number8()?,
    })
}

/// VERSION TYPE COMID ETB OPTRN STATUS ID TIMEOUT SRCURI DSTURI.
fn md_telegram(fields: &mut Fields, sequence_counter: u32) -> Option<MdTelegram> {
    let (common, reply_status) = (common(fields, sequence_counter)?, fields.number8()? as i32);
    let (session_id, reply_timeout) = (fields.array()?, fields.number8()?);
    Some(MdTelegram {
        header: MdHeader { common, reply_status, reply_timeout },
        session_id,
        source_uri: fields.array()?,
        destination_uri: fields.array()?,
    })
}

/// SEQ VERSION TYPE COMID ETB OPTRN LENGTH.
fn common_told(common: &Common) -> String {
    format!(
        "header {:08X} {:04X} {:04X} {:08X} {:08X} {:08X} {:08X}",
        common.sequence_counter,
        common.protocol_version,
        common.msg_type,
        common.com_id,
        common.etb_topo_cnt,
        common.op_trn_topo_cnt,
        common.dataset_length
    )
}

fn pd_told(header: PdHeader) -> String {
    let common = common_told(&header.common);
    format!("{common} {:08X} {:08X} {:08X}", header.reserved, header.reply_com_id, header.reply_ip_address)
}

fn md_told(telegram: MdTelegram) -> String {
    let MdTelegram { header, session_id, source_uri, destination_uri } = telegram;
    let common = common_told(&header.common);
    let [id, source, destination] = [&session_id[..], &source_uri, &destination_uri].map(shown);
    format!("{common} {:08X} {id} {:08X} {source} {destination}", header.reply_status, header.reply_timeout)
}

pub fn crc(fields: &mut Fields) -> Option<String> {
    let octets = fields.octets()?;
    fields.end()?;
    Some(format!("crc {:08X}", frame_check(&octets)))
}

pub fn pdtake(fields: &mut Fields) -> Option<String> {
    let datagram = fields.octets()?;
    fields.end()?;
    Some(answer(PdHeader::take(&datagram), pd_told))
}

pub fn mdtake(fields: &mut Fields) -> Option<String> {
    let datagram = fields.octets()?;
    fields.end()?;
    Some(answer(MdTelegram::take(&datagram), md_told))
}

pub fn pdwrite(fields: &mut Fields) -> Option<String> {
    let sequence_counter = fields.number8()?;
    let (header, room, dataset) = (pd_header(fields, sequence_counter)?, fields.number4()?, fields.octets()?);
    fields.end()?;
    let mut target = target(room);
    let outcome = header.write(&dataset, &mut target);
    Some(written("wrote", outcome, &target))
}

pub fn mdwrite(fields: &mut Fields) -> Option<String> {
    let sequence_counter = fields.number8()?;
    let (telegram, room, dataset) = (md_telegram(fields, sequence_counter)?, fields.number4()?, fields.octets()?);
    fields.end()?;
    let mut target = target(room);
    let outcome = telegram.write(&dataset, &mut target);
    Some(written("wrote", outcome, &target))
}

impl Wire {
    pub fn publish(&mut self, fields: &mut Fields) -> Option<String> {
        let (header, cycle) = (pd_header(fields, 0)?, fields.number8()?);
        fields.end()?;
        self.publication = Some(Publication::new(header, cycle));
        ok()
    }

    pub fn send(&mut self, fields: &mut Fields) -> Option<String> {
        let (time, room, dataset) = (fields.number16()?, fields.number4()?, fields.octets()?);
        fields.end()?;
        let mut target = target(room);
        let outcome = self.publication.as_mut()?.send(time, &dataset, &mut target);
        Some(written("sent", outcome, &target))
    }

    pub fn types(&mut self, fields: &mut Fields) -> Option<String> {
        let octets = fields.octets()?;
        fields.end()?;
        if octets.len() % 4 != 0 || octets.len() / 4 > MOST_NUMBERS {
            return None;
        }
        let number = |four: &[u8]| u32::from_be_bytes(four.try_into().expect("four octets"));
        self.run = octets.chunks(4).map(number).collect();
        ok()
    }

    pub fn convert(&self, fields: &mut Fields, convert: Conversion, word: &str) -> Option<String> {
        let (id, room, source) = (fields.number8()?, fields.number4()?, fields.octets()?);
        fields.end()?;
        let mut target = target(room);
        let outcome = convert(&self.run, id, &source, &mut target);
        Some(written(word, outcome, &target))
    }
}
