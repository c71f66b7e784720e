//! The scenario language: each line a call, each call one line of answer.

use std::fmt::Display;

use crate::address::{Arrival, SenderRange};
use crate::datasets::{self, Direction};
use crate::fcs::frame_check;
use crate::headers::{Common, MdHeader, PdHeader};
use crate::hex::{lines, shown, Fields};
use crate::publications::Publication;
use crate::refusal::Refusal;
use crate::sessions::{Answer, MdRefusal, Session, Sessions, State as SessionState, SESSIONS};
use crate::statistics::Statistics;
use crate::subscriptions::{Behaviour, Filter, Lent, State, Subscription, PART, SLOTS};
use crate::topography::Local;

/// The most slots a call can be lent, so that there is memory to lend too much of.
pub const MOST_SLOTS: usize = 40;
pub const MOST_OCTETS: usize = MOST_SLOTS * PART;
/// The most numbers in a description run.
pub const MOST_NUMBERS: usize = 5_000;
/// Every target holds these octets before the call that writes it.
const FILLER: u8 = 0xAA;

/// The memory that PD calls are lent parts of.
pub struct Memory {
    pub slots: Vec<Option<Subscription>>,
    store: Vec<u8>,
    /// slots and store octets lent to each PD call, from slot 0 on
    lent: (usize, usize),
}

/// All that the calls of a scenario work on.
pub struct Stack {
    pub local: Local,
    pub memory: Memory,
    pub md: Sessions,
    pub publication: Option<Publication>,
    run: Vec<u32>,
    pd_statistics: Statistics,
    md_statistics: Statistics,
}

/// `refused R`.
fn refused(refusal: Refusal) -> String {
    format!("refused {}", refusal.number())
}

fn answer<T>(outcome: Result<T, Refusal>, told: impl Fn(T) -> String) -> String {
    outcome.map_or_else(refused, told)
}

/// A word, the octets written, and the whole target.
fn written(word: &str, outcome: Result<usize, Refusal>, target: &[u8]) -> String {
    answer(outcome, |length| format!("{word} {length} {}", shown(target)))
}

fn target(room: u16) -> Vec<u8> {
    vec![FILLER; usize::from(room)]
}

fn ok() -> Option<String> {
    Some("ok".into())
}

fn state_word(state: State) -> &'static str {
    match state {
        State::Valid => "valid",
        State::TimedOut => "timedout",
        State::Never => "never",
    }
}

fn behaviour_of(digit: u8) -> Option<Behaviour> {
    match digit {
        0 => Some(Behaviour::Zero),
        1 => Some(Behaviour::Keep),
        2 => Some(Behaviour::Substitute),
        _ => None,
    }
}

fn senders(fields: &mut Fields) -> Option<SenderRange> {
    Some(SenderRange { start: fields.number8()?, end: fields.number8()? })
}

fn arrival(fields: &mut Fields) -> Option<Arrival> {
    Some(Arrival { sender: fields.number8()?, destination: fields.number8()?, time: fields.number16()? })
}

/// VERSION TYPE COMID ETB OPTRN.
fn common(fields: &mut Fields, sequence_counter: u32) -> Option<Common> {
    Some(Common {
        sequence_counter,
        protocol_version: fields.number4()?,
        msg_type: fields.number4()?,
        com_id: fields.number8()?,
        etb_topo_cnt: fields.number8()?,
        op_trn_topo_cnt: fields.number8()?,
        dataset_length: 0,
    })
}

/// VERSION TYPE COMID ETB OPTRN RESERVED REPLYCOMID REPLYIP.
fn pd_header(fields: &mut Fields, sequence_counter: u32) -> Option<PdHeader> {
    Some(PdHeader {
        common: common(fields, sequence_counter)?,
        reserved: fields.number8()?,
        reply_com_id: fields.number8()?,
        reply_ip_address: fields.number8()?,
    })
}

/// VERSION TYPE COMID ETB OPTRN STATUS ID TIMEOUT SRCURI DSTURI.
fn md_header(fields: &mut Fields, sequence_counter: u32) -> Option<MdHeader> {
    Some(MdHeader {
        common: common(fields, sequence_counter)?,
        reply_status: fields.number8()? as i32,
        session_id: fields.array()?,
        reply_timeout: fields.number8()?,
        source_uri: fields.array()?,
        destination_uri: fields.array()?,
    })
}

/// SEQ VERSION TYPE COMID ETB OPTRN LENGTH.
fn common_told(common: &Common) -> String {
    format!(
        "header {:08X} {:04X} {:04X} {:08X} {:08X} {:08X} {:08X}",
        common.sequence_counter,
        common.protocol_version,
        common.msg_type,
        common.com_id,
        common.etb_topo_cnt,
        common.op_trn_topo_cnt,
        common.dataset_length
    )
}

fn pd_told(header: PdHeader) -> String {
    let common = common_told(&header.common);
    format!("{common} {:08X} {:08X} {:08X}", header.reserved, header.reply_com_id, header.reply_ip_address)
}

fn md_told(header: MdHeader) -> String {
    let common = common_told(&header.common);
    let (id, source, destination) = (shown(&header.session_id), shown(&header.source_uri), shown(&header.destination_uri));
    format!("{common} {:08X} {id} {:08X} {source} {destination}", header.reply_status, header.reply_timeout)
}

fn subscription_told(slot: &Subscription) -> String {
    let Filter { com_id, senders, destination } = slot.filter;
    let filter = format!("{com_id:08X} {:08X} {:08X} {destination:08X}", senders.start, senders.end);
    let last = slot.last.map_or("- -".into(), |last| format!("{:08X} {:08X}", last.sender, last.counter));
    let behaviour = slot.behaviour as u8;
    let state = state_word(slot.state);
    let supervision = slot.supervision;
    format!("used {filter} {:08X} {behaviour} {state} {last} {:016X} {}", supervision.timeout, supervision.start, slot.length)
}

fn session_told(session: &Session) -> String {
    let state = match session.state {
        SessionState::WaitingForReply(_) => "reply",
        SessionState::OwingConfirm(_) => "owing",
        SessionState::WithUser(_) => "user",
        SessionState::WaitingForConfirm(_) => "confirm",
    };
    let timing = session.state.timing();
    format!("used {} {state} {:016X} {:08X}", shown(&session.id), timing.start, timing.timeout)
}

fn md_answer_told(answer: Answer) -> String {
    match answer {
        Answer::Notified { listener } => format!("notified {listener}"),
        Answer::Opened { listener, session } => format!("opened {listener} {session}"),
        Answer::Taken { reply_status, session } => format!("taken {reply_status:08X} {session}"),
    }
}

fn md_refused(MdRefusal { refusal, status }: MdRefusal) -> String {
    format!("{} {status:08X}", refused(refusal))
}

fn joined(numbers: &[impl Display]) -> String {
    numbers.iter().map(|number| number.to_string()).collect::<Vec<_>>().join(" ")
}

impl Memory {
    /// All 32 slots and their store.
    pub fn is_lent_whole(&self) -> bool {
        self.lent == (SLOTS, SLOTS * PART)
    }

    fn lent(&mut self) -> Lent<'_> {
        Lent { slots: &mut self.slots[..self.lent.0], store: &mut self.store[..self.lent.1] }
    }
}

impl Stack {
    pub fn new() -> Stack {
        Stack {
            local: Local::default(),
            memory: Memory { slots: vec![None; MOST_SLOTS], store: vec![0; MOST_OCTETS], lent: (SLOTS, SLOTS * PART) },
            md: Sessions::default(),
            publication: None,
            run: Vec::new(),
            pd_statistics: Statistics::default(),
            md_statistics: Statistics::default(),
        }
    }

    /// One line without its LF; no answer is a bad line, which changes nothing.
    pub fn call(&mut self, line: &[u8]) -> Option<String> {
        let mut fields = Fields::of(line);
        let fields = &mut fields;
        match fields.word()? {
            b"local" => self.set_local(fields),
            b"crc" => crc(fields),
            b"pdtake" => pdtake(fields),
            b"pdwrite" => pdwrite(fields),
            b"mdtake" => mdtake(fields),
            b"mdwrite" => mdwrite(fields),
            b"pub" => self.publish(fields),
            b"send" => self.send(fields),
            b"sub" => self.subscribe(fields),
            b"unsub" => self.unsubscribe(fields),
            b"pd" => self.pd(fields),
            b"check" => self.check(fields),
            b"read" => self.read(fields),
            b"slot" => self.slot(fields),
            b"part" => self.part(fields),
            b"lend" => self.lend(fields),
            b"damage" => self.damage(fields),
            b"listen" => self.listen(fields),
            b"unlisten" => self.unlisten(fields),
            b"call" => self.open(fields),
            b"md" => self.md(fields),
            b"reply" => self.reply(fields),
            b"confirm" => self.confirm(fields),
            b"mdcheck" => self.mdcheck(fields),
            b"session" => self.session(fields),
            b"types" => self.types(fields),
            b"tohost" => self.convert(fields, Direction::ToHost, "host"),
            b"towire" => self.convert(fields, Direction::ToWire, "wire"),
            b"stats" => self.stats(fields),
            _ => None,
        }
    }

    fn set_local(&mut self, fields: &mut Fields) -> Option<String> {
        let local = Local { etb_topo_cnt: fields.number8()?, op_trn_topo_cnt: fields.number8()? };
        fields.end()?;
        self.local = local;
        ok()
    }

    fn publish(&mut self, fields: &mut Fields) -> Option<String> {
        let publication = Publication { header: pd_header(fields, 0)?, cycle: fields.number8()?, last: None };
        fields.end()?;
        self.publication = Some(publication);
        ok()
    }

    fn send(&mut self, fields: &mut Fields) -> Option<String> {
        let (now, room, dataset) = (fields.number16()?, fields.number4()?, fields.octets()?);
        fields.end()?;
        let mut target = target(room);
        let outcome = self.publication.as_mut()?.send(now, &dataset, &mut target);
        Some(written("sent", outcome, &target))
    }

    fn subscribe(&mut self, fields: &mut Fields) -> Option<String> {
        let filter = Filter { com_id: fields.number8()?, senders: senders(fields)?, destination: fields.number8()? };
        let (timeout, behaviour, now) = (fields.number8()?, behaviour_of(fields.number1()?)?, fields.number16()?);
        fields.end()?;
        let outcome = self.memory.lent().subscribe(filter, timeout, behaviour, now);
        Some(answer(outcome, |slot| format!("slot {slot}")))
    }

    fn unsubscribe(&mut self, fields: &mut Fields) -> Option<String> {
        let slot = fields.number8()?;
        fields.end()?;
        Some(answer(self.memory.lent().unsubscribe(slot), |()| "freed".into()))
    }

    fn pd(&mut self, fields: &mut Fields) -> Option<String> {
        let (arrival, datagram) = (arrival(fields)?, fields.octets()?);
        fields.end()?;
        let outcome = self.memory.lent().receive(&datagram, &arrival, self.local, &mut self.pd_statistics);
        Some(answer(outcome, |count| format!("delivered {count}")))
    }

    fn check(&mut self, fields: &mut Fields) -> Option<String> {
        let now = fields.number16()?;
        fields.end()?;
        Some(answer(self.memory.lent().check_time(now), |count| format!("marked {count}")))
    }

    fn read(&mut self, fields: &mut Fields) -> Option<String> {
        let (slot, substitute) = (fields.number8()?, fields.octets()?);
        fields.end()?;
        let lent = self.memory.lent();
        Some(answer(lent.read(slot, &substitute), |(state, octets)| format!("{} {}", state_word(state), shown(octets))))
    }

    /// The number of one of the 32 slots, whatever is lent; else 10.
    fn slot_number(fields: &mut Fields) -> Option<Result<usize, Refusal>> {
        let number = fields.number8()? as usize;
        Some(if number < SLOTS { Ok(number) } else { Err(Refusal::NoSlot) })
    }

    fn slot(&mut self, fields: &mut Fields) -> Option<String> {
        let slot = Stack::slot_number(fields)?;
        fields.end()?;
        Some(answer(slot, |slot| self.memory.slots[slot].as_ref().map_or("free".into(), subscription_told)))
    }

    fn part(&mut self, fields: &mut Fields) -> Option<String> {
        let slot = Stack::slot_number(fields)?;
        fields.end()?;
        Some(answer(slot, |slot| format!("part {:08X}", frame_check(&self.memory.store[PART * slot..PART * (slot + 1)]))))
    }

    fn lend(&mut self, fields: &mut Fields) -> Option<String> {
        let lent = (fields.number8()? as usize, fields.number8()? as usize);
        fields.end()?;
        if lent.0 > MOST_SLOTS || lent.1 > MOST_OCTETS {
            return None;
        }
        self.memory.lent = lent;
        ok()
    }

    fn damage(&mut self, fields: &mut Fields) -> Option<String> {
        let (slot, length) = (Stack::slot_number(fields)?, fields.number8()?);
        fields.end()?;
        match slot.ok().and_then(|slot| self.memory.slots[slot].as_mut()) {
            Some(subscription) => {
                subscription.length = length;
                ok()
            }
            None => Some(refused(Refusal::NoSlot)),
        }
    }

    fn listen(&mut self, fields: &mut Fields) -> Option<String> {
        let (com_id, senders, uri) = (fields.number8()?, senders(fields)?, fields.array()?);
        fields.end()?;
        Some(answer(self.md.listen(com_id, senders, &uri), |listener| format!("listener {listener}")))
    }

    fn unlisten(&mut self, fields: &mut Fields) -> Option<String> {
        let listener = fields.number8()?;
        fields.end()?;
        Some(answer(self.md.unlisten(listener), |()| "freed".into()))
    }

    fn open(&mut self, fields: &mut Fields) -> Option<String> {
        let (id, timeout, now) = (fields.array()?, fields.number8()?, fields.number16()?);
        fields.end()?;
        Some(answer(self.md.call(id, timeout, now), |session| format!("session {session}")))
    }

    fn md(&mut self, fields: &mut Fields) -> Option<String> {
        let (arrival, datagram) = (arrival(fields)?, fields.octets()?);
        fields.end()?;
        let outcome = self.md.receive(&datagram, &arrival, self.local, &mut self.md_statistics);
        Some(outcome.map_or_else(md_refused, md_answer_told))
    }

    fn reply(&mut self, fields: &mut Fields) -> Option<String> {
        let (session, msg_type) = (fields.number8()?, fields.number4()?);
        let (timeout, now) = (fields.number8()?, fields.number16()?);
        fields.end()?;
        Some(answer(self.md.reply(session, msg_type, timeout, now), |()| "replied".into()))
    }

    fn confirm(&mut self, fields: &mut Fields) -> Option<String> {
        let (session, _now) = (fields.number8()?, fields.number16()?);
        fields.end()?;
        Some(answer(self.md.confirm(session), |()| "confirmed".into()))
    }

    fn mdcheck(&mut self, fields: &mut Fields) -> Option<String> {
        let now = fields.number16()?;
        fields.end()?;
        Some(format!("codes {}", joined(&self.md.check_time(now))))
    }

    fn session(&mut self, fields: &mut Fields) -> Option<String> {
        let session = fields.number8()? as usize;
        fields.end()?;
        if session >= SESSIONS {
            return Some(refused(Refusal::NoSlot));
        }
        Some(self.md.sessions[session].as_ref().map_or("free".into(), session_told))
    }

    fn types(&mut self, fields: &mut Fields) -> Option<String> {
        let octets = fields.octets()?;
        fields.end()?;
        if octets.len() % 4 != 0 || octets.len() / 4 > MOST_NUMBERS {
            return None;
        }
        let number = |four: &[u8]| u32::from_be_bytes(four.try_into().expect("four octets"));
        self.run = octets.chunks(4).map(number).collect();
        ok()
    }

    fn convert(&mut self, fields: &mut Fields, direction: Direction, word: &str) -> Option<String> {
        let (id, room, data) = (fields.number8()?, fields.number4()?, fields.octets()?);
        fields.end()?;
        let mut target = target(room);
        let outcome = datasets::convert(&self.run, direction, id, &data, &mut target);
        Some(written(word, outcome, &target))
    }

    fn stats(&mut self, fields: &mut Fields) -> Option<String> {
        fields.end()?;
        let pd = self.pd_statistics.told(&[2, 3, 4, 5, 6, 7, 8, 9]);
        let md = self.md_statistics.told(&[2, 3, 4, 5, 6, 7, 8, 17, 18, 19, 20]);
        Some(format!("pd {pd} md {md}"))
    }
}

fn crc(fields: &mut Fields) -> Option<String> {
    let octets = fields.octets()?;
    fields.end()?;
    Some(format!("crc {:08X}", frame_check(&octets)))
}

fn pdtake(fields: &mut Fields) -> Option<String> {
    let datagram = fields.octets()?;
    fields.end()?;
    Some(answer(PdHeader::take(&datagram), pd_told))
}

fn mdtake(fields: &mut Fields) -> Option<String> {
    let datagram = fields.octets()?;
    fields.end()?;
    Some(answer(MdHeader::take(&datagram), md_told))
}

fn pdwrite(fields: &mut Fields) -> Option<String> {
    let sequence_counter = fields.number8()?;
    let (header, room, dataset) = (pd_header(fields, sequence_counter)?, fields.number4()?, fields.octets()?);
    fields.end()?;
    let mut target = target(room);
    let outcome = header.write(&dataset, &mut target);
    Some(written("wrote", outcome, &target))
}

fn mdwrite(fields: &mut Fields) -> Option<String> {
    let sequence_counter = fields.number8()?;
    let (header, room, dataset) = (md_header(fields, sequence_counter)?, fields.number4()?, fields.octets()?);
    fields.end()?;
    let mut target = target(room);
    let outcome = header.write(&dataset, &mut target);
    Some(written("wrote", outcome, &target))
}

/// The program `scenario`: its whole output for its whole input.
pub fn scenario(input: &[u8]) -> String {
    let mut stack = Stack::new();
    let mut output = String::new();
    for (number, (line, ended)) in lines(input).enumerate() {
        let told = if ended { stack.call(line) } else { None };
        let told = told.unwrap_or("bad line".into());
        output.push_str(&format!("{} {told}\n", number + 1));
    }
    output
}
