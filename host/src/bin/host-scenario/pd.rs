//! `sub unsub pd check read slot part lend damage`.

use trdp::{frame_check, Behaviour, Filter, Lent, Refusal, State, Statistics, Subscription, TopoCounts, PART, SLOTS};

use crate::hex::{shown, Fields};
use crate::{answer, arrival, ok, refused, senders};

/// The most slots a call can be lent, so that there is memory to lend too much of.
const MOST_SLOTS: usize = 40;

/// The memory that PD calls are lent parts of.
pub struct Pd {
    slots: Vec<Subscription>,
    store: Vec<u8>,
    /// slots and store octets lent to each call
    lent: (usize, usize),
}

impl Default for Pd {
    fn default() -> Pd {
        Pd { slots: vec![Subscription::default(); MOST_SLOTS], store: vec![0; MOST_SLOTS * PART], lent: (SLOTS, SLOTS * PART) }
    }
}

fn behaviour_of(digit: u8) -> Option<Behaviour> {
    match digit {
        0 => Some(Behaviour::Zero),
        1 => Some(Behaviour::Keep),
        2 => Some(Behaviour::Substitute),
        _ => None,
    }
}

fn state_word(state: State) -> &'static str {
    match state {
        State::Valid => "valid",
        State::TimedOut => "timedout",
        State::NeverReceived => "never",
    }
}

fn told(slot: &Subscription) -> String {
    if slot.used == 0 {
        return "free".into();
    }
    let Filter { com_id, senders, destination } = slot.filter;
    let filter = format!("{com_id:08X} {:08X} {:08X} {destination:08X}", senders.start, senders.end);
    let last = if slot.last.held != 0 { format!("{:08X} {:08X}", slot.last.sender, slot.last.counter) } else { "- -".into() };
    let (behaviour, state, timing) = (slot.behaviour, state_word(slot.state()), slot.timing);
    format!("used {filter} {:08X} {behaviour} {state} {last} {:016X} {}", timing.timeout, timing.start, slot.length)
}

/// The number of one of the 32 slots, whatever is lent; else 10.
fn slot_number(fields: &mut Fields) -> Option<Result<usize, Refusal>> {
    let number = fields.number8()? as usize;
    Some(if number < SLOTS { Ok(number) } else { Err(Refusal::NoSlot) })
}

impl Pd {
    fn lent(&mut self) -> Lent<'_> {
        Lent { slots: &mut self.slots[..self.lent.0], store: &mut self.store[..self.lent.1] }
    }

    pub fn subscribe(&mut self, fields: &mut Fields) -> Option<String> {
        let filter = Filter { com_id: fields.number8()?, senders: senders(fields)?, destination: fields.number8()? };
        let (timeout, behaviour, time) = (fields.number8()?, behaviour_of(fields.number1()?)?, fields.number16()?);
        fields.end()?;
        let outcome = self.lent().subscribe(filter, timeout, behaviour, time);
        Some(answer(outcome, |slot| format!("slot {slot}")))
    }

    pub fn unsubscribe(&mut self, fields: &mut Fields) -> Option<String> {
        let slot = fields.number8()? as usize;
        fields.end()?;
        Some(answer(self.lent().unsubscribe(slot), |()| "freed".into()))
    }

    pub fn receive(&mut self, fields: &mut Fields, local: TopoCounts, statistics: &mut Statistics) -> Option<String> {
        let (arrival, datagram) = (arrival(fields, local)?, fields.octets()?);
        fields.end()?;
        let outcome = self.lent().receive(statistics, arrival, &datagram);
        Some(answer(outcome, |count| format!("delivered {count}")))
    }

    pub fn check(&mut self, fields: &mut Fields) -> Option<String> {
        let time = fields.number16()?;
        fields.end()?;
        Some(answer(self.lent().check(time), |count| format!("marked {count}")))
    }

    pub fn read(&mut self, fields: &mut Fields) -> Option<String> {
        let (slot, substitute) = (fields.number8()? as usize, fields.octets()?);
        fields.end()?;
        let outcome = self.lent().read(slot, &substitute);
        Some(answer(outcome, |(state, octets)| format!("{} {}", state_word(state), shown(octets))))
    }

    pub fn slot(&self, fields: &mut Fields) -> Option<String> {
        let slot = slot_number(fields)?;
        fields.end()?;
        Some(answer(slot, |slot| told(&self.slots[slot])))
    }

    pub fn part(&self, fields: &mut Fields) -> Option<String> {
        let slot = slot_number(fields)?;
        fields.end()?;
        Some(answer(slot, |slot| format!("part {:08X}", frame_check(&self.store[PART * slot..PART * (slot + 1)]))))
    }

    pub fn lend(&mut self, fields: &mut Fields) -> Option<String> {
        let lent = (fields.number8()? as usize, fields.number8()? as usize);
        fields.end()?;
        if lent.0 > self.slots.len() || lent.1 > self.store.len() {
            return None;
        }
        self.lent = lent;
        ok()
    }

    pub fn damage(&mut self, fields: &mut Fields) -> Option<String> {
        let (slot, length) = (slot_number(fields)?, fields.number8()?);
        fields.end()?;
        match slot.map(|slot| &mut self.slots[slot]) {
            Ok(slot) if slot.used != 0 => {
                slot.length = length;
                ok()
            }
            _ => Some(refused(Refusal::NoSlot)),
        }
    }
}
