//! Subscriptions over a lent table and store.

use crate::address::{Arrival, SenderRange};
use crate::headers::PdHeader;
use crate::refusal::{refuse_if, Refusal};
use crate::statistics::Statistics;
use crate::timing::Timing;
use crate::topography::{self, Local};

pub const SLOTS: usize = 32;
/// Slot k owns store octets 1432k to 1432k+1431.
pub const PART: usize = 1432;

#[derive(Clone, Copy, Debug, PartialEq, Eq)]
pub struct Filter {
    pub com_id: u32,
    pub senders: SenderRange,
    /// 0: any
    pub destination: u32,
}

#[derive(Clone, Copy, Debug, PartialEq, Eq)]
pub enum Behaviour {
    Zero,
    Keep,
    Substitute,
}

#[derive(Clone, Copy, Debug, PartialEq, Eq)]
pub enum State {
    Valid,
    TimedOut,
    Never,
}

/// Sender and counter last taken.
#[derive(Clone, Copy, Debug, PartialEq, Eq)]
pub struct Taken {
    pub sender: u32,
    pub counter: u32,
}

/// The record of a slot in use.
#[derive(Clone, Copy, Debug, PartialEq, Eq)]
pub struct Subscription {
    pub filter: Filter,
    /// started by subscribing and by each taking
    pub supervision: Timing,
    pub behaviour: Behaviour,
    pub state: State,
    /// none since subscribing or since a timeout
    pub last: Option<Taken>,
    /// stored octets
    pub length: u32,
}

/// The memory a host lends for one call.
pub struct Lent<'a> {
    pub slots: &'a mut [Option<Subscription>],
    pub store: &'a mut [u8],
}

impl Filter {
    pub fn matches(&self, com_id: u32, arrival: &Arrival) -> bool {
        self.com_id == com_id
            && self.senders.admits(arrival.sender)
            && (self.destination == 0 || self.destination == arrival.destination)
    }
}

impl Subscription {
    /// Nothing was taken, or the sender is another, or the counter minus the last one, modulo 2^32, is 1 to 2^31−1.
    pub fn finds_fresh(&self, sender: u32, counter: u32) -> bool {
        match self.last {
            None => true,
            Some(last) => {
                let ahead = counter.wrapping_sub(last.counter);
                last.sender != sender || (1..=0x7FFF_FFFF).contains(&ahead)
            }
        }
    }

    fn take(&mut self, header: &PdHeader, arrival: &Arrival) {
        self.last = Some(Taken { sender: arrival.sender, counter: header.common.sequence_counter });
        self.supervision.start = arrival.time;
        self.length = header.common.dataset_length;
        self.state = State::Valid;
    }
}

impl Lent<'_> {
    /// 1: more than 32 slots, or store not 1432 octets a slot.
    fn judge_sizes(&self) -> Result<(), Refusal> {
        let fits = self.slots.len() <= SLOTS && self.store.len() == PART * self.slots.len();
        refuse_if(!fits, Refusal::Lent)
    }

    /// 10: slot number too large or slot not in use.
    fn in_use(&self, slot: u32) -> Result<usize, Refusal> {
        let slot = slot as usize;
        match self.slots.get(slot) {
            Some(Some(_)) => Ok(slot),
            _ => Err(Refusal::NoSlot),
        }
    }

    fn part(&mut self, slot: usize) -> &mut [u8] {
        &mut self.store[PART * slot..PART * (slot + 1)]
    }

    /// 1, 11, 12, 13, else the lowest free slot.
    pub fn subscribe(&mut self, filter: Filter, timeout: u32, behaviour: Behaviour, now: u64) -> Result<usize, Refusal> {
        self.judge_sizes()?;
        filter.senders.judge()?;
        refuse_if(self.slots.iter().flatten().any(|used| used.filter == filter), Refusal::Equal)?;
        let slot = self.slots.iter().position(Option::is_none).ok_or(Refusal::Full)?;
        self.slots[slot] = Some(Subscription {
            filter,
            supervision: Timing { start: now, timeout },
            behaviour,
            state: State::Never,
            last: None,
            length: 0,
        });
        self.part(slot).fill(0);
        Ok(slot)
    }

    /// 1, 10, else the slot is free and its part zero.
    pub fn unsubscribe(&mut self, slot: u32) -> Result<(), Refusal> {
        self.judge_sizes()?;
        let slot = self.in_use(slot)?;
        self.slots[slot] = None;
        self.part(slot).fill(0);
        Ok(())
    }

    /// An arriving PD telegram; the answer is how many slots took it. Refusal 1 comes first and counts nothing.
    pub fn receive(
        &mut self,
        datagram: &[u8],
        arrival: &Arrival,
        local: Local,
        statistics: &mut Statistics,
    ) -> Result<usize, Refusal> {
        self.judge_sizes()?;
        let outcome = self.deliver(datagram, arrival, local);
        statistics.add(&outcome);
        outcome
    }

    /// 2 to 7, then every matching slot; 8: none matches; 9: some match, none finds it fresh.
    fn deliver(&mut self, datagram: &[u8], arrival: &Arrival, local: Local) -> Result<usize, Refusal> {
        let header = PdHeader::take(datagram)?;
        topography::judge(&header.common, local)?;
        let dataset = &datagram[40..40 + header.common.dataset_length as usize];
        let (mut matching, mut taken) = (0, 0);
        for slot in 0..self.slots.len() {
            let Some(subscription) = &mut self.slots[slot] else { continue };
            if !subscription.filter.matches(header.common.com_id, arrival) {
                continue;
            }
            matching += 1;
            if subscription.finds_fresh(arrival.sender, header.common.sequence_counter) {
                subscription.take(&header, arrival);
                self.part(slot)[..dataset.len()].copy_from_slice(dataset);
                taken += 1;
            }
        }
        refuse_if(matching == 0, Refusal::NoMatch)?;
        refuse_if(taken == 0, Refusal::Stale)?;
        Ok(taken)
    }

    /// Marks each slot in use, with a timeout, not yet marked, whose time is up; the answer is how many were marked.
    pub fn check_time(&mut self, now: u64) -> Result<usize, Refusal> {
        self.judge_sizes()?;
        let mut marked = 0;
        for slot in 0..self.slots.len() {
            let Some(subscription) = &mut self.slots[slot] else { continue };
            if subscription.state == State::TimedOut || !subscription.supervision.is_up(now) {
                continue;
            }
            subscription.state = State::TimedOut;
            subscription.last = None;
            if subscription.behaviour == Behaviour::Zero {
                self.part(slot).fill(0);
            }
            marked += 1;
        }
        Ok(marked)
    }

    /// 1, 10, 1 for a record that says over 1432; else the state, and the view shown: the substitute set whole, or the
    /// first stored-length octets of the slot's part.
    pub fn read<'s>(&'s self, slot: u32, substitute: &'s [u8]) -> Result<(State, &'s [u8]), Refusal> {
        self.judge_sizes()?;
        let slot = self.in_use(slot)?;
        let subscription = self.slots[slot].expect("in use");
        let length = subscription.length as usize;
        refuse_if(length > PART, Refusal::Lent)?;
        let substituted = subscription.state != State::Valid && subscription.behaviour == Behaviour::Substitute;
        let stored = &self.store[PART * slot..PART * slot + length];
        Ok((subscription.state, if substituted { substitute } else { stored }))
    }
}

#[cfg(test)]
mod tests {
    use super::*;

    #[test]
    fn measured_by_hand() {
        let fresh = |last, counter| {
            let subscription = Subscription {
                filter: Filter { com_id: 1000, senders: SenderRange { start: 0, end: 0 }, destination: 0 },
                supervision: Timing { start: 0, timeout: 0 },
                behaviour: Behaviour::Keep,
                state: State::Valid,
                last: Some(Taken { sender: 1, counter: last }),
                length: 0,
            };
            subscription.finds_fresh(1, counter)
        };
        assert!(!fresh(5, 5));
        assert!(fresh(5, 6));
        assert!(fresh(0xFFFF_FFFF, 0));
        assert!(fresh(0, 0x7FFF_FFFF));
        assert!(!fresh(0, 0x8000_0000));
    }
}
