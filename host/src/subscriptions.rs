//! The subscription table with its store.

use crate::raw::{self, Arrival, Filter, Statistics, Subscription};
use crate::refusal::Refusal;

/// The most slots in a table.
pub const SLOTS: usize = 32;
/// Slot k owns the store's octets from `PART * k` on.
pub const PART: usize = 1432;

/// What a slot shows after a timeout.
#[derive(Clone, Copy, Debug, PartialEq, Eq)]
#[repr(u8)]
pub enum Behaviour {
    Zero,
    Keep,
    Substitute,
}

/// What reading a slot says of it.
#[derive(Clone, Copy, Debug, PartialEq, Eq)]
pub enum State {
    NeverReceived,
    Valid,
    TimedOut,
}

impl State {
    pub(crate) fn of(number: u8) -> State {
        match number {
            0 => State::NeverReceived,
            1 => State::Valid,
            _ => State::TimedOut,
        }
    }
}

impl Default for Subscription {
    /// A slot that is free.
    fn default() -> Subscription {
        // SAFETY: it is lent nothing
        unsafe { raw::trdp_no_subscription() }
    }
}

impl Subscription {
    pub fn state(&self) -> State {
        State::of(self.state)
    }
}

/// The memory that a program lends for one call. A table of another size than 1432 octets a slot, or of more than 32 slots, is
/// refused with 1.
pub struct Lent<'a> {
    pub slots: &'a mut [Subscription],
    pub store: &'a mut [u8],
}

impl<'a> Lent<'a> {
    /// The slot granted, or 1, 11, 12, 13.
    pub fn subscribe(&mut self, filter: Filter, timeout: u32, behaviour: Behaviour, time: u64) -> Result<usize, Refusal> {
        let Lent { slots, store } = self;
        // SAFETY: slots and store are writable, each for its length
        let outcome = unsafe {
            raw::trdp_subscribe(
                slots.as_mut_ptr(),
                slots.len(),
                store.as_mut_ptr(),
                store.len(),
                filter,
                timeout,
                behaviour as u8,
                time,
            )
        };
        Refusal::or(outcome.refusal, outcome.value)
    }

    /// The slot is freed, or 1, 10.
    pub fn unsubscribe(&mut self, slot: usize) -> Result<(), Refusal> {
        let Lent { slots, store } = self;
        // SAFETY: slots and store are writable, each for its length
        let outcome = unsafe { raw::trdp_unsubscribe(slots.as_mut_ptr(), slots.len(), store.as_mut_ptr(), store.len(), slot) };
        Refusal::or(outcome.refusal, ())
    }

    /// How many slots took the telegram, or 1 to 9. Counted, but for 1.
    pub fn receive(&mut self, statistics: &mut Statistics, arrival: Arrival, datagram: &[u8]) -> Result<usize, Refusal> {
        let Lent { slots, store } = self;
        // SAFETY: slots, store and statistics are writable and the datagram readable, each for its length
        let outcome = unsafe {
            raw::trdp_receive_pd(
                slots.as_mut_ptr(),
                slots.len(),
                store.as_mut_ptr(),
                store.len(),
                statistics,
                arrival,
                datagram.as_ptr(),
                datagram.len(),
            )
        };
        Refusal::or(outcome.refusal, outcome.value)
    }

    /// How many slots were marked as timed out, or 1.
    pub fn check(&mut self, time: u64) -> Result<usize, Refusal> {
        let Lent { slots, store } = self;
        // SAFETY: slots and store are writable, each for its length
        let outcome =
            unsafe { raw::trdp_check_subscriptions(slots.as_mut_ptr(), slots.len(), store.as_mut_ptr(), store.len(), time) };
        Refusal::or(outcome.refusal, outcome.value)
    }

    /// What the slot shows: octets of its part of the store, or the substitute set whole; or 1, 10.
    pub fn read(self, slot: usize, substitute: &'a [u8]) -> Result<(State, &'a [u8]), Refusal> {
        shown(self.slots, self.store, slot, substitute)
    }
}

fn shown<'a>(slots: &[Subscription], store: &'a [u8], slot: usize, substitute: &'a [u8]) -> Result<(State, &'a [u8]), Refusal> {
    // SAFETY: slots and store are readable, each for its length
    let shown = unsafe { raw::trdp_read(slots.as_ptr(), slots.len(), store.as_ptr(), store.len(), slot) };
    Refusal::or(shown.refusal, ())?;
    let octets = if shown.substitute { substitute } else { &store[shown.start..shown.start + shown.length] };
    Ok((State::of(shown.state), octets))
}

/// A table of its own, all slots free at first.
#[derive(Clone, Debug)]
pub struct Subscriptions {
    slots: Vec<Subscription>,
    store: Vec<u8>,
}

impl Subscriptions {
    /// So many free slots; over 32, each call refuses with 1.
    pub fn new(slots: usize) -> Subscriptions {
        Subscriptions { slots: vec![Subscription::default(); slots], store: vec![0; slots * PART] }
    }

    fn lent(&mut self) -> Lent<'_> {
        Lent { slots: &mut self.slots, store: &mut self.store }
    }

    /// The slot granted, or 1, 11, 12, 13; the timeout in microseconds, 0: none.
    pub fn subscribe(&mut self, filter: Filter, timeout: u32, behaviour: Behaviour, time: u64) -> Result<usize, Refusal> {
        self.lent().subscribe(filter, timeout, behaviour, time)
    }

    /// The slot is freed, or 1, 10.
    pub fn unsubscribe(&mut self, slot: usize) -> Result<(), Refusal> {
        self.lent().unsubscribe(slot)
    }

    /// How many slots took the telegram, or 1 to 9. Counted, but for 1.
    pub fn receive(&mut self, statistics: &mut Statistics, arrival: Arrival, datagram: &[u8]) -> Result<usize, Refusal> {
        self.lent().receive(statistics, arrival, datagram)
    }

    /// How many slots were marked as timed out, or 1.
    pub fn check(&mut self, time: u64) -> Result<usize, Refusal> {
        self.lent().check(time)
    }

    /// What the slot shows: octets of its part of the store, or the substitute set whole; or 1, 10.
    pub fn read<'a>(&'a self, slot: usize, substitute: &'a [u8]) -> Result<(State, &'a [u8]), Refusal> {
        shown(&self.slots, &self.store, slot, substitute)
    }

    /// The records, for a program that shows its table.
    pub fn slots(&self) -> &[Subscription] {
        &self.slots
    }
}

#[cfg(test)]
mod tests {
    use super::*;
    use crate::raw::{Common, LastTaken, PdHeader, SenderRange, Timing};
    use crate::{msg_type, PD_HEADER};

    fn telegram(com_id: u32, counter: u32, dataset: &[u8]) -> Vec<u8> {
        let common =
            Common { sequence_counter: counter, protocol_version: 0x0100, msg_type: msg_type::PD, com_id, ..Common::default() };
        let mut datagram = vec![0; PD_HEADER + dataset.len()];
        PdHeader { common, ..PdHeader::default() }.write(dataset, &mut datagram).expect("it fits");
        datagram
    }

    #[test]
    fn each_call_once() {
        let mut table = Subscriptions::new(2);
        let mut statistics = Statistics::default();
        let filter = Filter { com_id: 1000, ..Filter::default() };
        assert_eq!(table.subscribe(filter, 50, Behaviour::Substitute, 0), Ok(0));
        assert_eq!(table.subscribe(filter, 0, Behaviour::Keep, 0), Err(Refusal::FilterInUse));
        assert_eq!(table.read(0, b"none"), Ok((State::NeverReceived, &b"none"[..])));
        let arrival = Arrival { sender: 1, time: 10, ..Arrival::default() };
        assert_eq!(table.receive(&mut statistics, arrival, &telegram(1000, 7, b"open")), Ok(1));
        assert_eq!(table.receive(&mut statistics, arrival, &telegram(1000, 7, b"shut")), Err(Refusal::Stale));
        assert_eq!(table.receive(&mut statistics, arrival, &telegram(1001, 8, b"shut")), Err(Refusal::NoMatch));
        assert_eq!(table.read(0, b""), Ok((State::Valid, &b"open"[..])));
        assert_eq!(table.slots()[0].last.counter, 7);
        assert_eq!(table.check(59), Ok(0));
        assert_eq!(table.check(60), Ok(1));
        assert_eq!(table.read(0, b"none"), Ok((State::TimedOut, &b"none"[..])));
        assert_eq!(table.unsubscribe(0), Ok(()));
        assert_eq!(table.unsubscribe(0), Err(Refusal::NoSlot));
        assert_eq!(table.read(2, b""), Err(Refusal::NoSlot));
        let counted = statistics.pd;
        assert_eq!((counted.received, counted.delivered, counted.refused[8], counted.refused[9]), (3, 1, 1, 1));
        assert_eq!(statistics.md, Statistics::default().md);
    }

    #[test]
    fn memory_of_another_size() {
        let mut statistics = Statistics::default();
        let mut table = Subscriptions::new(33);
        assert_eq!(table.check(0), Err(Refusal::LentSizes));
        let mut slots = [Subscription::default(); 2];
        let mut store = [0; 2 * PART + 1];
        let mut lent = Lent { slots: &mut slots, store: &mut store };
        assert_eq!(lent.receive(&mut statistics, Arrival::default(), &[]), Err(Refusal::LentSizes));
        assert_eq!(statistics, Statistics::default());
        assert_eq!(lent.read(0, b""), Err(Refusal::LentSizes));
    }

    /// A record that nobody wrote: every value of every field has a meaning.
    #[test]
    fn a_damaged_table_is_read() {
        for octet in [1, 2, 0x80, 0xFF] {
            let filter = Filter { com_id: 5, senders: SenderRange { start: 0, end: u32::MAX }, destination: 0 };
            let damaged = Subscription {
                used: octet,
                filter,
                timing: Timing { start: u64::MAX, timeout: u32::MAX },
                behaviour: 0xFF,
                state: 0xFF,
                last: LastTaken { held: octet, sender: 1, counter: u32::MAX },
                length: u32::MAX,
            };
            let mut table = Subscriptions::new(1);
            table.slots[0] = damaged;
            let mut statistics = Statistics::default();
            let arrival = Arrival { sender: 1, ..Arrival::default() };
            assert_eq!(table.subscribe(filter, 0, Behaviour::Keep, 0), Err(Refusal::FilterInUse));
            assert_eq!(table.subscribe(Filter::default(), 0, Behaviour::Keep, 0), Err(Refusal::NoFreeSlot));
            assert_eq!(table.read(0, b""), Err(Refusal::LentSizes));
            assert_eq!(table.check(u64::MAX), Ok(0));
            assert_eq!(table.receive(&mut statistics, arrival, &telegram(5, u32::MAX, b"shut")), Err(Refusal::Stale));
            assert_eq!(table.receive(&mut statistics, arrival, &telegram(5, 0, b"open")), Ok(1));
            assert_eq!(table.read(0, b""), Ok((State::Valid, &b"open"[..])));
            assert_eq!(table.unsubscribe(0), Ok(()));
            assert_eq!(table.slots()[0], Subscription::default());
        }
    }
}
