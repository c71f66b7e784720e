//! Delivering a PD telegram into the lent table.

use super::fcs::FrameCheck;
use super::headers::{judge_topography, take_pd, PD_HEADER};
use super::{Arrival, SenderRange};

pub const PART: usize = 1432;

#[derive(Clone, Copy, Default)]
pub struct Subscription {
    pub in_use: bool,
    pub com_id: u32,
    pub senders: SenderRange,
    pub destination: u32,
    pub valid: bool,
    pub has_counter: bool,
    pub sender: u32,
    pub counter: u32,
    pub start: u64,
    pub length: u32,
}

/// Received, delivered, and the refusals by number.
#[derive(Clone, Copy, Default)]
pub struct Statistics {
    pub received: u32,
    pub outcomes: [u32; 21],
}

impl Subscription {
    fn matches(&self, com_id: u32, arrival: &Arrival) -> bool {
        self.in_use
            && self.com_id == com_id
            && self.senders.admits(arrival.sender)
            && (self.destination == 0 || self.destination == arrival.destination)
    }

    fn finds_fresh(&self, sender: u32, counter: u32) -> bool {
        let ahead = counter.wrapping_sub(self.counter);
        !self.has_counter || self.sender != sender || (1..=0x7FFF_FFFF).contains(&ahead)
    }
}

impl Statistics {
    pub fn add(&mut self, outcome: u8) {
        self.received = self.received.wrapping_add(1);
        let counter = &mut self.outcomes[usize::from(outcome)];
        *counter = counter.wrapping_add(1);
    }
}

/// How many slots took the telegram, or the refusal.
#[inline(never)]
pub fn receive(
    slots: &mut [Subscription],
    store: &mut [u8],
    arrival: &Arrival,
    datagram: &[u8],
    statistics: &mut Statistics,
    frame_check: impl FrameCheck,
) -> Result<usize, u8> {
    if slots.len() > 32 || store.len() != PART * slots.len() {
        return Err(1);
    }
    let outcome = deliver(slots, store, arrival, datagram, frame_check);
    statistics.add(outcome.err().unwrap_or(0));
    outcome
}

fn deliver(
    slots: &mut [Subscription],
    store: &mut [u8],
    arrival: &Arrival,
    datagram: &[u8],
    frame_check: impl FrameCheck,
) -> Result<usize, u8> {
    let header = take_pd(datagram, frame_check)?;
    judge_topography(&header.common, arrival)?;
    let counter = header.common.sequence_counter;
    let dataset = &datagram[PD_HEADER..PD_HEADER + header.common.dataset_length as usize];
    let (mut matching, mut taken) = (false, 0);
    for (slot, part) in slots.iter_mut().zip(store.chunks_exact_mut(PART)) {
        if !slot.matches(header.common.com_id, arrival) {
            continue;
        }
        matching = true;
        if slot.finds_fresh(arrival.sender, counter) {
            slot.valid = true;
            slot.has_counter = true;
            slot.sender = arrival.sender;
            slot.counter = counter;
            slot.start = arrival.time;
            slot.length = header.common.dataset_length;
            part[..dataset.len()].copy_from_slice(dataset);
            taken += 1;
        }
    }
    match (matching, taken) {
        (false, _) => Err(8),
        (true, 0) => Err(9),
        (true, taken) => Ok(taken),
    }
}
