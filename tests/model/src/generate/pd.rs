//! `sub unsub pd check read slot part lend damage stats`.

use super::{used, Generator, Lean, COUNTERS, DESTINATIONS, SENDERS};
use crate::address::SenderRange;
use crate::hex::shown;
use crate::subscriptions::{PART, SLOTS};
use crate::timing::Timing;

impl Generator {
    pub fn pd_line(&mut self) -> String {
        if !self.stack.memory.is_lent_whole() && self.random.chance(15) {
            return format!("lend {SLOTS:08X} {:08X}", SLOTS * PART);
        }
        if let Some(slot) = self.changed.take() {
            if self.random.chance(25) {
                return self.look_line(slot);
            }
        }
        let (granting, freeing) = match self.lean {
            Lean::Filling => (20, 1),
            Lean::Even => (8, 4),
            Lean::Emptying => (5, 8),
        };
        match self.random.below(60) {
            roll if roll < granting => self.sub_line(),
            roll if roll < granting + freeing => self.unsub_line(),
            50..=52 => {
                let slot = self.subscription_number();
                self.look_line(slot)
            }
            53 => self.lend_line(),
            54 => self.damage_line(),
            55 => "stats".into(),
            56 if self.random.once_in(2) => self.local_line(),
            57..=59 => self.check_line(),
            _ => self.pd_telegram_line(),
        }
    }

    /// What a slot holds: its record, its part of the store, or what reading shows.
    fn look_line(&mut self, slot: u32) -> String {
        match self.random.below(3) {
            0 => format!("slot {slot:08X}"),
            1 => format!("part {slot:08X}"),
            _ => {
                let length = if self.random.once_in(30) { self.random.below(2000) } else { self.random.below(20) };
                format!("read {slot:08X} {}", shown(&self.random.octets(length)))
            }
        }
    }

    fn unsub_line(&mut self) -> String {
        let slot = self.subscription_number();
        self.changed = Some(slot);
        format!("unsub {slot:08X}")
    }

    fn check_line(&mut self) -> String {
        self.changed = Some(self.subscription_number());
        let running = self.supervisions();
        format!("check {:016X}", self.now(&running))
    }

    fn subscription_number(&mut self) -> u32 {
        let used = used(&self.stack.memory.slots);
        self.slot_number(&used, SLOTS)
    }

    fn supervisions(&self) -> Vec<Timing> {
        self.stack.memory.slots.iter().flatten().map(|subscription| subscription.supervision).collect()
    }

    pub fn sender_range(&mut self) -> SenderRange {
        let (one, other) = (self.random.pick(&SENDERS), self.random.pick(&SENDERS));
        let (start, end) = match self.random.below(12) {
            _ if self.is_wrong(15) => (one, other),
            0..=4 => (0, 0),
            5 | 6 => (one, 0),
            7..=10 => (one.min(other), one.max(other)),
            _ => (0, one),
        };
        SenderRange { start, end }
    }

    fn sub_line(&mut self) -> String {
        let (com_id, senders) = (self.com_id(), self.sender_range());
        let destination = if self.random.chance(40) { 0 } else { self.destination() };
        let (timeout, behaviour) = (self.timeout(), self.random.below(3));
        let behaviour = if self.random.once_in(60) { self.random.pick(&[3, 10, 15]) } else { behaviour };
        let running = self.supervisions();
        let now = self.now(&running);
        format!(
            "sub {com_id:08X} {:08X} {:08X} {destination:08X} {timeout:08X} {behaviour:X} {now:016X}",
            senders.start, senders.end
        )
    }

    pub fn destination(&mut self) -> u32 {
        self.random.pick(&DESTINATIONS)
    }

    /// Most telegrams come from a few senders, so that counters follow one another.
    pub fn sender(&mut self) -> u32 {
        if self.random.chance(70) {
            self.random.pick(&SENDERS[..2])
        } else {
            self.random.pick(&SENDERS)
        }
    }

    /// A counter at a chosen distance from one that a slot took last.
    fn counter(&mut self) -> u32 {
        let taken: Vec<u32> =
            self.stack.memory.slots.iter().flatten().filter_map(|slot| slot.last).map(|last| last.counter).collect();
        if taken.is_empty() || self.random.chance(15) {
            return self.random.pick(&COUNTERS);
        }
        let ahead = self.random.pick(&[1, 1, 1, 1, 2, 0, 0xFFFF_FFFF, 0x7FFF_FFFF, 0x8000_0000]);
        self.random.pick(&taken).wrapping_add(ahead)
    }

    fn pd_telegram_line(&mut self) -> String {
        self.changed = Some(self.subscription_number());
        let (sender, destination, counter) = (self.sender(), self.destination(), self.counter());
        let running = self.supervisions();
        let now = self.now(&running);
        format!("pd {sender:08X} {destination:08X} {now:016X} {}", shown(&self.pd_datagram(counter)))
    }

    /// Sizes that fit, and such that do not.
    fn lend_line(&mut self) -> String {
        let slots = self.random.below(SLOTS + 1);
        let (slots, octets) = match self.random.below(12) {
            0..=4 => (slots, PART * slots),
            5 => (slots, PART * slots + 1),
            6 => (slots, (PART * slots).saturating_sub(1)),
            7 => (SLOTS + 1, PART * (SLOTS + 1)),
            8 => (40, 57_280),
            9 => self.random.pick(&[(41, 57_280), (32, 57_281), (0xFFFF_FFFF, 0), (0, 0xFFFF_FFFF)]),
            10 => (0, self.random.below(2)),
            _ => (slots, PART * self.random.below(41)),
        };
        format!("lend {slots:08X} {octets:08X}")
    }

    fn damage_line(&mut self) -> String {
        let slot = self.subscription_number();
        self.changed = Some(slot);
        let length = self.random.pick(&[0, 1, 7, 1431, 1432, 1433, 65_535, u32::MAX]);
        format!("damage {slot:08X} {length:08X}")
    }
}
