//! Scenarios at random, valid and damaged. The generator runs the model beside it, so that it can aim: at the counter a slot took
//! last, at the instant a timeout is up, at an identifier that is waiting.

mod bad;
pub mod capture;
mod data;
mod md;
mod pd;
mod telegrams;
mod wire;

use crate::headers::{Family, PD};
use crate::language::Stack;
use crate::random::Random;
use crate::timing::Timing;

/// Verbs that belong together; a program under construction may have some of these groups only.
#[derive(Clone, Copy, Debug, PartialEq, Eq)]
pub enum Group {
    Wire,
    Data,
    Pd,
    Md,
}

pub const GROUPS: [(&str, Group); 4] = [("wire", Group::Wire), ("data", Group::Data), ("pd", Group::Pd), ("md", Group::Md)];

/// What a scenario leans to, so that tables fill in some and empty in others.
#[derive(Clone, Copy, PartialEq, Eq)]
enum Lean {
    Filling,
    Even,
    Emptying,
}

pub struct Generator {
    random: Random,
    stack: Stack,
    groups: Vec<Group>,
    /// how many of `COM_IDS` most filters and telegrams have
    usual_com_ids: usize,
    lean: Lean,
    /// a careless line has several faults at once, so that the order of refusals shows
    careless: bool,
    time: u64,
    /// a slot that the last call may have changed
    changed: Option<u32>,
    /// a description run of the generator's own, as last handed over
    run: Vec<u32>,
}

const COM_IDS: [u32; 5] = [1000, 1001, 1002, 0, 0xFFFF_FFFF];
const SENDERS: [u32; 8] = [0x0A00_0001, 0x0A00_0002, 0x0A00_0003, 0x0A00_0004, 0, 1, 0x8000_0000, 0xFFFF_FFFF];
const DESTINATIONS: [u32; 4] = [0xEF00_0001, 0xEF00_0002, 0, 0xFFFF_FFFF];
const TOPO_COUNTERS: [u32; 4] = [0, 7, 8, 9];
const COUNTERS: [u32; 8] = [0, 1, 5, 0x7FFF_FFFF, 0x8000_0000, 0x8000_0001, 0xFFFF_FFFE, 0xFFFF_FFFF];
const TIMEOUTS: [u32; 8] = [0, 1, 2, 10, 100, 1000, 0x7FFF_FFFF, 0xFFFF_FFFF];

/// One scenario of this many lines.
pub fn scenario(seed: u64, calls: usize, groups: &[Group]) -> Vec<u8> {
    let mut generator = Generator::of(seed, groups);
    let mut input = Vec::new();
    for _ in 0..calls {
        let line = generator.line();
        generator.stack.call(&line);
        input.extend_from_slice(&line);
        input.push(b'\n');
    }
    if generator.random.once_in(8) {
        input.pop();
    }
    input
}

impl Generator {
    fn of(seed: u64, groups: &[Group]) -> Generator {
        let mut random = Random::of(seed);
        let lean = random.pick(&[Lean::Filling, Lean::Even, Lean::Emptying]);
        let time = random.pick(&[0, 1_000, 1 << 32, 1 << 63, u64::MAX - 100_000]);
        Generator {
            random,
            stack: Stack::new(),
            groups: groups.to_vec(),
            usual_com_ids: 2,
            lean,
            careless: false,
            time,
            changed: None,
            run: Vec::new(),
        }
    }

    /// Is something to be wrong here? Once in so many times, and often in a careless line.
    fn is_wrong(&mut self, times: usize) -> bool {
        self.random.once_in(if self.careless { 3 } else { times })
    }

    /// The next line, without its LF.
    fn line(&mut self) -> Vec<u8> {
        self.careless = self.random.once_in(15);
        let line = match self.random.pick(&self.groups) {
            Group::Wire => self.wire_line(),
            Group::Data => self.data_line(),
            Group::Pd => self.pd_line(),
            Group::Md => self.md_line(),
        };
        if self.random.chance(4) {
            self.damaged_line(line.into_bytes())
        } else {
            line.into_bytes()
        }
    }

    fn com_id(&mut self) -> u32 {
        if self.random.chance(75) {
            self.random.pick(&COM_IDS[..self.usual_com_ids])
        } else {
            self.random.pick(&COM_IDS)
        }
    }

    /// The two counters of a telegram, most often such that pass.
    fn topo_counters(&mut self) -> (u32, u32) {
        let local = self.stack.local;
        if self.is_wrong(12) {
            return (self.random.pick(&TOPO_COUNTERS), self.random.pick(&TOPO_COUNTERS));
        }
        self.random.pick(&[(0, 0), (0, 0), (local.etb_topo_cnt, local.op_trn_topo_cnt), (local.etb_topo_cnt, 0)])
    }

    /// A clock reading: it mostly goes on in small steps, and sometimes jumps to where a timeout is just up or just not.
    fn now(&mut self, running: &[Timing]) -> u64 {
        self.time = match self.random.below(20) {
            0..=9 => self.time.saturating_add(self.random.below(4) as u64),
            10..=13 => self.time.saturating_add(self.random.below(1200) as u64),
            14 => self.time.saturating_sub(self.random.below(200) as u64),
            15..=18 if !running.is_empty() => {
                let Timing { start, timeout } = self.random.pick(running);
                // the long timeouts would soon carry the clock to its end
                let timeout = if timeout > 1000 && !self.random.once_in(20) { 0 } else { timeout };
                let end = start.saturating_add(u64::from(timeout));
                self.random.pick(&[end, end.saturating_sub(1), end.saturating_add(1), start.saturating_sub(1)])
            }
            19 if self.random.once_in(20) => self.random.next(),
            _ => self.time,
        };
        self.time
    }

    fn timeout(&mut self) -> u32 {
        if self.random.chance(10) {
            self.random.number()
        } else {
            self.random.pick(&TIMEOUTS)
        }
    }

    /// A number of a slot in a table of this size: mostly one in use, sometimes none at all.
    fn slot_number(&mut self, used: &[usize], size: usize) -> u32 {
        match self.random.below(20) {
            _ if self.is_wrong(15) => self.random.pick(&[size as u32, size as u32 + 1, 0x8000_0000, 0xFFFF_FFFF, 0x0000_0100]),
            0..=15 if !used.is_empty() => self.random.pick(used) as u32,
            _ => self.random.below(size) as u32,
        }
    }

    /// The room of a target for so many octets: mostly enough.
    fn room(&mut self, needed: usize) -> u16 {
        let room = if self.is_wrong(4) {
            let near = [needed.saturating_sub(1), needed.saturating_sub(4), self.random.below(needed + 1), 0];
            self.random.pick(&near)
        } else {
            needed + self.random.pick(&[0, 0, 1, 3, 20, 200])
        };
        room.min(0xFFFF) as u16
    }

    /// How long a dataset is: mostly short, sometimes at or just over the limit; seldom so where that is a long line.
    fn dataset_length(&mut self, family: &Family) -> usize {
        let seldom = if family.limit == PD.limit { 1 } else { 4 };
        if self.is_wrong(10 * seldom) && self.random.once_in(4) {
            return family.limit + 1 + self.random.below(4);
        }
        match self.random.below(40 * seldom) {
            0 => family.limit - self.random.below(5),
            1..=8 => self.random.below(200),
            9 => self.random.below(2000).min(family.limit),
            _ => self.random.below(14),
        }
    }
}

/// The numbers of the slots in use.
fn used<T>(slots: &[Option<T>]) -> Vec<usize> {
    (0..slots.len()).filter(|slot| slots[*slot].is_some()).collect()
}
