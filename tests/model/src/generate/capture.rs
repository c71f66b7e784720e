//! Captures for `framelist`.

use super::{Generator, Group, COUNTERS, TOPO_COUNTERS};
use crate::hex::shown;

/// A capture of so many frame lines behind its first; some have fewer than three.
pub fn capture(seed: u64, frames: usize) -> Vec<u8> {
    let mut generator = Generator::of(seed, &[Group::Pd]);
    generator.usual_com_ids = 1;
    let short = generator.random.below(8).min(frames);
    let frames = if short < 3 { short } else { frames };
    let mut input = generator.first_line();
    input.push(b'\n');
    let mut counter = generator.random.pick(&COUNTERS);
    for _ in 0..frames {
        let line = generator.frame_line(&mut counter);
        input.extend_from_slice(&line);
        input.push(b'\n');
    }
    match generator.random.below(9) {
        0..=2 => drop(input.pop()),
        3 if frames == 0 => input.clear(),
        _ => {}
    }
    input
}

impl Generator {
    fn first_line(&mut self) -> Vec<u8> {
        let (etb, op_trn) = (self.random.pick(&TOPO_COUNTERS), self.random.pick(&TOPO_COUNTERS));
        self.stack.local.etb_topo_cnt = etb;
        self.stack.local.op_trn_topo_cnt = op_trn;
        let line = format!("{etb:08X} {op_trn:08X}").into_bytes();
        if self.random.once_in(5) {
            self.damaged_line(line)
        } else {
            line
        }
    }

    /// A frame whose counter mostly follows the last one's.
    fn frame_line(&mut self, counter: &mut u32) -> Vec<u8> {
        let ahead = self.random.pick(&[1, 1, 1, 1, 2, 0, 0xFFFF_FFFF, 0x7FFF_FFFF, 0x8000_0000]);
        let (sender, destination, now) = (self.sender(), self.destination(), self.now(&[]));
        let mut datagram = self.pd_datagram(counter.wrapping_add(ahead));
        if self.random.once_in(200) {
            datagram.resize(self.random.pick(&[1472, 1473, 1500]), 0);
        }
        *counter = counter.wrapping_add(ahead);
        let line = format!("{sender:08X} {destination:08X} {now:016X} {}", shown(&datagram)).into_bytes();
        if self.random.chance(6) {
            self.damaged_line(line)
        } else {
            line
        }
    }
}
