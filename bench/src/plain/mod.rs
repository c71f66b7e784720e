//! The same calls in plain Rust, as one writes them without proofs: memory lent by the caller, no heap, one pass.

pub mod datasets;
pub mod fcs;
pub mod headers;
pub mod sessions;
pub mod subscriptions;

/// What the host says of an arriving telegram.
#[derive(Clone, Copy)]
pub struct Arrival {
    pub sender: u32,
    pub destination: u32,
    pub time: u64,
    pub etb_topo_cnt: u32,
    pub op_trn_topo_cnt: u32,
}

/// Both ends 0: any; end 0: only the start; else start to end.
#[derive(Clone, Copy, Default)]
pub struct SenderRange {
    pub start: u32,
    pub end: u32,
}

impl SenderRange {
    pub fn admits(self, sender: u32) -> bool {
        if self.end == 0 {
            self.start == 0 || self.start == sender
        } else {
            self.start <= sender && sender <= self.end
        }
    }
}
