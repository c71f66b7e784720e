//! The two-counter rule.

use crate::headers::Common;
use crate::refusal::{refuse_if, Refusal};

/// The two local topography counters.
#[derive(Clone, Copy, Debug, Default)]
pub struct Local {
    pub etb_topo_cnt: u32,
    pub op_trn_topo_cnt: u32,
}

/// A telegram's counter of 0 is not compared; one that is not 0 must equal the local one.
fn agrees(telegram: u32, local: u32) -> bool {
    telegram == 0 || telegram == local
}

/// opTrnTopoCnt not 0 beside etbTopoCnt 0 is refused.
pub fn judge(header: &Common, local: Local) -> Result<(), Refusal> {
    let beside_zero = header.etb_topo_cnt == 0 && header.op_trn_topo_cnt != 0;
    let passes =
        agrees(header.etb_topo_cnt, local.etb_topo_cnt) && agrees(header.op_trn_topo_cnt, local.op_trn_topo_cnt) && !beside_zero;
    refuse_if(!passes, Refusal::Topography)
}

#[cfg(test)]
mod tests {
    use super::*;

    #[test]
    fn measured_by_hand() {
        let local = Local { etb_topo_cnt: 7, op_trn_topo_cnt: 9 };
        let passes = |etb_topo_cnt, op_trn_topo_cnt| {
            let header = Common {
                sequence_counter: 0,
                protocol_version: 0x0100,
                msg_type: 0x5064,
                com_id: 0,
                etb_topo_cnt,
                op_trn_topo_cnt,
                dataset_length: 0,
            };
            judge(&header, local).is_ok()
        };
        assert!(!passes(7, 8));
        assert!(passes(7, 0));
        assert!(!passes(0, 9));
    }
}
