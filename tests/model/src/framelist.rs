//! The listing program.

use crate::address::{Arrival, SenderRange};
use crate::hex::{lines, Fields};
use crate::refusal::Refusal;
use crate::statistics::Statistics;
use crate::subscriptions::{Behaviour, Filter, Lent, PART};
use crate::topography::Local;

/// The longest datagram of a line.
const DATAGRAM: usize = 1472;

/// ComId 1000, any sender, any destination.
const FILTER: Filter = Filter { com_id: 1000, senders: SenderRange { start: 0, end: 0 }, destination: 0 };

/// Line 1: local etbTopoCnt and opTrnTopoCnt.
fn start(line: &[u8]) -> Option<Local> {
    let mut fields = Fields::of(line);
    let local = Local { etb_topo_cnt: fields.number8()?, op_trn_topo_cnt: fields.number8()? };
    fields.end()?;
    Some(local)
}

/// Sender, destination, time, datagram.
fn frame(line: &[u8]) -> Option<(Arrival, Vec<u8>)> {
    let mut fields = Fields::of(line);
    let arrival = Arrival { sender: fields.number8()?, destination: fields.number8()?, time: fields.number16()? };
    let datagram = fields.octets()?;
    fields.end()?;
    (datagram.len() <= DATAGRAM).then_some((arrival, datagram))
}

/// The whole output for the whole input.
pub fn framelist(input: &[u8]) -> String {
    let mut lines = lines(input);
    let first = lines.next().and_then(|(line, ended)| if ended { start(line) } else { None });
    let Some(local) = first else {
        return "bad start\n".into();
    };
    let (mut slots, mut store) = (vec![None], vec![0; PART]);
    let mut table = Lent { slots: &mut slots, store: &mut store };
    table.subscribe(FILTER, 0, Behaviour::Keep, 0).expect("an empty table has a free slot");

    let mut statistics = Statistics::default();
    let mut output = String::new();
    let (mut delivered, mut refused) = (0, 0);
    for (index, (line, ended)) in lines.enumerate() {
        let told = match frame(line).filter(|_| ended) {
            None => "bad line".into(),
            Some((arrival, datagram)) => {
                let outcome: Result<usize, Refusal> = table.receive(&datagram, &arrival, local, &mut statistics);
                match outcome {
                    Ok(count) => {
                        delivered += 1;
                        format!("delivered {count}")
                    }
                    Err(refusal) => {
                        refused += 1;
                        format!("refused {}", refusal.number())
                    }
                }
            }
        };
        output.push_str(&format!("{} {told}\n", index + 1));
    }
    output.push_str(&format!("total {} delivered {delivered} refused {refused}\n", delivered + refused));
    output
}
