//! The input of the proved library's tables: the same as that of the plain ones in `scene`.

use crate::scene::{self, TAKING, URI};

fn arrival(turn: usize) -> trdp::Arrival {
    let scene::Arrival { sender, destination, time, etb_topo_cnt, op_trn_topo_cnt } = scene::arrival(turn);
    trdp::Arrival { sender, destination, time, local: trdp::TopoCounts { etb_topo_cnt, op_trn_topo_cnt } }
}

/// 32 slots in use, one of which matches.
pub struct Deliveries {
    table: trdp::Subscriptions,
    statistics: trdp::Statistics,
    datagram: Vec<u8>,
    turn: usize,
}

impl Deliveries {
    pub fn new() -> Deliveries {
        let mut table = trdp::Subscriptions::new(trdp::SLOTS);
        for number in 0..trdp::SLOTS {
            let filter = trdp::Filter { com_id: scene::slot_com_id(number), ..trdp::Filter::default() };
            table.subscribe(filter, 0, trdp::Behaviour::Keep, 0).expect("a free slot");
        }
        Deliveries { table, statistics: trdp::Statistics::default(), datagram: scene::pd_datagram(trdp::PART), turn: 0 }
    }

    /// One telegram, from one sender and the other in turn.
    pub fn deliver(&mut self) -> Result<usize, u8> {
        self.turn += 1;
        let taken = self.table.receive(&mut self.statistics, arrival(self.turn), &self.datagram);
        taken.map_err(trdp::Refusal::number)
    }

    pub fn taken(&self) -> &[u8] {
        self.table.read(TAKING, &[]).expect("in use").1
    }
}

/// 16 listeners, one of which hears, and 16 free sessions.
pub struct Requests {
    sessions: trdp::Sessions,
    statistics: trdp::Statistics,
    datagram: Vec<u8>,
    turn: usize,
}

impl Requests {
    pub fn new() -> Requests {
        let mut sessions = trdp::Sessions::default();
        for number in 0..trdp::SESSIONS {
            let (com_id, end) = scene::listener(number);
            sessions.listen(com_id, trdp::SenderRange { start: 0, end }, &URI).expect("a free listener");
        }
        Requests { sessions, statistics: trdp::Statistics::default(), datagram: scene::md_datagram(), turn: 0 }
    }

    /// A request opens a session; the user's reply frees it, so that the next finds the same table.
    pub fn request(&mut self) -> Result<(usize, usize), u8> {
        self.turn += 1;
        let opened = self.sessions.receive(&mut self.statistics, arrival(self.turn), &self.datagram);
        let opened = opened.map_err(|refused| refused.refusal.number())?;
        let trdp::MdAnswer::Requested { listener, session } = opened else { return Err(0) };
        self.sessions.reply(session, trdp::msg_type::MP, 0, 0).map_err(trdp::Refusal::number)?;
        Ok((listener, session))
    }
}
