//! Listeners and message sessions.

use crate::raw::{self, Arrival, SenderRange, Statistics, TABLES};
use crate::refusal::Refusal;

/// How many sessions there are, and how many listeners.
pub const SESSIONS: usize = 16;

/// What became of an MD telegram; listeners and sessions by number.
#[derive(Clone, Copy, Debug, PartialEq, Eq)]
pub enum MdAnswer {
    /// Mn.
    Notified { listener: usize },
    /// Mr.
    Requested { listener: usize, session: usize },
    /// Mp, Me, Mq, Mc.
    Taken { reply_status: i32, session: usize },
}

/// An MD refusal, with the status for the Me to be sent: -3 or -4 for a request, else 0.
#[derive(Clone, Copy, Debug, PartialEq, Eq)]
pub struct MdRefusal {
    pub refusal: Refusal,
    pub status: i32,
}

/// What a session waits for.
#[derive(Clone, Copy, Debug, PartialEq, Eq)]
pub enum SessionState {
    WaitingForReply,
    OwingConfirm,
    WithUser,
    WaitingForConfirm,
}

/// A session in use.
#[derive(Clone, Copy, Debug, PartialEq, Eq)]
pub struct Session {
    pub id: [u8; 16],
    pub state: SessionState,
    pub start: u64,
    pub timeout: u32,
}

/// 16 listeners and 16 sessions, as the octets that a host lends.
#[derive(Clone, Debug)]
pub struct Sessions {
    tables: [u8; TABLES],
}

impl Default for Sessions {
    /// The empty tables.
    fn default() -> Sessions {
        Sessions { tables: [0; TABLES] }
    }
}

impl Sessions {
    /// The listener's number, or 11, 20, 12, 13. An empty URI hears any destination.
    pub fn listen(&mut self, com_id: u32, senders: SenderRange, uri: &[u8; 32]) -> Result<usize, Refusal> {
        // SAFETY: the tables are writable and the URI field readable
        let outcome = unsafe { raw::trdp_listen(&mut self.tables, com_id, senders, uri) };
        Refusal::or(outcome.refusal, outcome.value)
    }

    /// The listener is removed, or 10.
    pub fn unlisten(&mut self, listener: usize) -> Result<(), Refusal> {
        // SAFETY: the tables are writable
        let outcome = unsafe { raw::trdp_unlisten(&mut self.tables, listener) };
        Refusal::or(outcome.refusal, ())
    }

    /// The session that waits for reply, or 17, 18; the timeout in microseconds, 0: none.
    pub fn call(&mut self, session_id: &[u8; 16], timeout: u32, time: u64) -> Result<usize, Refusal> {
        // SAFETY: the tables are writable and the identifier readable
        let outcome = unsafe { raw::trdp_call(&mut self.tables, session_id, timeout, time) };
        Refusal::or(outcome.refusal, outcome.value)
    }

    /// What became of the telegram. Counted.
    pub fn receive(&mut self, statistics: &mut Statistics, arrival: Arrival, datagram: &[u8]) -> Result<MdAnswer, MdRefusal> {
        // SAFETY: tables and statistics are writable and the datagram readable for its length
        let raw::MdOutcome { kind, refusal, status, listener, session } =
            unsafe { raw::trdp_receive_md(&mut self.tables, statistics, arrival, datagram.as_ptr(), datagram.len()) };
        Refusal::or(refusal, ()).map_err(|refusal| MdRefusal { refusal, status })?;
        Ok(match kind {
            1 => MdAnswer::Notified { listener },
            2 => MdAnswer::Requested { listener, session },
            _ => MdAnswer::Taken { reply_status: status, session },
        })
    }

    /// The user's reply, or 5, 10, 19: Mp frees the session, Mq waits for confirm with this timeout.
    pub fn reply(&mut self, session: usize, msg_type: u16, timeout: u32, time: u64) -> Result<(), Refusal> {
        // SAFETY: the tables are writable
        let outcome = unsafe { raw::trdp_reply(&mut self.tables, session, msg_type, timeout, time) };
        Refusal::or(outcome.refusal, ())
    }

    /// The user's confirm, or 10, 19: the session is freed.
    pub fn confirm(&mut self, session: usize) -> Result<(), Refusal> {
        // SAFETY: the tables are writable
        let outcome = unsafe { raw::trdp_confirm(&mut self.tables, session) };
        Refusal::or(outcome.refusal, ())
    }

    /// Frees every session whose time is up. For each 0, or -6 waiting for reply, -8 waiting for confirm, -2 the other two.
    pub fn check(&mut self, time: u64) -> [i32; SESSIONS] {
        // SAFETY: the tables are writable
        unsafe { raw::trdp_check_sessions(&mut self.tables, time) }.codes
    }

    /// The session, nothing where it is free, or 10.
    pub fn session(&self, session: usize) -> Result<Option<Session>, Refusal> {
        // SAFETY: the tables are readable
        let raw::SessionSeen { refusal, state, id, start, timeout } = unsafe { raw::trdp_session(&self.tables, session) };
        Refusal::or(refusal, ())?;
        let state = match state {
            1 => SessionState::WaitingForReply,
            2 => SessionState::OwingConfirm,
            3 => SessionState::WithUser,
            4 => SessionState::WaitingForConfirm,
            _ => return Ok(None),
        };
        Ok(Some(Session { id, state, start, timeout }))
    }
}

#[cfg(test)]
mod tests {
    use super::*;
    use crate::raw::{Common, MdHeader};
    use crate::{msg_type, MdTelegram, MD_HEADER};

    const ID: [u8; 16] = *b"session number 1";

    fn telegram(msg_type: u16, reply_status: i32) -> [u8; MD_HEADER] {
        let common = Common { protocol_version: 0x0100, msg_type, com_id: 1000, ..Common::default() };
        let header = MdHeader { common, reply_status, reply_timeout: 50 };
        let mut datagram = [0; MD_HEADER];
        MdTelegram { header, session_id: ID, ..MdTelegram::default() }.write(&[], &mut datagram).expect("it fits");
        datagram
    }

    fn at(time: u64) -> Arrival {
        Arrival { sender: 1, time, ..Arrival::default() }
    }

    #[test]
    fn caller() {
        let (mut sessions, mut statistics) = (Sessions::default(), Statistics::default());
        assert_eq!(sessions.call(&ID, 100, 5), Ok(0));
        assert_eq!(sessions.call(&ID, 100, 5), Err(Refusal::SessionInUse));
        let waiting = Session { id: ID, state: SessionState::WaitingForReply, start: 5, timeout: 100 };
        assert_eq!(sessions.session(0), Ok(Some(waiting)));
        assert_eq!(sessions.confirm(0), Err(Refusal::NoSession));
        let taken = MdAnswer::Taken { reply_status: -7, session: 0 };
        assert_eq!(sessions.receive(&mut statistics, at(10), &telegram(msg_type::MQ, -7)), Ok(taken));
        let owing = Session { id: ID, state: SessionState::OwingConfirm, start: 10, timeout: 50 };
        assert_eq!(sessions.session(0), Ok(Some(owing)));
        assert_eq!(sessions.confirm(0), Ok(()));
        assert_eq!(sessions.session(0), Ok(None));
        assert_eq!(sessions.session(16), Err(Refusal::NoSlot));
        assert_eq!(statistics.md.delivered, 1);
        assert_eq!(statistics.pd, Statistics::default().pd);
    }

    #[test]
    fn replier() {
        let (mut sessions, mut statistics) = (Sessions::default(), Statistics::default());
        let none = MdRefusal { refusal: Refusal::NoMatch, status: -3 };
        assert_eq!(sessions.receive(&mut statistics, at(1), &telegram(msg_type::MR, 0)), Err(none));
        assert_eq!(sessions.listen(1000, SenderRange::default(), &[0; 32]), Ok(0));
        assert_eq!(sessions.receive(&mut statistics, at(1), &telegram(msg_type::MN, 0)), Ok(MdAnswer::Notified { listener: 0 }));
        let opened = MdAnswer::Requested { listener: 0, session: 0 };
        assert_eq!(sessions.receive(&mut statistics, at(1), &telegram(msg_type::MR, 0)), Ok(opened));
        assert_eq!(sessions.reply(0, msg_type::MN, 0, 2), Err(Refusal::Type));
        assert_eq!(sessions.reply(0, msg_type::MQ, 20, 2), Ok(()));
        assert_eq!(sessions.check(21), [0; SESSIONS]);
        let mut codes = [0; SESSIONS];
        codes[0] = -8;
        assert_eq!(sessions.check(22), codes);
        assert_eq!(sessions.unlisten(0), Ok(()));
        assert_eq!(sessions.unlisten(0), Err(Refusal::NoSlot));
        assert_eq!((statistics.md.received, statistics.md.delivered, statistics.md.refused[8]), (3, 2, 1));
    }
}
