//! Listeners and message sessions.

use crate::address::{Arrival, SenderRange};
use crate::headers::{self, uri, MdHeader};
use crate::refusal::{refuse_if, Refusal};
use crate::statistics::Statistics;
use crate::timing::Timing;
use crate::topography::{self, Local};

pub const LISTENERS: usize = 16;
pub const SESSIONS: usize = 16;

#[derive(Clone, Debug, PartialEq, Eq)]
pub struct Listener {
    pub com_id: u32,
    pub senders: SenderRange,
    /// up to the first zero octet; empty: any
    pub destination_uri: Vec<u8>,
}

/// Each waiting state carries its start and timeout.
#[derive(Clone, Copy, Debug, PartialEq, Eq)]
pub enum State {
    WaitingForReply(Timing),
    OwingConfirm(Timing),
    WithUser(Timing),
    WaitingForConfirm(Timing),
}

#[derive(Clone, Copy, Debug, PartialEq, Eq)]
pub struct Session {
    pub id: [u8; 16],
    pub state: State,
}

/// The answer to an arriving MD telegram; listeners and sessions by number.
#[derive(Clone, Copy, Debug, PartialEq, Eq)]
pub enum Answer {
    Notified { listener: usize },
    Opened { listener: usize, session: usize },
    Taken { reply_status: i32, session: usize },
}

/// An MD refusal also carries a status, for the Me to be sent.
#[derive(Clone, Copy, Debug, PartialEq, Eq)]
pub struct MdRefusal {
    pub refusal: Refusal,
    pub status: i32,
}

#[derive(Clone, Debug, Default)]
pub struct Sessions {
    pub listeners: [Option<Listener>; LISTENERS],
    pub sessions: [Option<Session>; SESSIONS],
}

impl State {
    pub fn timing(&self) -> Timing {
        match self {
            State::WaitingForReply(timing)
            | State::OwingConfirm(timing)
            | State::WithUser(timing)
            | State::WaitingForConfirm(timing) => *timing,
        }
    }

    /// −6 waiting for reply, −8 waiting for confirm, −2 the other two.
    fn code(&self) -> i32 {
        match self {
            State::WaitingForReply(_) => -6,
            State::WaitingForConfirm(_) => -8,
            State::OwingConfirm(_) | State::WithUser(_) => -2,
        }
    }
}

impl Listener {
    fn hears(&self, header: &MdHeader, arrival: &Arrival) -> bool {
        self.com_id == header.common.com_id
            && self.senders.admits(arrival.sender)
            && (self.destination_uri.is_empty() || uri(&header.destination_uri) == Some(&self.destination_uri))
    }
}

fn place<T>(slots: &[Option<T>], number: u32) -> Result<usize, Refusal> {
    match slots.get(number as usize) {
        Some(Some(_)) => Ok(number as usize),
        _ => Err(Refusal::NoSlot),
    }
}

impl Sessions {
    /// 11, 20, 12, 13, else the lowest free listener.
    pub fn listen(&mut self, com_id: u32, senders: SenderRange, uri_field: &[u8; 32]) -> Result<usize, Refusal> {
        senders.judge()?;
        let destination_uri = uri(uri_field).ok_or(Refusal::Uri)?.to_vec();
        let listener = Listener { com_id, senders, destination_uri };
        refuse_if(self.listeners.iter().flatten().any(|used| *used == listener), Refusal::Equal)?;
        let free = self.listeners.iter().position(Option::is_none).ok_or(Refusal::Full)?;
        self.listeners[free] = Some(listener);
        Ok(free)
    }

    /// 10, else the listener is free.
    pub fn unlisten(&mut self, number: u32) -> Result<(), Refusal> {
        let number = place(&self.listeners, number)?;
        self.listeners[number] = None;
        Ok(())
    }

    /// 17, 18, else the lowest free session.
    fn open(&mut self, id: [u8; 16], state: State) -> Result<usize, Refusal> {
        refuse_if(self.sessions.iter().flatten().any(|used| used.id == id), Refusal::SessionInUse)?;
        let free = self.sessions.iter().position(Option::is_none).ok_or(Refusal::NoFreeSession)?;
        self.sessions[free] = Some(Session { id, state });
        Ok(free)
    }

    /// Calling: the session waits for reply.
    pub fn call(&mut self, id: [u8; 16], timeout: u32, now: u64) -> Result<usize, Refusal> {
        self.open(id, State::WaitingForReply(Timing { start: now, timeout }))
    }

    /// An arriving MD telegram.
    pub fn receive(
        &mut self,
        datagram: &[u8],
        arrival: &Arrival,
        local: Local,
        statistics: &mut Statistics,
    ) -> Result<Answer, MdRefusal> {
        let header = MdHeader::take(datagram);
        let outcome = header.and_then(|header| self.take(&header, arrival, local));
        statistics.add(&outcome);
        let is_request = header.is_ok_and(|header| header.common.msg_type == headers::MD_REQUEST);
        outcome.map_err(|refusal| MdRefusal {
            refusal,
            // Mr's 8 carries −3, its 18 carries −4; other refusals carry 0
            status: match refusal {
                Refusal::NoMatch if is_request => -3,
                Refusal::NoFreeSession if is_request => -4,
                _ => 0,
            },
        })
    }

    /// 7 and 20, then what the type asks for.
    fn take(&mut self, header: &MdHeader, arrival: &Arrival, local: Local) -> Result<Answer, Refusal> {
        topography::judge(&header.common, local)?;
        refuse_if(uri(&header.source_uri).is_none() || uri(&header.destination_uri).is_none(), Refusal::Uri)?;
        match header.common.msg_type {
            headers::MD_NOTIFICATION => Ok(Answer::Notified { listener: self.listener_for(header, arrival)? }),
            headers::MD_REQUEST => self.request(header, arrival),
            headers::MD_REPLY_QUERY => self.reply_query(header, arrival),
            headers::MD_CONFIRM => self.freed_by(header, |state| matches!(state, State::WaitingForConfirm(_))),
            _ => self.freed_by(header, |state| matches!(state, State::WaitingForReply(_))),
        }
    }

    /// The lowest matching listener, or 8.
    fn listener_for(&self, header: &MdHeader, arrival: &Arrival) -> Result<usize, Refusal> {
        let hears = |listener: &Option<Listener>| listener.as_ref().is_some_and(|listener| listener.hears(header, arrival));
        self.listeners.iter().position(hears).ok_or(Refusal::NoMatch)
    }

    /// Mr: 8, 17, 18; else a session with the user.
    fn request(&mut self, header: &MdHeader, arrival: &Arrival) -> Result<Answer, Refusal> {
        let listener = self.listener_for(header, arrival)?;
        let timing = Timing { start: arrival.time, timeout: header.reply_timeout };
        let session = self.open(header.session_id, State::WithUser(timing))?;
        Ok(Answer::Opened { listener, session })
    }

    /// The lowest session of that identifier that can take this, or 19.
    fn session_for(&self, id: &[u8; 16], can_take: impl Fn(&State) -> bool) -> Result<usize, Refusal> {
        let takes =
            |session: &Option<Session>| session.as_ref().is_some_and(|session| session.id == *id && can_take(&session.state));
        self.sessions.iter().position(takes).ok_or(Refusal::NoSession)
    }

    /// Mp, Me and Mc: the session is freed.
    fn freed_by(&mut self, header: &MdHeader, can_take: impl Fn(&State) -> bool) -> Result<Answer, Refusal> {
        let session = self.session_for(&header.session_id, can_take)?;
        self.sessions[session] = None;
        Ok(Answer::Taken { reply_status: header.reply_status, session })
    }

    /// Mq: from waiting for reply to owing a confirm, with Mq's timeout.
    fn reply_query(&mut self, header: &MdHeader, arrival: &Arrival) -> Result<Answer, Refusal> {
        let session = self.session_for(&header.session_id, |state| matches!(state, State::WaitingForReply(_)))?;
        let timing = Timing { start: arrival.time, timeout: header.reply_timeout };
        self.sessions[session] = Some(Session { id: header.session_id, state: State::OwingConfirm(timing) });
        Ok(Answer::Taken { reply_status: header.reply_status, session })
    }

    /// User's reply: 5 if neither Mp nor Mq, 10, 19; with Mp frees, with Mq waits for confirm with the user's timeout.
    pub fn reply(&mut self, number: u32, msg_type: u16, timeout: u32, now: u64) -> Result<(), Refusal> {
        let frees = msg_type == headers::MD_REPLY;
        refuse_if(!frees && msg_type != headers::MD_REPLY_QUERY, Refusal::Type)?;
        let number = place(&self.sessions, number)?;
        let session = self.sessions[number].expect("in use");
        refuse_if(!matches!(session.state, State::WithUser(_)), Refusal::NoSession)?;
        let waits = State::WaitingForConfirm(Timing { start: now, timeout });
        self.sessions[number] = if frees { None } else { Some(Session { state: waits, ..session }) };
        Ok(())
    }

    /// User's confirm: 10, 19; frees.
    pub fn confirm(&mut self, number: u32) -> Result<(), Refusal> {
        let number = place(&self.sessions, number)?;
        let session = self.sessions[number].expect("in use");
        refuse_if(!matches!(session.state, State::OwingConfirm(_)), Refusal::NoSession)?;
        self.sessions[number] = None;
        Ok(())
    }

    /// Frees every session whose time is up; one code for each session slot, 0 where not freed.
    pub fn check_time(&mut self, now: u64) -> [i32; SESSIONS] {
        let mut codes = [0; SESSIONS];
        for (session, code) in self.sessions.iter_mut().zip(&mut codes) {
            if let Some(Session { state, .. }) = *session {
                if state.timing().is_up(now) {
                    *code = state.code();
                    *session = None;
                }
            }
        }
        codes
    }
}
