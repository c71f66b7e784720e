//! An MD request opening a session, and the user's reply that frees it.

use super::fcs::FrameCheck;
use super::headers::{judge_topography, take_md, MdHeader, MD_REQUEST};
use super::subscriptions::Statistics;
use super::{Arrival, SenderRange};

/// Kept for the time check, which is not measured.
#[allow(dead_code)]
#[derive(Clone, Copy, Default)]
pub struct Timing {
    pub start: u64,
    pub timeout: u32,
}

#[derive(Clone, Copy, Default)]
pub enum State {
    #[default]
    Free,
    WithUser(#[allow(dead_code)] Timing),
}

#[derive(Clone, Copy, Default)]
pub struct Session {
    pub id: [u8; 16],
    pub state: State,
}

#[derive(Clone, Copy, Default)]
pub struct Listener {
    pub in_use: bool,
    pub com_id: u32,
    pub senders: SenderRange,
    pub destination_uri: [u8; 32],
}

#[derive(Clone, Copy, Default)]
pub struct Tables {
    pub listeners: [Listener; 16],
    pub sessions: [Session; 16],
}

fn uri(field: &[u8; 32]) -> Option<&[u8]> {
    field.iter().position(|octet| *octet == 0).map(|end| &field[..end])
}

impl Session {
    fn is_free(&self) -> bool {
        matches!(self.state, State::Free)
    }
}

impl Listener {
    fn hears(&self, header: &MdHeader, arrival: &Arrival) -> bool {
        self.in_use
            && self.com_id == header.common.com_id
            && self.senders.admits(arrival.sender)
            && (self.destination_uri[0] == 0 || uri(&self.destination_uri) == uri(header.destination_uri))
    }
}

/// The listener and the session, or the refusal. Other types than Mr do not occur in this measurement.
#[inline(never)]
pub fn request(
    tables: &mut Tables,
    arrival: &Arrival,
    datagram: &[u8],
    statistics: &mut Statistics,
    frame_check: impl FrameCheck,
) -> Result<(usize, usize), u8> {
    let outcome = open(tables, arrival, datagram, frame_check);
    statistics.add(outcome.err().unwrap_or(0));
    outcome
}

fn open(tables: &mut Tables, arrival: &Arrival, datagram: &[u8], frame_check: impl FrameCheck) -> Result<(usize, usize), u8> {
    let header = take_md(datagram, frame_check)?;
    judge_topography(&header.common, arrival)?;
    if uri(header.source_uri).is_none() || uri(header.destination_uri).is_none() {
        return Err(20);
    }
    if header.common.msg_type != MD_REQUEST {
        return Err(5);
    }
    let listener = tables.listeners.iter().position(|listener| listener.hears(&header, arrival)).ok_or(8)?;
    if tables.sessions.iter().any(|session| !session.is_free() && session.id == *header.session_id) {
        return Err(17);
    }
    let session = tables.sessions.iter().position(Session::is_free).ok_or(18)?;
    let timing = Timing { start: arrival.time, timeout: header.reply_timeout };
    tables.sessions[session] = Session { id: *header.session_id, state: State::WithUser(timing) };
    Ok((listener, session))
}

/// The user's reply with Mp.
#[inline(never)]
pub fn reply(tables: &mut Tables, session: usize) -> Result<(), u8> {
    let session = tables.sessions.get_mut(session).filter(|session| !session.is_free()).ok_or(10)?;
    match session.state {
        State::WithUser(_) => {
            *session = Session::default();
            Ok(())
        }
        State::Free => Err(19),
    }
}
