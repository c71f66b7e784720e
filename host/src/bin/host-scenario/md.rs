//! `listen unlisten call md reply confirm mdcheck session`.

use trdp::{MdAnswer, MdRefusal, Session, SessionState, Sessions, Statistics, TopoCounts};

use crate::hex::{shown, Fields};
use crate::{answer, arrival, refused, senders};

#[derive(Default)]
pub struct Md(Sessions);

fn session_told(session: Session) -> String {
    let state = match session.state {
        SessionState::WaitingForReply => "reply",
        SessionState::OwingConfirm => "owing",
        SessionState::WithUser => "user",
        SessionState::WaitingForConfirm => "confirm",
    };
    format!("used {} {state} {:016X} {:08X}", shown(&session.id), session.start, session.timeout)
}

fn answer_told(answer: MdAnswer) -> String {
    match answer {
        MdAnswer::Notified { listener } => format!("notified {listener}"),
        MdAnswer::Requested { listener, session } => format!("opened {listener} {session}"),
        MdAnswer::Taken { reply_status, session } => format!("taken {reply_status:08X} {session}"),
    }
}

impl Md {
    pub fn listen(&mut self, fields: &mut Fields) -> Option<String> {
        let (com_id, senders, uri) = (fields.number8()?, senders(fields)?, fields.array()?);
        fields.end()?;
        Some(answer(self.0.listen(com_id, senders, &uri), |listener| format!("listener {listener}")))
    }

    pub fn unlisten(&mut self, fields: &mut Fields) -> Option<String> {
        let listener = fields.number8()? as usize;
        fields.end()?;
        Some(answer(self.0.unlisten(listener), |()| "freed".into()))
    }

    pub fn call(&mut self, fields: &mut Fields) -> Option<String> {
        let (id, timeout, time) = (fields.array()?, fields.number8()?, fields.number16()?);
        fields.end()?;
        Some(answer(self.0.call(&id, timeout, time), |session| format!("session {session}")))
    }

    pub fn receive(&mut self, fields: &mut Fields, local: TopoCounts, statistics: &mut Statistics) -> Option<String> {
        let (arrival, datagram) = (arrival(fields, local)?, fields.octets()?);
        fields.end()?;
        let outcome = self.0.receive(statistics, arrival, &datagram);
        let refused = |MdRefusal { refusal, status }| format!("{} {status:08X}", refused(refusal));
        Some(outcome.map_or_else(refused, answer_told))
    }

    pub fn reply(&mut self, fields: &mut Fields) -> Option<String> {
        let (session, msg_type) = (fields.number8()? as usize, fields.number4()?);
        let (timeout, time) = (fields.number8()?, fields.number16()?);
        fields.end()?;
        Some(answer(self.0.reply(session, msg_type, timeout, time), |()| "replied".into()))
    }

    pub fn confirm(&mut self, fields: &mut Fields) -> Option<String> {
        let (session, _time) = (fields.number8()? as usize, fields.number16()?);
        fields.end()?;
        Some(answer(self.0.confirm(session), |()| "confirmed".into()))
    }

    pub fn check(&mut self, fields: &mut Fields) -> Option<String> {
        let time = fields.number16()?;
        fields.end()?;
        let codes = self.0.check(time).iter().map(|code| format!(" {code}")).collect::<String>();
        Some(format!("codes{codes}"))
    }

    pub fn session(&self, fields: &mut Fields) -> Option<String> {
        let session = fields.number8()? as usize;
        fields.end()?;
        Some(answer(self.0.session(session), |session| session.map_or("free".into(), session_told)))
    }
}
