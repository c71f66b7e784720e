//! `listen unlisten call md reply confirm mdcheck session stats`.

use super::{used, Generator, Lean};
use crate::headers::{MD, MD_CONFIRM, MD_ERROR, MD_REPLY, MD_REPLY_QUERY, MD_REQUEST};
use crate::hex::shown;
use crate::sessions::{Session, State, LISTENERS, SESSIONS};
use crate::timing::Timing;

/// More identifiers than sessions, so that the table can be full and an identifier still new.
const IDENTIFIERS: usize = 40;

impl Generator {
    pub fn md_line(&mut self) -> String {
        let (granting, freeing) = match self.lean {
            Lean::Filling => (12, 1),
            Lean::Even => (6, 4),
            Lean::Emptying => (4, 8),
        };
        match self.random.below(60) {
            roll if roll < granting => self.listen_line(),
            roll if roll < 2 * granting => self.call_line(),
            roll if roll < 2 * granting + freeing => self.freeing_line(),
            45 | 46 => format!("session {:08X}", self.session_number()),
            44 => "stats".into(),
            48 if self.random.once_in(2) => self.local_line(),
            47 | 49 if self.lean != Lean::Filling || self.random.once_in(10) => {
                let running = self.waits();
                format!("mdcheck {:016X}", self.now(&running))
            }
            50 | 51 => self.reply_line(),
            52 => self.confirm_line(),
            _ => self.md_telegram_line(),
        }
    }

    fn waits(&self) -> Vec<Timing> {
        self.stack.md.sessions.iter().flatten().map(|session| session.state.timing()).collect()
    }

    fn session_number(&mut self) -> u32 {
        let used = used(&self.stack.md.sessions);
        self.slot_number(&used, SESSIONS)
    }

    /// The number of a session for which this holds, if there is one; else any.
    fn session_number_in(&mut self, wanted: impl Fn(&State) -> bool) -> u32 {
        let sessions = &self.stack.md.sessions;
        let found: Vec<usize> =
            used(sessions).into_iter().filter(|slot| sessions[*slot].is_some_and(|session| wanted(&session.state))).collect();
        if found.is_empty() || self.random.chance(20) {
            self.session_number()
        } else {
            self.random.pick(&found) as u32
        }
    }

    fn listen_line(&mut self) -> String {
        let (com_id, senders, uri) = (self.com_id(), self.sender_range(), self.uri_field());
        format!("listen {com_id:08X} {:08X} {:08X} {}", senders.start, senders.end, shown(&uri))
    }

    pub fn session_id(&mut self) -> [u8; 16] {
        match self.random.below(IDENTIFIERS) {
            0 => [0; 16],
            1 => [0xFF; 16],
            // told apart by the first octet only
            2 => std::array::from_fn(|place| if place == 0 { 0x80 } else { place as u8 }),
            last => std::array::from_fn(|place| if place == 15 { last as u8 } else { place as u8 }),
        }
    }

    fn call_line(&mut self) -> String {
        let (id, timeout) = (self.session_id(), self.timeout());
        let running = self.waits();
        format!("call {} {timeout:08X} {:016X}", shown(&id), self.now(&running))
    }

    fn freeing_line(&mut self) -> String {
        match self.random.below(3) {
            0 => {
                let used = used(&self.stack.md.listeners);
                format!("unlisten {:08X}", self.slot_number(&used, LISTENERS))
            }
            1 => self.reply_line(),
            _ => self.confirm_line(),
        }
    }

    fn reply_line(&mut self) -> String {
        let number = self.session_number_in(|state| matches!(state, State::WithUser(_)));
        let msg_type = if self.random.chance(12) {
            self.msg_type(&MD)
        } else {
            self.random.pick(&[MD_REPLY, MD_REPLY_QUERY, MD_REPLY_QUERY])
        };
        let timeout = self.timeout();
        let running = self.waits();
        format!("reply {number:08X} {msg_type:04X} {timeout:08X} {:016X}", self.now(&running))
    }

    fn confirm_line(&mut self) -> String {
        let number = self.session_number_in(|state| matches!(state, State::OwingConfirm(_)));
        let running = self.waits();
        format!("confirm {number:08X} {:016X}", self.now(&running))
    }

    fn md_telegram_line(&mut self) -> String {
        let mut header = self.md_header();
        let sessions: Vec<Session> = self.stack.md.sessions.iter().flatten().copied().collect();
        let aimed = if self.lean == Lean::Filling { 0 } else { 4 };
        match self.random.below(10) {
            roll if roll <= aimed && !sessions.is_empty() => {
                let session = self.random.pick(&sessions);
                header.session_id = session.id;
                header.common.msg_type = match session.state {
                    State::WaitingForReply(_) => self.random.pick(&[MD_REPLY, MD_REPLY_QUERY, MD_REPLY_QUERY, MD_ERROR]),
                    State::WaitingForConfirm(_) => MD_CONFIRM,
                    _ => self.msg_type(&MD),
                };
            }
            5..=7 => header.common.msg_type = MD_REQUEST,
            _ => {}
        }
        let (sender, destination) = (self.sender(), self.destination());
        let running = self.waits();
        let now = self.now(&running);
        format!("md {sender:08X} {destination:08X} {now:016X} {}", shown(&self.md_datagram(&header)))
    }
}
