//! The proved TRDP stack for Rust programs. The program has the sockets, the addresses and the clock; the rules, and the
//! refusals with their numbers, are those of the static library that this crate links.
//!
//! A `Refusal` leaves everything as it was, statistics aside.

mod datasets;
#[cfg(test)]
mod declared;
#[cfg(test)]
mod layout;
mod publications;
mod raw;
mod refusal;
mod sessions;
mod subscriptions;
mod telegrams;
pub mod udp;

pub use datasets::{to_host, to_wire};
pub use publications::Publication;
pub use raw::{
    Arrival, Common, Counters, Filter, LastTaken, MdHeader, PdHeader, SenderRange, Statistics, Subscription, Timing, TopoCounts,
};
pub use refusal::Refusal;
pub use sessions::{MdAnswer, MdRefusal, Session, SessionState, Sessions, SESSIONS};
pub use subscriptions::{Behaviour, Lent, State, Subscriptions, PART, SLOTS};
pub use telegrams::{frame_check, MdTelegram, MD_DATASET, MD_HEADER, PD_DATASET, PD_HEADER};

/// The types of telegrams.
pub mod msg_type {
    pub const PD: u16 = 0x5064;
    pub const PP: u16 = 0x5070;
    pub const MN: u16 = 0x4D6E;
    pub const MR: u16 = 0x4D72;
    pub const MP: u16 = 0x4D70;
    pub const MQ: u16 = 0x4D71;
    pub const MC: u16 = 0x4D63;
    pub const ME: u16 = 0x4D65;
}

/// The UDP ports of process data and message data.
pub const PD_PORT: u16 = 17224;
pub const MD_PORT: u16 = 17225;
