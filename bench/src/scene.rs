//! The input of each measurement, the same for every contestant.

use crate::plain::fcs::{frame_check, FrameCheck};
use crate::plain::headers::{MD_HEADER, MD_REQUEST, PD_HEADER};
use crate::plain::sessions::{Listener, Tables};
use crate::plain::subscriptions::{self, Statistics, Subscription, PART};
pub use crate::plain::Arrival;
use crate::plain::{sessions, SenderRange};

const COM_ID: u32 = 1000;
/// The slot that takes, the listener that hears, and its URI.
pub const TAKING: usize = 17;
pub const HEARING: usize = 8;
pub const URI: [u8; 32] = *b"grp.car2\0\0\0\0\0\0\0\0\0\0\0\0\0\0\0\0\0\0\0\0\0\0\0\0";
const SENDERS: [u32; 2] = [0x0A00_0001, 0x0A00_0002];

/// The first 24 octets, and zeros up to the end of the header.
fn header(size: usize, msg_type: u16, dataset_length: usize) -> Vec<u8> {
    let mut octets = Vec::with_capacity(size + dataset_length);
    octets.extend_from_slice(&7_u32.to_be_bytes());
    octets.extend_from_slice(&0x0100_u16.to_be_bytes());
    octets.extend_from_slice(&msg_type.to_be_bytes());
    octets.extend_from_slice(&COM_ID.to_be_bytes());
    octets.extend_from_slice(&7_u32.to_be_bytes());
    octets.extend_from_slice(&9_u32.to_be_bytes());
    octets.extend_from_slice(&(dataset_length as u32).to_be_bytes());
    octets.resize(size, 0);
    octets
}

fn checked(mut octets: Vec<u8>) -> Vec<u8> {
    let check_at = octets.len() - 4;
    let check = frame_check(&octets[..check_at]);
    octets[check_at..].copy_from_slice(&check.to_le_bytes());
    octets
}

/// `dataset_length` is a multiple of 4.
pub fn pd_datagram(dataset_length: usize) -> Vec<u8> {
    let mut datagram = checked(header(PD_HEADER, 0x5064, dataset_length));
    datagram.extend((0..dataset_length).map(|place| place as u8));
    datagram
}

pub fn md_datagram() -> Vec<u8> {
    let mut octets = header(MD_HEADER, MD_REQUEST, 64);
    octets[28..44].copy_from_slice(b"session number 1");
    octets[44..48].copy_from_slice(&1_000_000_u32.to_be_bytes());
    octets[48..56].copy_from_slice(b"grp.car1");
    octets[80..112].copy_from_slice(&URI);
    let mut datagram = checked(octets);
    datagram.extend((0..64).map(|place| place as u8));
    datagram
}

pub fn arrival(turn: usize) -> Arrival {
    Arrival { sender: SENDERS[turn % 2], destination: 0xEF00_0001, time: turn as u64, etb_topo_cnt: 7, op_trn_topo_cnt: 9 }
}

/// Slots ask for other ComIds than the telegram's, but for one.
pub fn slot_com_id(number: usize) -> u32 {
    if number == TAKING {
        COM_ID
    } else {
        COM_ID + 100 + number as u32
    }
}

/// A listener's ComId and the end of its sender range; all but one ask for another ComId.
pub fn listener(number: usize) -> (u32, u32) {
    if number == HEARING {
        (COM_ID, 0)
    } else {
        (COM_ID + 1, number as u32)
    }
}

/// 32 slots in use, one of which matches. The sender changes with each telegram, so each one is fresh.
pub struct Deliveries {
    slots: [Subscription; 32],
    store: Vec<u8>,
    statistics: Statistics,
    datagram: Vec<u8>,
    turn: usize,
}

impl Deliveries {
    pub fn new() -> Deliveries {
        let slot = |number| Subscription { in_use: true, com_id: slot_com_id(number), ..Subscription::default() };
        let (slots, store) = (std::array::from_fn(slot), vec![0; 32 * PART]);
        Deliveries { slots, store, statistics: Statistics::default(), datagram: pd_datagram(PART), turn: 0 }
    }

    /// One telegram, from one sender and the other in turn.
    pub fn deliver(&mut self, frame_check: impl FrameCheck) -> Result<usize, u8> {
        self.turn += 1;
        let Deliveries { slots, store, statistics, datagram, turn } = self;
        subscriptions::receive(slots, store, &arrival(*turn), datagram, statistics, frame_check)
    }

    pub fn taken(&self) -> &[u8] {
        &self.store[PART * TAKING..PART * (TAKING + 1)]
    }
}

/// 16 listeners, one of which hears, and 16 free sessions.
pub struct Requests {
    tables: Tables,
    statistics: Statistics,
    datagram: Vec<u8>,
    turn: usize,
}

impl Requests {
    pub fn new() -> Requests {
        let listener = |number| {
            let (com_id, end) = listener(number);
            Listener { in_use: true, com_id, senders: SenderRange { start: 0, end }, destination_uri: URI }
        };
        let tables = Tables { listeners: std::array::from_fn(listener), ..Tables::default() };
        Requests { tables, statistics: Statistics::default(), datagram: md_datagram(), turn: 0 }
    }

    /// A request opens a session; the user's reply frees it, so that the next finds the same table.
    pub fn request(&mut self, frame_check: impl FrameCheck) -> Result<(usize, usize), u8> {
        self.turn += 1;
        let Requests { tables, statistics, datagram, turn } = self;
        let opened = sessions::request(tables, &arrival(*turn), datagram, statistics, frame_check)?;
        sessions::reply(tables, opened.1)?;
        Ok(opened)
    }
}

/// A description run with nested datasets, a counted array and two-part scalars, and data that fit dataset 1001.
pub struct Dataset {
    pub run: Vec<u32>,
    pub id: u32,
    pub wire: Vec<u8>,
}

impl Dataset {
    pub fn new() -> Dataset {
        // 2000: a door, UINT8, INT16 twice, TIMEDATE48; 1001: UINT32, REAL64, counted doors, counted UINT16, two doors
        let door = [2000, 3, 8, 1, 5, 2, 15, 1];
        let train = [1001, 7, 10, 1, 13, 1, 8, 1, 2000, 0, 9, 1, 9, 0, 2000, 2];
        let mut wire = vec![0; 4 + 8];
        wire.push(8);
        wire.extend([0x11; 8 * 11]);
        wire.extend([0, 16]);
        wire.extend([0x22; 16 * 2]);
        wire.extend([0x33; 2 * 11]);
        Dataset { run: [&door[..], &train[..]].concat(), id: 1001, wire }
    }
}
