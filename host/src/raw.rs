//! What the static library declares: the structs and functions of include/trdp.h.

#[derive(Clone, Copy, Debug, Default, PartialEq, Eq)]
#[repr(C)]
pub struct Common {
    pub sequence_counter: u32,
    pub protocol_version: u16,
    pub msg_type: u16,
    pub com_id: u32,
    pub etb_topo_cnt: u32,
    pub op_trn_topo_cnt: u32,
    /// Not looked at in writing: the dataset's own length is written.
    pub dataset_length: u32,
}

#[derive(Clone, Copy, Debug, Default, PartialEq, Eq)]
#[repr(C)]
pub struct PdHeader {
    pub common: Common,
    pub reserved: u32,
    pub reply_com_id: u32,
    pub reply_ip_address: u32,
}

#[derive(Clone, Copy, Debug, Default, PartialEq, Eq)]
#[repr(C)]
pub struct MdHeader {
    pub common: Common,
    pub reply_status: i32,
    /// Microseconds, 0 = infinite.
    pub reply_timeout: u32,
}

/// Both ends 0: any sender; end 0: only the start; else start to end.
#[derive(Clone, Copy, Debug, Default, PartialEq, Eq)]
#[repr(C)]
pub struct SenderRange {
    pub start: u32,
    pub end: u32,
}

#[derive(Clone, Copy, Debug, Default, PartialEq, Eq)]
#[repr(C)]
pub struct Timing {
    pub start: u64,
    pub timeout: u32,
}

#[derive(Clone, Copy, Debug, Default, PartialEq, Eq)]
#[repr(C)]
pub struct TopoCounts {
    pub etb_topo_cnt: u32,
    pub op_trn_topo_cnt: u32,
}

/// What comes with each arriving telegram; the time in microseconds.
#[derive(Clone, Copy, Debug, Default, PartialEq, Eq)]
#[repr(C)]
pub struct Arrival {
    pub sender: u32,
    pub destination: u32,
    pub time: u64,
    pub local: TopoCounts,
}

/// What a subscription asks of a telegram; destination 0: any.
#[derive(Clone, Copy, Debug, Default, PartialEq, Eq)]
#[repr(C)]
pub struct Filter {
    pub com_id: u32,
    pub senders: SenderRange,
    pub destination: u32,
}

#[derive(Clone, Copy, Debug, PartialEq, Eq)]
#[repr(C)]
pub struct LastTaken {
    pub held: u8,
    pub sender: u32,
    pub counter: u32,
}

#[derive(Clone, Copy, Debug, PartialEq, Eq)]
#[repr(C)]
pub struct Subscription {
    pub used: u8,
    pub filter: Filter,
    pub timing: Timing,
    pub behaviour: u8,
    pub state: u8,
    pub last: LastTaken,
    pub length: u32,
}

/// Telegrams received, delivered, and refused by number.
#[derive(Clone, Copy, Debug, PartialEq, Eq)]
#[repr(C)]
pub struct Counters {
    pub received: u32,
    pub delivered: u32,
    pub refused: [u32; 40],
}

/// The counters of arriving telegrams, each modulo 2^32.
#[derive(Clone, Copy, Debug, PartialEq, Eq)]
#[repr(C)]
pub struct Statistics {
    pub pd: Counters,
    pub md: Counters,
}

#[derive(Clone, Copy, Debug, PartialEq, Eq)]
#[repr(C)]
pub struct Publication {
    pub header: PdHeader,
    pub cycle: u32,
    pub sent: u8,
    pub last_sent: u64,
}

#[repr(C)]
pub struct Outcome {
    pub refusal: u8,
    pub value: usize,
}

#[repr(C)]
pub struct PdDatagram {
    pub refusal: u8,
    pub header: PdHeader,
}

#[repr(C)]
pub struct MdDatagram {
    pub refusal: u8,
    pub header: MdHeader,
    pub session_id: [u8; 16],
    pub source_uri: [u8; 32],
    pub destination_uri: [u8; 32],
}

#[repr(C)]
pub struct Sending {
    pub refusal: u8,
    pub length: usize,
    pub publication: Publication,
}

#[repr(C)]
pub struct Shown {
    pub refusal: u8,
    pub state: u8,
    pub substitute: bool,
    pub start: usize,
    pub length: usize,
}

#[repr(C)]
pub struct MdOutcome {
    pub kind: u8,
    pub refusal: u8,
    pub status: i32,
    pub listener: usize,
    pub session: usize,
}

#[repr(C)]
pub struct Codes {
    pub codes: [i32; 16],
}

#[repr(C)]
pub struct SessionSeen {
    pub refusal: u8,
    pub state: u8,
    pub id: [u8; 16],
    pub start: u64,
    pub timeout: u32,
}

/// Octets of the listeners and sessions.
pub const TABLES: usize = 1280;

extern "C" {
    pub fn trdp_frame_check(octets: *const u8, length: usize) -> u32;
    pub fn trdp_take_pd(datagram: *const u8, length: usize) -> PdDatagram;
    pub fn trdp_write_pd(
        header: PdHeader,
        dataset: *const u8,
        dataset_length: usize,
        target: *mut u8,
        target_length: usize,
    ) -> Outcome;
    pub fn trdp_take_md(datagram: *const u8, length: usize) -> MdDatagram;
    pub fn trdp_write_md(
        header: MdHeader,
        session_id: *const [u8; 16],
        source_uri: *const [u8; 32],
        destination_uri: *const [u8; 32],
        dataset: *const u8,
        dataset_length: usize,
        target: *mut u8,
        target_length: usize,
    ) -> Outcome;
    pub fn trdp_publish(header: PdHeader, cycle: u32) -> Publication;
    pub fn trdp_send(
        publication: Publication,
        time: u64,
        dataset: *const u8,
        dataset_length: usize,
        target: *mut u8,
        target_length: usize,
    ) -> Sending;
    pub fn trdp_to_host(
        run: *const u32,
        numbers: usize,
        id: u32,
        source: *const u8,
        source_length: usize,
        target: *mut u8,
        target_length: usize,
    ) -> Outcome;
    pub fn trdp_to_wire(
        run: *const u32,
        numbers: usize,
        id: u32,
        source: *const u8,
        source_length: usize,
        target: *mut u8,
        target_length: usize,
    ) -> Outcome;
    pub fn trdp_no_statistics() -> Statistics;
    pub fn trdp_no_subscription() -> Subscription;
    pub fn trdp_subscribe(
        slots: *mut Subscription,
        slots_length: usize,
        store: *mut u8,
        store_length: usize,
        filter: Filter,
        timeout: u32,
        behaviour: u8,
        time: u64,
    ) -> Outcome;
    pub fn trdp_unsubscribe(
        slots: *mut Subscription,
        slots_length: usize,
        store: *mut u8,
        store_length: usize,
        k: usize,
    ) -> Outcome;
    pub fn trdp_receive_pd(
        slots: *mut Subscription,
        slots_length: usize,
        store: *mut u8,
        store_length: usize,
        statistics: *mut Statistics,
        arrival: Arrival,
        datagram: *const u8,
        length: usize,
    ) -> Outcome;
    pub fn trdp_check_subscriptions(
        slots: *mut Subscription,
        slots_length: usize,
        store: *mut u8,
        store_length: usize,
        time: u64,
    ) -> Outcome;
    pub fn trdp_read(slots: *const Subscription, slots_length: usize, store: *const u8, store_length: usize, k: usize) -> Shown;
    pub fn trdp_listen(tables: *mut [u8; TABLES], com_id: u32, senders: SenderRange, uri: *const [u8; 32]) -> Outcome;
    pub fn trdp_unlisten(tables: *mut [u8; TABLES], k: usize) -> Outcome;
    pub fn trdp_call(tables: *mut [u8; TABLES], session_id: *const [u8; 16], timeout: u32, time: u64) -> Outcome;
    pub fn trdp_receive_md(
        tables: *mut [u8; TABLES],
        statistics: *mut Statistics,
        arrival: Arrival,
        datagram: *const u8,
        length: usize,
    ) -> MdOutcome;
    pub fn trdp_reply(tables: *mut [u8; TABLES], k: usize, msg_type: u16, timeout: u32, time: u64) -> Outcome;
    pub fn trdp_confirm(tables: *mut [u8; TABLES], k: usize) -> Outcome;
    pub fn trdp_check_sessions(tables: *mut [u8; TABLES], time: u64) -> Codes;
    pub fn trdp_session(tables: *const [u8; TABLES], k: usize) -> SessionSeen;
}

impl Default for Statistics {
    fn default() -> Statistics {
        // SAFETY: it is lent nothing
        unsafe { trdp_no_statistics() }
    }
}

impl std::fmt::Display for Counters {
    /// `counted RECEIVED DELIVERED`, then `R:COUNT` for each refusal that was given.
    fn fmt(&self, f: &mut std::fmt::Formatter) -> std::fmt::Result {
        write!(f, "counted {} {}", self.received, self.delivered)?;
        let given = self.refused.iter().enumerate().filter(|(_, count)| **count > 0);
        given.into_iter().try_for_each(|(number, count)| write!(f, " {number}:{count}"))
    }
}
