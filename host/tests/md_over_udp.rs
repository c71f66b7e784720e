//! `md-peer` programs on 127.0.0.1: Mr with Mp, Mr with Mq and Mc, a timeout, an Me, and damaged datagrams.

mod programs;

use programs::{socket, Program};
use trdp::{msg_type, Common, MdHeader, MdTelegram, MD_HEADER};

const PATH: &str = env!("CARGO_BIN_EXE_md-peer");
/// A timeout that a loaded machine does not reach.
const LONG: &str = "20000000";
const SHORT: &str = "20000";

/// A peer on any free port that answers, and where it is bound.
fn replier(reply: &str, timeout: &str) -> (Program, String) {
    let replier = Program::start(PATH, &["127.0.0.1:0", "answer", "3000", "replier", reply, timeout]);
    let at = replier.endpoint().expect("a free port");
    (replier, at)
}

/// A peer that answers, and what a caller of it tells.
fn call(reply: &str, timeout: &str, uri: &str) -> (Program, Vec<String>) {
    let (replier, at) = replier(reply, timeout);
    let caller = Program::start(PATH, &["127.0.0.1:0", "call", &at, "3000", uri, timeout, "how many doors?"]);
    (replier, caller.lines_to_its_end())
}

#[test]
fn request_and_reply() {
    let (replier, caller) = call("mp", LONG, "replier");
    assert_eq!(caller, ["called 0", "taken 0 0 HOW MANY DOORS?"]);
    assert_eq!(replier.end(), ["requested 0 0 how many doors?", "sent 4D70 0", "counted 1 1"]);
}

#[test]
fn request_query_and_confirm() {
    let (replier, caller) = call("mq", LONG, "replier");
    assert_eq!(caller, ["called 0", "taken 0 0 HOW MANY DOORS?", "confirmed 0"]);
    replier.line_of("taken 0 0");
    assert_eq!(replier.end(), ["counted 2 2"]);
}

#[test]
fn nobody_replies() {
    let (replier, caller) = call("silent", SHORT, "replier");
    assert_eq!(caller, ["called 0", "ended 0 -6"]);
    assert_eq!(replier.line(), "requested 0 0 how many doors?");
    assert_eq!(replier.line(), "ended 0 -2");
    assert_eq!(replier.end(), ["counted 1 1"]);
}

#[test]
fn nobody_listens() {
    let (replier, caller) = call("mp", LONG, "another");
    assert_eq!(caller, ["called 0", "taken -3 0 "]);
    assert_eq!(replier.end(), ["refused 8 -3", "counted 1 0 8:1"]);
}

/// A request: its datagram.
fn request(number: u8) -> Vec<u8> {
    let common = Common {
        protocol_version: 0x0100,
        msg_type: msg_type::MR,
        com_id: 3000,
        etb_topo_cnt: 7,
        op_trn_topo_cnt: 9,
        ..Common::default()
    };
    let mut telegram = MdTelegram { header: MdHeader { common, ..MdHeader::default() }, ..MdTelegram::default() };
    telegram.session_id[0] = number;
    telegram.destination_uri[..7].copy_from_slice(b"replier");
    let mut target = vec![0; MD_HEADER];
    telegram.write(&[], &mut target).expect("it fits");
    target
}

#[test]
fn damaged_and_too_many() {
    let (replier, at) = replier("silent", "0");
    let socket = socket();
    let tells = |datagram: &[u8]| {
        socket.send_to(datagram, &at).expect("it is sent");
        replier.line()
    };
    let good = request(1);
    let mut flipped = good.clone();
    flipped[30] ^= 1;
    assert_eq!(tells(&good[..115]), "refused 2 0");
    assert_eq!(tells(&flipped), "refused 3 0");
    assert_eq!(tells(&[&good[..], &[0; 4]].concat()), "refused 6 0");
    assert_eq!(tells(&good), "requested 0 0 ");
    assert_eq!(tells(&good), "refused 17 0");
    for number in 2..=16 {
        assert_eq!(tells(&request(number)), format!("requested 0 {} ", number - 1));
    }
    assert_eq!(tells(&request(17)), "refused 18 -4");
    // the Me tells the caller why
    let mut heard = [0; MD_HEADER + 4];
    let length = socket.recv(&mut heard).expect("an Me comes");
    let error = MdTelegram::take(&heard[..length]).expect("it is sound");
    assert_eq!((error.header.common.msg_type, error.header.reply_status, error.session_id[0]), (msg_type::ME, -4, 17));
    assert_eq!(replier.end(), ["counted 21 16 2:1 3:1 6:1 17:1 18:1"]);
}
