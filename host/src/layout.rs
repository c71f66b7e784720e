//! The structs and numbers of this crate beside those of include/trdp.h, as static assertions compiled by `cc`.

use std::io::Write;
use std::mem::{offset_of, size_of};
use std::process::{Command, Stdio};

use crate::raw::*;
use crate::{msg_type, Refusal};

/// One C expression for the size of each struct and one for the offset of each field.
macro_rules! layouts {
    ($($c:ident = $rust:ident { $($field:ident)* })*) => {
        vec![$(
            format!("sizeof({}) == {}", stringify!($c), size_of::<$rust>()),
            $(format!("offsetof({}, {}) == {}", stringify!($c), stringify!($field), offset_of!($rust, $field)),)*
        )*]
    };
}

fn layouts() -> Vec<String> {
    layouts! {
        trdp_common = Common { sequence_counter protocol_version msg_type com_id etb_topo_cnt op_trn_topo_cnt dataset_length }
        trdp_pd_header = PdHeader { common reserved reply_com_id reply_ip_address }
        trdp_md_header = MdHeader { common reply_status reply_timeout }
        trdp_sender_range = SenderRange { start end }
        trdp_timing = Timing { start timeout }
        trdp_topo_counts = TopoCounts { etb_topo_cnt op_trn_topo_cnt }
        trdp_arrival = Arrival { sender destination time local }
        trdp_filter = Filter { com_id senders destination }
        trdp_last_taken = LastTaken { held sender counter }
        trdp_subscription = Subscription { used filter timing behaviour state last length }
        trdp_counters = Counters { received delivered refused }
        trdp_statistics = Statistics { pd md }
        trdp_publication = Publication { header cycle sent last_sent }
        trdp_outcome = Outcome { refusal value }
        trdp_pd_datagram = PdDatagram { refusal header }
        trdp_md_datagram = MdDatagram { refusal header session_id source_uri destination_uri }
        trdp_sending = Sending { refusal length publication }
        trdp_shown = Shown { refusal state substitute start length }
        trdp_md_outcome = MdOutcome { kind refusal status listener session }
        trdp_codes = Codes { codes }
        trdp_session_seen = SessionSeen { refusal state id start timeout }
    }
}

fn numbers() -> Vec<String> {
    let equal = |(name, number): (&str, usize)| format!("{name} == {number}");
    let types = [
        ("TRDP_PD", msg_type::PD),
        ("TRDP_PP", msg_type::PP),
        ("TRDP_MN", msg_type::MN),
        ("TRDP_MR", msg_type::MR),
        ("TRDP_MP", msg_type::MP),
        ("TRDP_MQ", msg_type::MQ),
        ("TRDP_MC", msg_type::MC),
        ("TRDP_ME", msg_type::ME),
    ];
    let refusals = [
        ("TRDP_LENT_SIZES", Refusal::LentSizes),
        ("TRDP_TOO_SHORT", Refusal::TooShort),
        ("TRDP_FRAME_CHECK", Refusal::FrameCheck),
        ("TRDP_VERSION", Refusal::Version),
        ("TRDP_TYPE", Refusal::Type),
        ("TRDP_LENGTH", Refusal::Length),
        ("TRDP_TOPOGRAPHY", Refusal::Topography),
        ("TRDP_NO_MATCH", Refusal::NoMatch),
        ("TRDP_STALE", Refusal::Stale),
        ("TRDP_NO_SLOT", Refusal::NoSlot),
        ("TRDP_RANGE", Refusal::Range),
        ("TRDP_FILTER_IN_USE", Refusal::FilterInUse),
        ("TRDP_NO_FREE_SLOT", Refusal::NoFreeSlot),
        ("TRDP_NOT_DUE", Refusal::NotDue),
        ("TRDP_TARGET_TOO_SHORT", Refusal::TargetTooShort),
        ("TRDP_DATASET_TOO_LONG", Refusal::DatasetTooLong),
        ("TRDP_SESSION_IN_USE", Refusal::SessionInUse),
        ("TRDP_NO_FREE_SESSION", Refusal::NoFreeSession),
        ("TRDP_NO_SESSION", Refusal::NoSession),
        ("TRDP_URI", Refusal::Uri),
        ("TRDP_NOT_DESCRIBED", Refusal::NotDescribed),
        ("TRDP_TOO_DEEP", Refusal::TooDeep),
        ("TRDP_MALFORMED", Refusal::Malformed),
        ("TRDP_DATA", Refusal::Data),
        ("TRDP_DATA_TARGET_TOO_SHORT", Refusal::DataTargetTooShort),
    ];
    let sizes = [
        ("TRDP_PD_PORT", usize::from(crate::PD_PORT)),
        ("TRDP_MD_PORT", usize::from(crate::MD_PORT)),
        ("TRDP_PD_HEADER", crate::PD_HEADER),
        ("TRDP_MD_HEADER", crate::MD_HEADER),
        ("TRDP_PD_DATASET", crate::PD_DATASET),
        ("TRDP_MD_DATASET", crate::MD_DATASET),
        ("TRDP_TABLES", TABLES),
    ];
    let types = types.map(|(name, number)| (name, usize::from(number)));
    let refusals = refusals.map(|(name, refusal)| (name, usize::from(refusal.number())));
    types.into_iter().chain(refusals).chain(sizes).map(equal).collect()
}

/// A C program that compiles exactly where each of the expressions holds.
fn program() -> String {
    let mut program = String::from("#include \"trdp.h\"\n");
    for (number, holds) in layouts().iter().chain(&numbers()).enumerate() {
        program.push_str(&format!("typedef char holds_{number}[({holds}) ? 1 : -1];\n"));
    }
    program
}

#[test]
fn as_in_c() {
    let include = concat!("-I", env!("CARGO_MANIFEST_DIR"), "/../include");
    let arguments = ["-std=c99", "-pedantic", "-Wall", "-Wextra", "-Werror", "-fsyntax-only", include, "-x", "c", "-"];
    let Ok(mut cc) = Command::new("cc").args(arguments).stdin(Stdio::piped()).spawn() else {
        println!("no cc: the layouts are not compared");
        return;
    };
    cc.stdin.take().expect("piped").write_all(program().as_bytes()).expect("cc reads");
    assert!(cc.wait().expect("cc ends").success());
}
