//! Two `pd-peer` programs on 127.0.0.1: what one publishes the other receives, and damaged datagrams are refused and counted.

mod programs;

use programs::{socket, Program};
use trdp::{frame_check, msg_type, Common, PdHeader, PD_HEADER};

const PATH: &str = env!("CARGO_BIN_EXE_pd-peer");
/// Telegrams that each peer has to see.
const TELEGRAMS: u32 = 20;

/// A peer on any free port that subscribes to 2000, and where it is bound.
fn peer(to: &str, cycle: &str, timeout: &str, text: &str) -> (Program, String) {
    let peer = Program::start(PATH, &["127.0.0.1:0", to, "1000", "2000", cycle, timeout, text]);
    let at = peer.endpoint().expect("a free port");
    (peer, at)
}

/// Two peers that know each other. The second one's port is free when it is chosen; where it is not any more, another is tried.
fn pair() -> Option<(Program, Program)> {
    let b = socket().local_addr().expect("bound").to_string();
    let (first, a) = peer(&b, "2000", "0", "doors closed");
    let second = Program::start(PATH, &[&b, &a, "2000", "1000", "2000", "0", "brakes released"]);
    second.endpoint().map(|_| (first, second))
}

/// The `received` lines: the number is the counter, counters rise by one, the text is the other's.
fn hears(peer: &Program, text: &str) {
    let mut expected = None;
    for _ in 0..TELEGRAMS {
        let told = peer.line_of("received");
        let mut words = told.splitn(3, ' ');
        let counter: u32 = words.next().and_then(|word| word.parse().ok()).expect("a counter");
        assert_eq!(words.next(), Some(counter.to_string().as_str()));
        assert_eq!(words.next(), Some(text));
        assert_eq!(counter, *expected.get_or_insert(counter));
        expected = Some(counter + 1);
    }
}

#[test]
fn two_peers() {
    let (first, second) = (0..10).find_map(|_| pair()).expect("two free ports");
    hears(&first, "brakes released");
    hears(&second, "doors closed");
    for peer in [first, second] {
        let counted = peer.end().pop().expect("the statistics");
        let counts: Vec<u32> = counted.split(' ').skip(1).map(|word| word.parse().expect("nothing was refused")).collect();
        assert!(counts[0] >= TELEGRAMS && counts[0] == counts[1], "{counted}");
    }
}

#[test]
fn silence_is_noticed() {
    let deaf = socket().local_addr().expect("bound").to_string();
    let (peer, _) = peer(&deaf, "1000000", "3000", "");
    peer.line_of("timed out");
    assert_eq!(peer.end(), ["counted 0 0"]);
}

/// A telegram for the subscription: its datagram.
fn datagram(counter: u32) -> Vec<u8> {
    let common = Common {
        sequence_counter: counter,
        protocol_version: 0x0100,
        msg_type: msg_type::PD,
        com_id: 2000,
        etb_topo_cnt: 7,
        op_trn_topo_cnt: 9,
        dataset_length: 0,
    };
    let dataset = [&counter.to_be_bytes()[..], &[3], b"yes"].concat();
    let mut target = vec![0; PD_HEADER + dataset.len()];
    PdHeader { common, ..PdHeader::default() }.write(&dataset, &mut target).expect("it fits");
    target
}

/// The datagram with one octet of its header changed, and the check made right again.
fn changed(mut datagram: Vec<u8>, at: usize, octet: u8) -> Vec<u8> {
    datagram[at] = octet;
    let check = frame_check(&datagram[..36]);
    datagram[36..40].copy_from_slice(&check.to_le_bytes());
    datagram
}

#[test]
fn damaged_datagrams() {
    let socket = socket();
    let here = socket.local_addr().expect("bound").to_string();
    let (peer, at) = peer(&here, "1000000", "0", "");
    let tells = |datagram: &[u8]| {
        socket.send_to(datagram, &at).expect("it is sent");
        peer.line()
    };
    let good = datagram(5);
    let mut flipped = good.clone();
    flipped[9] ^= 0x10;
    assert_eq!(tells(&good), "received 5 5 yes");
    assert_eq!(tells(&good[..39]), "refused 2");
    assert_eq!(tells(&[]), "refused 2");
    assert_eq!(tells(&flipped), "refused 3");
    assert_eq!(tells(&changed(good.clone(), 4, 2)), "refused 4");
    assert_eq!(tells(&changed(good.clone(), 7, 0x72)), "refused 5");
    assert_eq!(tells(&[&good[..], &[0; 4]].concat()), "refused 6");
    assert_eq!(tells(&changed(good.clone(), 15, 8)), "refused 7");
    assert_eq!(tells(&changed(good.clone(), 11, 1)), "refused 8");
    assert_eq!(tells(&good), "refused 9");
    assert_eq!(tells(&datagram(6)), "received 6 6 yes");
    assert_eq!(peer.end(), ["counted 11 2 2:2 3:1 4:1 5:1 6:1 7:1 8:1 9:1"]);
}
