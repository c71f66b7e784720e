//! Message data over UDP: answers requests until standard input ends, or calls once and ends with the session.

use std::error::Error;
use std::net::SocketAddrV4;
use std::process::ExitCode;
use std::sync::atomic::Ordering;
use std::time::{SystemTime, UNIX_EPOCH};

use trdp::udp::{endpoint, input_ended, Arrived, Socket};
use trdp::*;

const USAGE: &str = "\
md-peer LOCAL answer COMID URI (mp|mq|silent) TIMEOUT
    prints `ready ENDPOINT`, `requested LISTENER SESSION TEXT`, `notified LISTENER TEXT`, `sent TYPE SESSION`, `taken STATUS SESSION`,
    `refused R STATUS`, `ended SESSION CODE`, and when standard input ends the statistics
md-peer LOCAL call PEER COMID URI TIMEOUT TEXT
    prints `called SESSION`, `taken STATUS SESSION TEXT`, `confirmed SESSION`, `refused R STATUS`, `ended SESSION CODE`
LOCAL and PEER: ADDRESS or ADDRESS:PORT (17225; 0: any free one); TIMEOUT in microseconds, of the request or of the confirm
";

const LOCAL_COUNTS: TopoCounts = TopoCounts { etb_topo_cnt: 7, op_trn_topo_cnt: 9 };
/// Room for any telegram.
const ROOM: usize = MD_HEADER + MD_DATASET;

enum Role {
    /// What a request is answered with, if with anything, and the confirm's timeout.
    Answer {
        com_id: u32,
        uri: [u8; 32],
        reply: Option<u16>,
        timeout: u32,
    },
    Call {
        peer: SocketAddrV4,
        com_id: u32,
        uri: [u8; 32],
        timeout: u32,
        text: String,
    },
}

fn uri(text: &str) -> Option<[u8; 32]> {
    let mut field = [0; 32];
    field.get_mut(..text.len())?.copy_from_slice(text.as_bytes());
    Some(field)
}

fn settings(words: &[String]) -> Option<(SocketAddrV4, Role)> {
    let words: Vec<&str> = words.iter().map(String::as_str).collect();
    let (local, rest) = words.split_first()?;
    let role = match *rest {
        ["answer", com_id, field, reply, timeout] => Role::Answer {
            com_id: com_id.parse().ok()?,
            uri: uri(field)?,
            reply: match reply {
                "mp" => Some(msg_type::MP),
                "mq" => Some(msg_type::MQ),
                "silent" => None,
                _ => return None,
            },
            timeout: timeout.parse().ok()?,
        },
        ["call", peer, com_id, field, timeout, text] => Role::Call {
            peer: endpoint(peer, MD_PORT)?,
            com_id: com_id.parse().ok()?,
            uri: uri(field)?,
            timeout: timeout.parse().ok()?,
            text: text.into(),
        },
        _ => return None,
    };
    Some((endpoint(local, MD_PORT)?, role))
}

/// An identifier of this process and this instant.
fn new_session_id() -> [u8; 16] {
    let instant = SystemTime::now().duration_since(UNIX_EPOCH).map_or(0, |since| since.as_nanos());
    (instant << 32 | u128::from(std::process::id())).to_be_bytes()
}

fn dataset<'a>(telegram: &MdTelegram, datagram: &'a [u8]) -> &'a [u8] {
    &datagram[MD_HEADER..MD_HEADER + telegram.header.common.dataset_length as usize]
}

struct Peer {
    socket: Socket,
    sessions: Sessions,
    statistics: Statistics,
    counter: u32,
}

impl Peer {
    fn new(local: SocketAddrV4) -> Result<Peer, Box<dyn Error>> {
        let socket = Socket::bind(local, LOCAL_COUNTS)?;
        Ok(Peer { socket, sessions: Sessions::default(), statistics: Statistics::default(), counter: 0 })
    }

    fn send(&mut self, telegram: &MdTelegram, dataset: &[u8], to: SocketAddrV4) -> Result<(), Box<dyn Error>> {
        let mut telegram = *telegram;
        telegram.header.common.sequence_counter = self.counter;
        self.counter = self.counter.wrapping_add(1);
        let mut target = vec![0; ROOM];
        let length = telegram.write(dataset, &mut target)?;
        Ok(self.socket.send(&target[..length], to)?)
    }

    /// A telegram back to where `heard` came from, in the same session.
    fn send_back(
        &mut self,
        heard: &MdTelegram,
        (msg_type, reply_status, reply_timeout): (u16, i32, u32),
        dataset: &[u8],
        to: SocketAddrV4,
    ) -> Result<(), Box<dyn Error>> {
        let common = Common { msg_type, ..heard.header.common };
        let header = MdHeader { common, reply_status, reply_timeout };
        let (source_uri, destination_uri) = (heard.destination_uri, heard.source_uri);
        self.send(&MdTelegram { header, session_id: heard.session_id, source_uri, destination_uri }, dataset, to)
    }

    /// The answer to the next datagram, if one comes, with its telegram, dataset and sender.
    #[allow(clippy::type_complexity)]
    fn receive(&mut self) -> Result<Option<(MdAnswer, MdTelegram, Vec<u8>, SocketAddrV4)>, Box<dyn Error>> {
        let Some(Arrived { from, arrival, datagram }) = self.socket.receive()? else { return Ok(None) };
        let answer = self.sessions.receive(&mut self.statistics, arrival, datagram);
        let taken = MdTelegram::take(datagram);
        match (answer, taken) {
            (Ok(answer), Ok(telegram)) => {
                let octets = dataset(&telegram, datagram).to_vec();
                return Ok(Some((answer, telegram, octets, from)));
            }
            (Err(MdRefusal { refusal, status }), taken) => {
                println!("refused {} {status}", refusal.number());
                if let (true, Ok(telegram)) = (status != 0, taken) {
                    self.send_back(&telegram, (msg_type::ME, status, 0), &[], from)?;
                }
            }
            (Ok(_), Err(refusal)) => return Err(refusal.into()),
        }
        Ok(None)
    }

    /// Whether a session was freed.
    fn check(&mut self) -> bool {
        let codes = self.sessions.check(self.socket.time());
        let freed = codes.iter().enumerate().filter(|(_, code)| **code != 0);
        freed.inspect(|(session, code)| println!("ended {session} {code}")).count() > 0
    }
}

fn answer(peer: &mut Peer, reply: Option<u16>, timeout: u32) -> Result<(), Box<dyn Error>> {
    let ended = input_ended();
    println!("ready {}", peer.socket.endpoint()?);
    while !ended.load(Ordering::Relaxed) {
        peer.check();
        let Some((answer, telegram, octets, from)) = peer.receive()? else { continue };
        let text = String::from_utf8_lossy(&octets);
        match answer {
            MdAnswer::Notified { listener } => println!("notified {listener} {text}"),
            MdAnswer::Taken { reply_status, session } => println!("taken {reply_status} {session}"),
            MdAnswer::Requested { listener, session } => {
                println!("requested {listener} {session} {text}");
                if let Some(msg_type) = reply {
                    peer.sessions.reply(session, msg_type, timeout, peer.socket.time())?;
                    peer.send_back(&telegram, (msg_type, 0, timeout), text.to_uppercase().as_bytes(), from)?;
                    println!("sent {msg_type:04X} {session}");
                }
            }
        }
    }
    println!("{}", peer.statistics.md);
    Ok(())
}

/// Calls, and waits until the session is over.
fn call(peer: &mut Peer, request: &MdTelegram, text: &str, to: SocketAddrV4) -> Result<(), Box<dyn Error>> {
    let session = peer.sessions.call(&request.session_id, request.header.reply_timeout, peer.socket.time())?;
    peer.send(request, text.as_bytes(), to)?;
    println!("called {session}");
    while !peer.check() {
        let Some((answer, telegram, octets, from)) = peer.receive()? else { continue };
        let MdAnswer::Taken { reply_status, session } = answer else { continue };
        println!("taken {reply_status} {session} {}", String::from_utf8_lossy(&octets));
        if telegram.header.common.msg_type == msg_type::MQ {
            peer.sessions.confirm(session)?;
            peer.send_back(&telegram, (msg_type::MC, 0, 0), &[], from)?;
            println!("confirmed {session}");
        }
        break;
    }
    Ok(())
}

fn run(local: SocketAddrV4, role: Role) -> Result<(), Box<dyn Error>> {
    let mut peer = Peer::new(local)?;
    match role {
        Role::Answer { com_id, uri, reply, timeout } => {
            peer.sessions.listen(com_id, SenderRange::default(), &uri)?;
            answer(&mut peer, reply, timeout)
        }
        Role::Call { peer: to, com_id, uri: destination_uri, timeout, text } => {
            let common = Common {
                protocol_version: 0x0100,
                msg_type: msg_type::MR,
                com_id,
                etb_topo_cnt: LOCAL_COUNTS.etb_topo_cnt,
                op_trn_topo_cnt: LOCAL_COUNTS.op_trn_topo_cnt,
                ..Common::default()
            };
            let header = MdHeader { common, reply_status: 0, reply_timeout: timeout };
            let source_uri = uri("caller").expect("it is short");
            let request = MdTelegram { header, session_id: new_session_id(), source_uri, destination_uri };
            call(&mut peer, &request, &text, to)
        }
    }
}

fn main() -> ExitCode {
    let words: Vec<String> = std::env::args().skip(1).collect();
    let Some((local, role)) = settings(&words) else {
        eprint!("{USAGE}");
        return ExitCode::FAILURE;
    };
    match run(local, role) {
        Ok(()) => ExitCode::SUCCESS,
        Err(error) => {
            eprintln!("md-peer: {error}");
            ExitCode::FAILURE
        }
    }
}
