//! Process data over UDP: publishes one ComId to a peer and subscribes to another, until standard input ends. Each telegram is
//! dataset 1001: a number that counts up, and a text.

use std::error::Error;
use std::net::SocketAddrV4;
use std::process::ExitCode;
use std::sync::atomic::Ordering;

use trdp::udp::{endpoint, input_ended, Socket};
use trdp::*;

const USAGE: &str = "\
pd-peer LOCAL PEER PUBLISHED SUBSCRIBED CYCLE TIMEOUT TEXT
LOCAL and PEER: ADDRESS or ADDRESS:PORT (17224; 0: any free one); PUBLISHED and SUBSCRIBED: ComIds; CYCLE and TIMEOUT in microseconds
prints `ready ENDPOINT`, `received COUNTER NUMBER TEXT`, `refused R`, `timed out`, and when standard input ends the statistics
";

/// UINT32, then as many CHAR8 as a UINT8 says.
const RUN: [u32; 8] = [1001, 3, 10, 1, 8, 1, 2, 0];
const DATASET: u32 = 1001;
const LOCAL_COUNTS: TopoCounts = TopoCounts { etb_topo_cnt: 7, op_trn_topo_cnt: 9 };

struct Settings {
    local: SocketAddrV4,
    peer: SocketAddrV4,
    published: u32,
    subscribed: u32,
    cycle: u32,
    timeout: u32,
    text: String,
}

fn settings(words: &[String]) -> Option<Settings> {
    let [local, peer, published, subscribed, cycle, timeout, text] = words else { return None };
    Some(Settings {
        local: endpoint(local, PD_PORT)?,
        peer: endpoint(peer, PD_PORT)?,
        published: published.parse().ok()?,
        subscribed: subscribed.parse().ok()?,
        cycle: cycle.parse().ok()?,
        timeout: timeout.parse().ok()?,
        text: text.chars().take(255).filter(char::is_ascii).collect(),
    })
}

/// The dataset in the wire's form.
fn dataset(number: u32, text: &str) -> Result<Vec<u8>, Refusal> {
    let host = [&number.to_le_bytes()[..], &[text.len() as u8], text.as_bytes()].concat();
    let mut wire = vec![0; host.len()];
    to_wire(&RUN, DATASET, &host, &mut wire)?;
    Ok(wire)
}

/// The number and the text of a dataset in the wire's form.
fn told(wire: &[u8]) -> Result<String, Refusal> {
    let mut host = vec![0; wire.len()];
    to_host(&RUN, DATASET, wire, &mut host)?;
    let number = u32::from_le_bytes(host[..4].try_into().expect("four octets"));
    Ok(format!("{number} {}", String::from_utf8_lossy(&host[5..])))
}

struct Peer {
    settings: Settings,
    socket: Socket,
    publication: Publication,
    table: Subscriptions,
    statistics: Statistics,
}

impl Peer {
    fn new(settings: Settings) -> Result<Peer, Box<dyn Error>> {
        let common = Common {
            protocol_version: 0x0100,
            msg_type: msg_type::PD,
            com_id: settings.published,
            etb_topo_cnt: LOCAL_COUNTS.etb_topo_cnt,
            op_trn_topo_cnt: LOCAL_COUNTS.op_trn_topo_cnt,
            ..Common::default()
        };
        let publication = Publication::new(PdHeader { common, ..PdHeader::default() }, settings.cycle);
        let socket = Socket::bind(settings.local, LOCAL_COUNTS)?;
        let mut table = Subscriptions::new(1);
        let filter = Filter { com_id: settings.subscribed, ..Filter::default() };
        table.subscribe(filter, settings.timeout, Behaviour::Keep, socket.time())?;
        Ok(Peer { settings, socket, publication, table, statistics: Statistics::default() })
    }

    fn publish(&mut self) -> Result<(), Box<dyn Error>> {
        let dataset = dataset(self.publication.next_counter(), &self.settings.text)?;
        let mut target = [0; PD_HEADER + PD_DATASET];
        match self.publication.send(self.socket.time(), &dataset, &mut target) {
            Ok(length) => self.socket.send(&target[..length], self.settings.peer)?,
            Err(Refusal::NotDue) => (),
            Err(refusal) => return Err(refusal.into()),
        }
        Ok(())
    }

    fn receive(&mut self) -> Result<(), Box<dyn Error>> {
        let Some(arrived) = self.socket.receive()? else { return Ok(()) };
        match self.table.receive(&mut self.statistics, arrived.arrival, arrived.datagram) {
            Ok(_) => {
                let (_, octets) = self.table.read(0, &[])?;
                let counter = self.table.slots()[0].last.counter;
                match told(octets) {
                    Ok(told) => println!("received {counter} {told}"),
                    Err(refusal) => println!("received {counter} and no dataset: {refusal}"),
                }
            }
            Err(refusal) => println!("refused {}", refusal.number()),
        }
        Ok(())
    }

    fn check(&mut self) -> Result<(), Refusal> {
        if self.table.check(self.socket.time())? > 0 {
            println!("timed out");
        }
        Ok(())
    }
}

fn run(settings: Settings) -> Result<(), Box<dyn Error>> {
    let ended = input_ended();
    let mut peer = Peer::new(settings)?;
    println!("ready {}", peer.socket.endpoint()?);
    while !ended.load(Ordering::Relaxed) {
        peer.publish()?;
        peer.receive()?;
        peer.check()?;
    }
    println!("{}", peer.statistics.pd);
    Ok(())
}

fn main() -> ExitCode {
    let words: Vec<String> = std::env::args().skip(1).collect();
    let Some(settings) = settings(&words) else {
        eprint!("{USAGE}");
        return ExitCode::FAILURE;
    };
    match run(settings) {
        Ok(()) => ExitCode::SUCCESS,
        Err(error) => {
            eprintln!("pd-peer: {error}");
            ExitCode::FAILURE
        }
    }
}
