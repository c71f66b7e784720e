//! What the programs over UDP share: a socket, a clock, and the wish to end.

use std::io::{self, ErrorKind};
use std::net::{Ipv4Addr, SocketAddr, SocketAddrV4, UdpSocket};
use std::sync::atomic::{AtomicBool, Ordering};
use std::sync::Arc;
use std::time::{Duration, Instant};

use crate::raw::{Arrival, TopoCounts};

/// How long one look at the socket waits.
const PATIENCE: Duration = Duration::from_millis(1);
/// The longest UDP datagram.
const DATAGRAM: usize = 65_536;

/// An IPv4 socket with the host's clock and local counters: all that an `Arrival` needs.
pub struct Socket {
    socket: UdpSocket,
    address: Ipv4Addr,
    start: Instant,
    local: TopoCounts,
    buffer: Vec<u8>,
}

/// A datagram, and what comes with it.
pub struct Arrived<'a> {
    pub from: SocketAddrV4,
    pub arrival: Arrival,
    pub datagram: &'a [u8],
}

/// `ADDRESS` or `ADDRESS:PORT`.
pub fn endpoint(text: &str, port: u16) -> Option<SocketAddrV4> {
    text.parse().ok().or_else(|| Some(SocketAddrV4::new(text.parse().ok()?, port)))
}

impl Socket {
    pub fn bind(at: SocketAddrV4, local: TopoCounts) -> io::Result<Socket> {
        let socket = UdpSocket::bind(at)?;
        socket.set_read_timeout(Some(PATIENCE))?;
        Ok(Socket { socket, address: *at.ip(), start: Instant::now(), local, buffer: vec![0; DATAGRAM] })
    }

    /// Where it is bound; of use where port 0 asked for any free one.
    pub fn endpoint(&self) -> io::Result<SocketAddr> {
        self.socket.local_addr()
    }

    /// Microseconds since the socket was bound.
    pub fn time(&self) -> u64 {
        self.start.elapsed().as_micros() as u64
    }

    pub fn send(&self, datagram: &[u8], to: SocketAddrV4) -> io::Result<()> {
        self.socket.send_to(datagram, to).map(|_| ())
    }

    /// The next datagram, if one comes within a millisecond.
    pub fn receive(&mut self) -> io::Result<Option<Arrived<'_>>> {
        let (length, from) = match self.socket.recv_from(&mut self.buffer) {
            Ok((length, SocketAddr::V4(from))) => (length, from),
            Ok(_) => return Ok(None),
            Err(error) if matches!(error.kind(), ErrorKind::WouldBlock | ErrorKind::TimedOut) => return Ok(None),
            // word that an earlier datagram met no open port
            Err(error) if error.kind() == ErrorKind::ConnectionRefused => return Ok(None),
            Err(error) => return Err(error),
        };
        let (sender, destination) = (u32::from(*from.ip()), u32::from(self.address));
        let arrival = Arrival { sender, destination, time: self.time(), local: self.local };
        Ok(Some(Arrived { from, arrival, datagram: &self.buffer[..length] }))
    }
}

/// Becomes true when standard input ends.
pub fn input_ended() -> Arc<AtomicBool> {
    let ended = Arc::new(AtomicBool::new(false));
    let told = Arc::clone(&ended);
    std::thread::spawn(move || {
        io::copy(&mut io::stdin().lock(), &mut io::sink()).ok();
        told.store(true, Ordering::Relaxed);
    });
    ended
}
