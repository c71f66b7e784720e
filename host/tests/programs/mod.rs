//! Programs under test: started, listened to line by line, and ended by closing their standard input.

use std::io::{BufRead, BufReader};
use std::net::UdpSocket;
use std::process::{Child, ChildStdin, Command, Stdio};
use std::sync::mpsc::{channel, Receiver};
use std::time::{Duration, Instant};

/// The longest that a line is waited for.
const PATIENCE: Duration = Duration::from_secs(20);

pub struct Program {
    child: Child,
    input: Option<ChildStdin>,
    lines: Receiver<String>,
}

impl Program {
    pub fn start(path: &str, words: &[&str]) -> Program {
        let mut child =
            Command::new(path).args(words).stdin(Stdio::piped()).stdout(Stdio::piped()).spawn().expect("the program starts");
        let input = child.stdin.take();
        let output = BufReader::new(child.stdout.take().expect("piped"));
        let (told, lines) = channel();
        std::thread::spawn(move || output.lines().map_while(Result::ok).try_for_each(|line| told.send(line)));
        Program { child, input, lines }
    }

    /// Where the program is bound, or nothing where it could not be.
    pub fn endpoint(&self) -> Option<String> {
        let line = self.lines.recv_timeout(PATIENCE).ok()?;
        line.strip_prefix("ready ").map(String::from)
    }

    /// The next line.
    pub fn line(&self) -> String {
        self.lines.recv_timeout(PATIENCE).expect("a line in time")
    }

    /// The next line that starts with this word, without it; others are passed over.
    pub fn line_of(&self, word: &str) -> String {
        let start = Instant::now();
        while start.elapsed() < PATIENCE {
            if let Some(rest) = self.line().strip_prefix(word) {
                return rest.trim_start().into();
            }
        }
        panic!("no line starts with {word}");
    }

    /// All lines up to the end of a program that ends by itself.
    pub fn lines_to_its_end(mut self) -> Vec<String> {
        let lines = self.lines.iter().collect();
        assert!(self.child.wait().expect("it ends").success());
        lines
    }

    /// Closes standard input and answers the lines still told.
    pub fn end(mut self) -> Vec<String> {
        drop(self.input.take());
        self.lines_to_its_end()
    }
}

impl Drop for Program {
    fn drop(&mut self) {
        // one that ended by itself is not there to be ended
        self.child.kill().ok();
        self.child.wait().ok();
    }
}

/// A socket of this test's own on 127.0.0.1.
pub fn socket() -> UdpSocket {
    UdpSocket::bind("127.0.0.1:0").expect("a free port")
}
