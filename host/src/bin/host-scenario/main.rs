//! The scenario language over the C boundary: each line a call of the static library, each call one line of answer. The
//! comparison hands it the same scenarios as the model of tests/model.

#[path = "../../../../tests/model/src/hex.rs"]
mod hex;
mod md;
mod pd;
mod wire;

use std::io::{self, Read, Write};

use hex::Fields;
use trdp::{Arrival, Counters, Refusal, SenderRange, Statistics, TopoCounts};

/// All that the calls of a scenario work on.
#[derive(Default)]
struct Stack {
    local: TopoCounts,
    wire: wire::Wire,
    pd: pd::Pd,
    md: md::Md,
    statistics: Statistics,
}

/// `refused R`.
fn refused(refusal: Refusal) -> String {
    format!("refused {}", refusal.number())
}

fn answer<T>(outcome: Result<T, Refusal>, told: impl Fn(T) -> String) -> String {
    outcome.map_or_else(refused, told)
}

fn ok() -> Option<String> {
    Some("ok".into())
}

fn senders(fields: &mut Fields) -> Option<SenderRange> {
    Some(SenderRange { start: fields.number8()?, end: fields.number8()? })
}

fn arrival(fields: &mut Fields, local: TopoCounts) -> Option<Arrival> {
    Some(Arrival { sender: fields.number8()?, destination: fields.number8()?, time: fields.number16()?, local })
}

impl Stack {
    /// One line without its LF; no answer is a bad line, which changes nothing.
    fn call(&mut self, line: &[u8]) -> Option<String> {
        let mut fields = Fields::of(line);
        let fields = &mut fields;
        match fields.word()? {
            b"local" => self.set_local(fields),
            b"crc" => wire::crc(fields),
            b"pdtake" => wire::pdtake(fields),
            b"pdwrite" => wire::pdwrite(fields),
            b"mdtake" => wire::mdtake(fields),
            b"mdwrite" => wire::mdwrite(fields),
            b"pub" => self.wire.publish(fields),
            b"send" => self.wire.send(fields),
            b"types" => self.wire.types(fields),
            b"tohost" => self.wire.convert(fields, trdp::to_host, "host"),
            b"towire" => self.wire.convert(fields, trdp::to_wire, "wire"),
            b"sub" => self.pd.subscribe(fields),
            b"unsub" => self.pd.unsubscribe(fields),
            b"pd" => self.pd.receive(fields, self.local, &mut self.statistics),
            b"check" => self.pd.check(fields),
            b"read" => self.pd.read(fields),
            b"slot" => self.pd.slot(fields),
            b"part" => self.pd.part(fields),
            b"lend" => self.pd.lend(fields),
            b"damage" => self.pd.damage(fields),
            b"stats" => self.stats(fields),
            b"listen" => self.md.listen(fields),
            b"unlisten" => self.md.unlisten(fields),
            b"call" => self.md.call(fields),
            b"md" => self.md.receive(fields, self.local, &mut self.statistics),
            b"reply" => self.md.reply(fields),
            b"confirm" => self.md.confirm(fields),
            b"mdcheck" => self.md.check(fields),
            b"session" => self.md.session(fields),
            _ => None,
        }
    }

    fn set_local(&mut self, fields: &mut Fields) -> Option<String> {
        let local = TopoCounts { etb_topo_cnt: fields.number8()?, op_trn_topo_cnt: fields.number8()? };
        fields.end()?;
        self.local = local;
        ok()
    }

    fn stats(&self, fields: &mut Fields) -> Option<String> {
        fields.end()?;
        let told = |counters: &Counters, refusals: &[usize]| {
            let refused = refusals.iter().map(|number| format!(" {}", counters.refused[*number])).collect::<String>();
            format!("{} {}{refused}", counters.received, counters.delivered)
        };
        let pd = told(&self.statistics.pd, &[2, 3, 4, 5, 6, 7, 8, 9]);
        let md = told(&self.statistics.md, &[2, 3, 4, 5, 6, 7, 8, 17, 18, 19, 20]);
        Some(format!("pd {pd} md {md}"))
    }
}

fn main() -> io::Result<()> {
    let mut input = Vec::new();
    io::stdin().read_to_end(&mut input)?;
    let mut output = io::BufWriter::new(io::stdout().lock());
    let mut stack = Stack::default();
    for (number, (line, ended)) in hex::lines(&input).enumerate() {
        let told = if ended { stack.call(line) } else { None };
        writeln!(output, "{} {}", number + 1, told.unwrap_or("bad line".into()))?;
    }
    output.flush()
}
