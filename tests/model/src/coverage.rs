//! What a generated run reaches: answers by verb and refusal number.

use std::collections::{BTreeMap, BTreeSet};

use crate::generate::Group;
use crate::language::scenario;

/// The refusals that document 01 allows for each verb.
const REFUSALS: [(&str, Group, &[u8]); 29] = [
    ("local", Group::Wire, &[]),
    ("crc", Group::Wire, &[]),
    ("pdtake", Group::Wire, &[2, 3, 4, 5, 6]),
    ("pdwrite", Group::Wire, &[4, 5, 15, 16]),
    ("mdtake", Group::Wire, &[2, 3, 4, 5, 6]),
    ("mdwrite", Group::Wire, &[4, 5, 15, 16, 20]),
    ("pub", Group::Wire, &[]),
    ("send", Group::Wire, &[4, 5, 14, 15, 16]),
    ("types", Group::Data, &[]),
    ("tohost", Group::Data, &[21, 22, 23, 24, 25]),
    ("towire", Group::Data, &[21, 22, 23, 24, 25]),
    ("sub", Group::Pd, &[1, 11, 12, 13]),
    ("unsub", Group::Pd, &[1, 10]),
    ("pd", Group::Pd, &[1, 2, 3, 4, 5, 6, 7, 8, 9]),
    ("check", Group::Pd, &[1]),
    ("read", Group::Pd, &[1, 10]),
    ("slot", Group::Pd, &[10]),
    ("part", Group::Pd, &[10]),
    ("lend", Group::Pd, &[]),
    ("damage", Group::Pd, &[10]),
    ("listen", Group::Md, &[11, 12, 13, 20]),
    ("unlisten", Group::Md, &[10]),
    ("call", Group::Md, &[17, 18]),
    ("md", Group::Md, &[2, 3, 4, 5, 6, 7, 8, 17, 18, 19, 20]),
    ("reply", Group::Md, &[5, 10, 19]),
    ("confirm", Group::Md, &[10, 19]),
    ("mdcheck", Group::Md, &[]),
    ("session", Group::Md, &[10]),
    ("stats", Group::Pd, &[]),
];

/// Counts of answers, by verb and by the answer's kind.
#[derive(Default)]
pub struct Coverage {
    counts: BTreeMap<(String, String), usize>,
}

/// `refused 8`; none, one or some slots; the state shown; the codes given; else the answer's first word.
fn kind(answer: &str) -> String {
    let words: Vec<&str> = answer.split(' ').skip(1).collect();
    match words[..] {
        ["refused", number, ..] => format!("refused {number:>2}"),
        ["bad", "line"] => "bad line".into(),
        ["delivered" | "marked", "0" | "1"] => words.join(" "),
        ["delivered" | "marked", _] => format!("{} some", words[0]),
        ["used", _, _, _, _, _, _, state, ..] | ["used", _, state, _, _] => format!("used {state}"),
        ["codes", ..] => codes(&words[1..]),
        [word, ..] => word.into(),
        [] => String::new(),
    }
}

/// Which codes other than 0 occur.
fn codes(codes: &[&str]) -> String {
    let given: BTreeSet<&str> = codes.iter().copied().filter(|code| *code != "0").collect();
    given.into_iter().fold("codes".into(), |told, code| format!("{told} {code}"))
}

fn verb(line: &[u8]) -> String {
    let word = line.split(|character| *character == b' ').next().unwrap_or_default();
    let known = REFUSALS.iter().find(|(verb, ..)| verb.as_bytes() == word);
    known.map_or("(none)".into(), |(verb, ..)| verb.to_string())
}

impl Coverage {
    pub fn add(&mut self, input: &[u8]) {
        let output = scenario(input);
        for (line, answer) in input.split(|character| *character == b'\n').zip(output.lines()) {
            *self.counts.entry((verb(line), kind(answer))).or_default() += 1;
        }
    }

    fn reached(&self, verb: &str, refusal: u8) -> bool {
        self.counts.contains_key(&(verb.to_string(), format!("refused {refusal:>2}")))
    }

    /// Refusals that a verb of these groups may give and has not given.
    fn missing(&self, groups: &[Group]) -> Vec<String> {
        let mut missing = Vec::new();
        for (verb, _, refusals) in REFUSALS.iter().filter(|(_, group, _)| groups.contains(group)) {
            let absent = refusals.iter().filter(|refusal| !self.reached(verb, **refusal));
            missing.extend(absent.map(|refusal| format!("{verb} {refusal}")));
        }
        missing
    }

    pub fn told(&self, groups: &[Group]) -> String {
        let mut told = String::new();
        for ((verb, kind), count) in &self.counts {
            told.push_str(&format!("{verb:9} {kind:14} {count}\n"));
        }
        let reached = |refusal: &u8| REFUSALS.iter().any(|(verb, ..)| self.reached(verb, *refusal));
        told.push_str(&format!("refusal numbers reached: {} of 25\n", (1..=25).filter(reached).count()));
        let missing = self.missing(groups);
        told.push_str(&format!("not reached: {}\n", if missing.is_empty() { "none".into() } else { missing.join(", ") }));
        told
    }
}
