//! Document 01 a second time, in plain Rust, independent of the proved code; scenarios at random; the comparison.

mod address;
mod compare;
mod coverage;
mod datasets;
mod fcs;
mod framelist;
mod generate;
mod headers;
mod hex;
mod language;
mod publications;
mod random;
mod refusal;
mod sessions;
mod statistics;
mod subscriptions;
mod timing;
mod topography;

use std::io::{self, Read, Write};
use std::process::ExitCode;

use generate::{Group, GROUPS};

const USAGE: &str = "\
model scenario                                      answers a scenario on standard input
model framelist                                     lists a capture on standard input
model generate GROUPS SEED CALLS                    prints a scenario
model capture SEED FRAMES                           prints a capture
model coverage GROUPS SEED CALLS                    counts answers by verb and refusal number
model compare-scenario PROGRAM GROUPS SEED CALLS    compares a program with the model
model compare-framelist PROGRAM SEED FRAMES         compares a program with the model
GROUPS: all, or some of wire,data,pd,md
";

fn groups(names: &str) -> Option<Vec<Group>> {
    if names == "all" {
        return Some(GROUPS.map(|(_, group)| group).to_vec());
    }
    let group = |name: &str| GROUPS.iter().find(|(known, _)| *known == name).map(|(_, group)| *group);
    names.split(',').map(group).collect()
}

fn piped(program: fn(&[u8]) -> String) -> io::Result<bool> {
    let mut input = Vec::new();
    io::stdin().read_to_end(&mut input)?;
    io::stdout().write_all(program(&input).as_bytes())?;
    Ok(true)
}

fn coverage(groups: &[Group], seed: u64, calls: usize) -> String {
    let mut coverage = coverage::Coverage::default();
    for (seed, calls) in compare::pieces(seed, calls, compare::CALLS) {
        coverage.add(&generate::scenario(seed, calls, groups));
    }
    coverage.told(groups)
}

/// Whether all went well, or nothing for words that are no mode.
fn mode(words: &[&str]) -> Option<io::Result<bool>> {
    let printed = |octets: &[u8]| io::stdout().write_all(octets).map(|()| true);
    Some(match words {
        ["scenario"] => piped(language::scenario),
        ["framelist"] => piped(framelist::framelist),
        ["generate", names, seed, calls] => {
            printed(&generate::scenario(seed.parse().ok()?, calls.parse().ok()?, &groups(names)?))
        }
        ["capture", seed, frames] => printed(&generate::capture::capture(seed.parse().ok()?, frames.parse().ok()?)),
        ["coverage", names, seed, calls] => {
            printed(coverage(&groups(names)?, seed.parse().ok()?, calls.parse().ok()?).as_bytes())
        }
        ["compare-scenario", program, names, seed, calls] => {
            Ok(compare::compare_scenario(program, seed.parse().ok()?, calls.parse().ok()?, &groups(names)?, names))
        }
        ["compare-framelist", program, seed, frames] => {
            Ok(compare::compare_framelist(program, seed.parse().ok()?, frames.parse().ok()?))
        }
        _ => return None,
    })
}

fn main() -> ExitCode {
    let words: Vec<String> = std::env::args().skip(1).collect();
    let words: Vec<&str> = words.iter().map(String::as_str).collect();
    match mode(&words) {
        Some(Ok(true)) => ExitCode::SUCCESS,
        Some(Ok(false)) => ExitCode::FAILURE,
        Some(Err(error)) => {
            eprintln!("model: {error}");
            ExitCode::FAILURE
        }
        None => {
            eprint!("{USAGE}");
            ExitCode::FAILURE
        }
    }
}
