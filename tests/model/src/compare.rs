//! The compiled programs beside the model, on generated input.

use std::io::{self, Write};
use std::process::{Command, Stdio};

use crate::framelist::framelist;
use crate::generate::{self, Group};
use crate::language::scenario;

/// Lines in one generated scenario, and in one generated capture.
pub const CALLS: usize = 1000;
pub const FRAMES: usize = 20;

/// One input of a run: its seed and how many lines are asked for.
pub fn pieces(seed: u64, lines: usize, size: usize) -> impl Iterator<Item = (u64, usize)> {
    let start = seed.wrapping_mul(1_000_000);
    (0..lines.div_ceil(size)).map(move |piece| (start.wrapping_add(piece as u64), size.min(lines - piece * size)))
}

/// What the program prints for this input.
fn run(program: &str, input: &[u8]) -> io::Result<Vec<u8>> {
    let mut child = Command::new(program).stdin(Stdio::piped()).stdout(Stdio::piped()).spawn()?;
    let mut stdin = child.stdin.take().expect("piped");
    std::thread::scope(|scope| {
        // a program that stops reading is seen by its output
        scope.spawn(move || stdin.write_all(input).ok());
        child.wait_with_output()
    })
    .map(|output| output.stdout)
}

fn clipped(line: Option<&[u8]>) -> String {
    const SHOWN: usize = 300;
    match line {
        None => "(nothing)".into(),
        Some(line) if line.len() > SHOWN => format!("{}.. ({} characters)", String::from_utf8_lossy(&line[..SHOWN]), line.len()),
        Some(line) => String::from_utf8_lossy(line).into_owned(),
    }
}

/// The first line in which the two outputs differ, with the input's line beside it.
fn difference(input: &[u8], before: usize, told: &[u8], model: &[u8]) -> String {
    let [input, told, model] = [input, told, model].map(|text| text.split(|character| *character == b'\n').collect::<Vec<_>>());
    let same = told.iter().zip(&model).take_while(|(told, model)| told == model).count();
    let input_line = same + before;
    format!(
        "  input line {}: {}\n  program: {}\n  model:   {}\n",
        input_line + 1,
        clipped(input.get(input_line).copied()),
        clipped(told.get(same).copied()),
        clipped(model.get(same).copied())
    )
}

/// Hands each piece of input to the program and to the model; stops at the first difference.
struct Comparison<'a> {
    program: &'a str,
    /// the words that make the model print a piece of the input
    mode: String,
    generate: &'a dyn Fn(u64, usize) -> Vec<u8>,
    model: fn(&[u8]) -> String,
    /// input lines that have no answer of their own
    before: usize,
}

impl Comparison<'_> {
    /// What is wrong in one piece, if anything is.
    fn fault(&self, seed: u64, lines: usize) -> Option<String> {
        let input = (self.generate)(seed, lines);
        let model = (self.model)(&input).into_bytes();
        match run(self.program, &input) {
            Err(error) => Some(format!("cannot be run: {error}\n")),
            Ok(told) if told == model => None,
            Ok(told) => {
                let shown = difference(&input, self.before, &told, &model);
                Some(format!("differs from the model; `{} {seed} {lines}` prints the input\n{shown}", self.mode))
            }
        }
    }

    /// Prints `ok: ..` or `FAILED: ..`.
    fn all_agree(&self, seed: u64, lines: usize, size: usize, what: &str) -> bool {
        let program = self.program;
        match pieces(seed, lines, size).find_map(|(seed, lines)| self.fault(seed, lines)) {
            None => println!("ok: {program} and the model agree on {lines} {what}, seed {seed}"),
            Some(fault) => {
                print!("FAILED: {program} {fault}");
                return false;
            }
        }
        true
    }
}

pub fn compare_scenario(program: &str, seed: u64, calls: usize, groups: &[Group], names: &str) -> bool {
    let generate = |seed, calls| generate::scenario(seed, calls, groups);
    let mode = format!("model generate {names}");
    let comparison = Comparison { program, mode, generate: &generate, model: scenario, before: 0 };
    comparison.all_agree(seed, calls, CALLS, &format!("calls ({names})"))
}

pub fn compare_framelist(program: &str, seed: u64, frames: usize) -> bool {
    let generate = |seed, frames| generate::capture::capture(seed, frames);
    let mode = "model capture".into();
    let comparison = Comparison { program, mode, generate: &generate, model: framelist, before: 1 };
    comparison.all_agree(seed, frames, FRAMES, "frames")
}
