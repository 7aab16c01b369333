//! The written run in plain, unverified Rust, for speed: what `bench/run` measures the proved program beside.
//!
//!     plain solve [--pivots N] [--cuts N] [--splits N] [--nesting N]
//!     plain count [the same]
//!
//! `solve` has the program's texts, lines and statuses; `count` writes what was counted instead.

mod numbers;
mod run;
mod tableau;
mod text;

use run::{Budgets, Counts, Refusal, Run};
use std::io::{Read, Write};
use text::{ReadRefusal, Reader};

const MOST_BYTES: u64 = 16_777_216;

/// What ends the program before its time: the status and the line.
struct End(i32, String);

impl From<ReadRefusal> for End {
    fn from(refusal: ReadRefusal) -> End {
        match refusal {
            ReadRefusal::Syntax(place) => End(2, format!("syntax at byte {place}")),
            ReadRefusal::Wide(place) => End(9, format!("number too wide at byte {place}")),
            ReadRefusal::Limit(name, size) => End(9, format!("limit of {name} {size}")),
            ReadRefusal::BigParameter(column) => End(3, format!("unsupported big parameter {column}")),
        }
    }
}

impl From<Refusal> for End {
    fn from(refusal: Refusal) -> End {
        match refusal {
            Refusal::Overflow => End(4, "overflow".into()),
            Refusal::Budget(name, budget) => End(5, format!("budget of {name} {budget}")),
        }
    }
}

struct Command {
    counts_only: bool,
    budgets: Budgets,
}

fn command(mut words: impl Iterator<Item = String>) -> Option<Command> {
    let counts_only = match words.next()?.as_str() {
        "solve" => false,
        "count" => true,
        _ => return None,
    };
    let mut budgets = Budgets { pivots: 1_000_000, cuts: 100_000, splits: 10_000, nesting: 200 };
    while let Some(name) = words.next() {
        let (budget, most) = match name.as_str() {
            "--pivots" => (&mut budgets.pivots, 1_000_000_000),
            "--cuts" => (&mut budgets.cuts, 1_000_000),
            "--splits" => (&mut budgets.splits, 1_000_000),
            "--nesting" => (&mut budgets.nesting, 200),
            _ => return None,
        };
        let digits = words.next()?;
        let is_number = digits.bytes().all(|byte| byte.is_ascii_digit());
        *budget = digits.parse().ok().filter(|number| is_number && *number <= most)?;
    }
    Some(Command { counts_only, budgets })
}

fn read_input() -> Result<Vec<u8>, End> {
    let mut bytes = vec![];
    let mut input = std::io::stdin().lock().take(MOST_BYTES + 1);
    input.read_to_end(&mut bytes).map_err(|_| End(6, "read fault".into()))?;
    if bytes.len() as u64 > MOST_BYTES {
        return Err(End(9, format!("limit of input bytes {MOST_BYTES}")));
    }
    Ok(bytes)
}

fn write(bytes: &[u8]) -> Result<(), End> {
    let mut output = std::io::stdout().lock();
    let done = output.write_all(bytes).and_then(|()| output.flush());
    done.map_err(|_| End(7, "write fault".into()))
}

fn main_or_end() -> Result<(), End> {
    let command = command(std::env::args().skip(1)).ok_or(End(1, "usage".into()))?;
    let bytes = read_input()?;
    let mut reader = Reader { bytes: &bytes, at: 0 };
    let (mut problems, mut total) = (0, Counts::default());
    let mut text = vec![];
    while let Some(problem) = reader.problem()? {
        let comment = problem.comment;
        let mut run = Run::new(problem.is_integer, command.budgets);
        let answer = run.solve(problem);
        problems += 1;
        total.add(&run.counts);
        if command.counts_only {
            continue;
        }
        text.clear();
        text::print_answer(comment, &answer?, &mut text);
        write(&text)?;
    }
    if command.counts_only {
        write(format!("problems {problems} {total}\n").as_bytes())?;
    }
    Ok(())
}

fn main() {
    if let Err(End(status, line)) = main_or_end() {
        eprintln!("pip: {line}");
        std::process::exit(status);
    }
}
