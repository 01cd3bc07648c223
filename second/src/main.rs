//! The second program: it answers the calls of the name store on its own, straight from
//! the definitions of document 01 and requests 1 and 3 to 7, and makes cases on which the
//! two are compared.

mod asking;
mod breaking;
mod calls;
mod cases;
mod counting;
mod distant;
mod edges;
mod every;
mod filling;
mod finding;
mod halves;
mod lines;
mod listing;
mod making;
mod noise;
mod opening;
mod page;
mod paging;
mod random;
mod roomnoise;
mod sheet;
mod small;
mod smalltables;
mod smallwholes;
mod sums;
mod tables;
mod tabling;
mod taming;
mod tokens;
mod whole;
mod wholenoise;
mod word;

use std::io::{self, BufReader, BufWriter};
use std::process::ExitCode;

const USAGE: &str = "second answer < CALLS | second cases SEED COUNT | second small";

/// Runs one command; status 2 for a command that is none, 1 where input or output fails.
fn main() -> ExitCode {
    let arguments: Vec<String> = std::env::args().skip(1).collect();
    let words: Vec<&str> = arguments.iter().map(String::as_str).collect();
    match run(&words) {
        Some(Ok(())) => ExitCode::SUCCESS,
        Some(Err(error)) => {
            eprintln!("second: {error}");
            ExitCode::FAILURE
        }
        None => {
            eprintln!("{USAGE}");
            ExitCode::from(2)
        }
    }
}

/// The command's outcome, or none where it is no command.
fn run(words: &[&str]) -> Option<io::Result<()>> {
    let output = BufWriter::new(io::stdout().lock());
    match words {
        ["answer"] => {
            let input = BufReader::new(io::stdin().lock());
            Some(lines::answer_all(input, output))
        }
        ["cases", seed, count] => {
            let (seed, count) = (seed.parse().ok()?, count.parse().ok()?);
            Some(cases::print_cases(seed, count, output))
        }
        ["small"] => Some(small::print_small(output)),
        _ => None,
    }
}
