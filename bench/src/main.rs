//! bench [WORD]: compares the answers of the store with those of two programs in Rust, then times the three on the same calls and
//! prints a table; with WORD only the rows that have it in their text. Status 1 if any answer differs, 2 if no row has WORD.
mod calls;
mod clock;
mod fast;
mod halves;
mod inputs;
mod pages;
mod plain;
mod programs;
mod sheets;
mod slots;
mod store;

use calls::Calls;
use inputs::{Case, Row};
use std::io::Write;
use std::process::ExitCode;

/// The programs, the store first, and last the one that is left out where a list is too long to be stepped through.
const PROGRAMS: [&dyn Calls; 3] = [&store::Store, &fast::Fast, &plain::Plain];

/// The programs that a row's calls are made of.
fn programs(row: &Row) -> &'static [&'static dyn Calls] {
    if row.stepped {
        &PROGRAMS
    } else {
        &PROGRAMS[..2]
    }
}

/// How many calls at random the answers are compared on, beside those that are timed.
const COMPARED: usize = 6000;

/// How many times the table is gone through.
const SWEEPS: usize = 4;

/// The head of the table.
const HEAD: &str = "\
| sheets | call | tried | store | plain | fast | store / plain | store / fast |
|---|---|---|---|---|---|---|---|
";

/// The first of the calls that the programs do not answer alike.
fn first_difference<'a>(cases: &'a [Case], programs: &[&dyn Calls]) -> Option<&'a Case> {
    cases.iter().find(|case| {
        let answer = case.answer(programs[0]);
        programs[1..].iter().any(|by| case.answer(*by) != answer)
    })
}

/// A call that is not answered alike, and all answers to it.
fn show_difference(case: &Case, programs: &[&dyn Calls]) {
    eprintln!("bench: answers differ: {case:?}");
    for by in programs {
        eprintln!("  {:6} {:?}", by.name(), case.answer(*by));
    }
}

/// A time in nanoseconds, in the unit that suits it; a dash where none was taken.
fn show_time(t: f64) -> String {
    match t {
        t if t.is_infinite() => "-".to_string(),
        t if t < 1e3 => format!("{t:.0} ns"),
        t if t < 1e6 => format!("{:.2} µs", t / 1e3),
        t if t < 1e9 => format!("{:.2} ms", t / 1e6),
        t => format!("{:.2} s", t / 1e9),
    }
}

/// A ratio, to two digits or all of its whole part; a dash to a time that was not taken.
fn show_ratio(x: f64) -> String {
    if x == 0.0 {
        return "-".to_string();
    }
    let decimals = (1.0 - x.log10().floor()).clamp(0.0, 4.0) as usize;
    format!("{x:.decimals$}")
}

/// The least time of a pass over a row's calls, for each row and program, or infinity where it is not asked. The whole table is gone through several times, so that
/// a slow spell of the machine does not fall on one row alone.
fn timed(rows: &mut [Row]) -> Vec<[f64; 3]> {
    let mut best = vec![[f64::INFINITY; 3]; rows.len()];
    for _ in 0..SWEEPS {
        for (least, row) in best.iter_mut().zip(rows.iter_mut()) {
            let by = programs(row);
            clock::improve(&mut least[..by.len()], &mut row.cases, by);
        }
    }
    best
}

/// A row as a line: the times of one call, and the ratios.
fn show_row(row: &Row, times: &[f64; 3]) -> String {
    let calls = row.cases.len();
    let tried = row.cases.iter().map(Case::tried).sum::<u64>() / calls as u64;
    let [store, fast, plain] = *times;
    let mut cells = vec![row.sheets.clone(), row.call.to_string(), tried.to_string()];
    cells.extend([store, plain, fast].map(|t| show_time(t / calls as f64)));
    cells.extend([plain, fast].map(|t| show_ratio(store / t)));
    format!("| {} |\n", cells.join(" | "))
}

/// Writes what was found. That nobody takes it is a failure too.
fn say(text: &str) -> ExitCode {
    match std::io::stdout().write_all(text.as_bytes()) {
        Ok(()) => ExitCode::SUCCESS,
        Err(why) => {
            eprintln!("bench: standard output: {why}");
            ExitCode::FAILURE
        }
    }
}

fn main() -> ExitCode {
    let word = std::env::args_os().nth(1).unwrap_or_default();
    let word = word.to_string_lossy();
    let wanted = |row: &Row| format!("{} {}", row.sheets, row.call).contains(&*word);
    let mut rows: Vec<Row> = inputs::rows().into_iter().filter(wanted).collect();
    if rows.is_empty() {
        eprintln!("bench: no row has {word:?} in it");
        return ExitCode::from(2);
    }
    let mut g = sheets::Random(1);
    let random: Vec<Case> = (0..COMPARED).map(|_| inputs::any_case(&mut g)).collect();
    let compared = rows.iter().map(|row| (&row.cases, programs(row)));
    for (cases, by) in compared.chain([(&random, &PROGRAMS[..])]) {
        if let Some(case) = first_difference(cases, by) {
            show_difference(case, by);
            return ExitCode::FAILURE;
        }
    }
    let calls = COMPARED + rows.iter().map(|row| row.cases.len()).sum::<usize>();
    let best = timed(&mut rows);
    let table: String = rows
        .iter()
        .zip(&best)
        .map(|(row, times)| show_row(row, times))
        .collect();
    say(&format!(
        "{calls} calls, the answers of store, plain and fast agree\n\n{HEAD}{table}"
    ))
}
