//! The judge: a second program written from the documents alone, against which
//! the verified program is compared. This file reads the command line.

mod generators;
mod program;
mod tests;

use std::io::{self, BufWriter, ErrorKind, Write};
use std::process::ExitCode;

use generators::{
    borderaccount, borderedges, borderjournal, bordermessages, borders, borderunits, changes,
    histories, requests, units,
};
use program::{journal, lines, messages, replay, tails, trials};
use tests::{cases, selftest};

const USAGE: &str = "usage: judge listing | account | journal | replay | trials | tails | \
requests SEED COUNT [KINDS] | borders [units | roads | edges | messages | account | records | journal] | \
agree SEED COUNT | units SEED COUNT | messages SEED COUNT | changes SEED COUNT | \
cases | selftest";

fn main() -> ExitCode {
    let words = std::env::args_os().skip(1);
    // A word that is no text is no command's.
    let words: Option<Vec<String>> = words.map(|word| word.into_string().ok()).collect();
    let words = words.unwrap_or_default();
    let words: Vec<&str> = words.iter().map(String::as_str).collect();
    match run(&words) {
        Ok(Some(true)) => ExitCode::SUCCESS,
        Ok(Some(false)) => ExitCode::FAILURE,
        Ok(None) => complain(USAGE),
        // Whoever read the output has seen enough.
        Err(error) if error.kind() == ErrorKind::BrokenPipe => ExitCode::SUCCESS,
        Err(error) => complain(&format!("judge: {error}")),
    }
}

/// Says on standard error what is wrong; a closed one is no matter.
fn complain(what: &str) -> ExitCode {
    let _ = writeln!(io::stderr(), "{what}");
    ExitCode::from(2)
}

/// Runs a command: whether all was good, or none for no such command.
fn run(words: &[&str]) -> io::Result<Option<bool>> {
    let input = io::stdin().lock();
    let output = &mut BufWriter::new(io::stdout().lock());
    let good = match words {
        ["listing"] => lines::listing(input, output).map(|()| true),
        ["account"] => messages::account(input, output).map(|()| true),
        ["journal"] => journal::journal(input, output, &mut io::stderr()),
        ["replay"] => replay::program(input, output, &mut io::stderr()),
        ["trials"] => trials::trials(input, output).map(|()| true),
        ["tails"] => tails::tails(input, output).map(|()| true),
        ["borders"] => borders::borders(output).map(|()| true),
        ["borders", "units"] => borderunits::border_units(output).map(|()| true),
        ["borders", "roads"] => borderunits::border_roads(output).map(|()| true),
        ["borders", "edges"] => borderedges::border_edges(output).map(|()| true),
        ["borders", "account"] => borderaccount::border_account(output).map(|()| true),
        ["borders", "messages"] => bordermessages::border_messages(output).map(|()| true),
        ["borders", "records"] => borderjournal::border_records(output).map(|()| true),
        ["borders", "journal"] => borderjournal::border_journal(output).map(|()| true),
        ["cases"] => cases::cases(output),
        ["selftest"] => selftest::selftest(output),
        [command, seed, count, kinds @ ..] => match (seed.parse(), count.parse()) {
            (Ok(seed), Ok(count)) => return run_seeded(command, seed, count, kinds, output),
            _ => return Ok(None),
        },
        _ => return Ok(None),
    }?;
    output.flush()?;
    Ok(Some(good))
}

fn run_seeded(
    command: &str,
    seed: u64,
    count: u64,
    kinds: &[&str],
    output: &mut impl Write,
) -> io::Result<Option<bool>> {
    let good = match (command, kinds) {
        ("requests", []) => {
            requests::requests(seed, count, &requests::mixed_kinds(), output).map(|()| true)
        }
        ("requests", [list]) => match requests::kinds_of(list) {
            Some(kinds) => requests::requests(seed, count, &kinds, output).map(|()| true),
            None => return Ok(None),
        },
        ("agree", []) => selftest::agree(seed, count, output),
        ("units", []) => units::units(seed, count, output).map(|()| true),
        ("messages", []) => histories::messages(seed, count, output).map(|()| true),
        ("changes", []) => changes::changes(seed, count, output).map(|()| true),
        _ => return Ok(None),
    }?;
    output.flush()?;
    Ok(Some(good))
}
