//! The second program.
//!
//!     second answer                             answers a list of calls, standard input to output
//!     second list NAME                          writes a list: wire, masters, exchange, watch, card,
//!                                               whole (these five and four random ones),
//!                                               stored, sequence, hour
//!     second list random SEED COUNT             writes a random list of COUNT calls
//!     second compare PROGRAM SEED LISTS COUNT   runs LISTS random lists of COUNT calls through
//!                                               the bench PROGRAM and through itself
//!     second compare PROGRAM NAME               the same with one list by its name
//!     second try [WORD..] -- COMMAND..          plays random lists to COMMAND, any build that reads
//!                                               lists and writes answers, and to the proved bench
//!     second report LIST                        writes a page of HTML with pictures of what the list
//!                                               in the file LIST comes to
//!     second help                               this page
//!
//! `compare` says how many calls agreed, or the first difference with exit status 1. The bench
//! keeps what `list stored` writes in crates/bench/stdin and what `answer` gives for it in
//! crates/bench/stdout; `cargo test` says whether both are still so.
//!
//! `try` starts COMMAND anew for each list, with no unit and a table of five lent; it is to read to
//! the end of its input and end. At the first difference the list is shrunk and written to a file
//! that can be played again. The words, with what they are where they are not said:
//!
//!     seed=1  lists=1000  calls=1000            the first list's seed, how many, how long
//!     seconds=60                                looks for so long, and shrinks for as long again
//!     silence=5                                 seconds without an answer until COMMAND is killed
//!     against='./bench'                         the program that is compared with
//!     to=differs.txt                            where the list goes that differs
//!     list=FILE                                 plays this list in place of random ones
//!
//! A difference is another answer, a bad answer (no line of docs/BENCH.md), too few or too many
//! answers, silence, or that COMMAND died.
//!
//! Exit status: 0 done, and nothing differs; 1 a difference, or a stream that failed; 2 wrong
//! words; 3 nothing could be tried: COMMAND or the program compared with can't be run.

use second::trial::{self, found, plan::Plan, End};
use second::{answerer, compare, lists, report};
use std::io::{self, Write};
use std::path::Path;
use std::process::ExitCode;

fn main() -> ExitCode {
    let arguments: Vec<String> = std::env::args().skip(1).collect();
    let words: Vec<&str> = arguments.iter().map(String::as_str).collect();
    if let ["try", rest @ ..] = &words[..] {
        return attempt(rest);
    }
    match run(&words) {
        Some(Ok(())) => ExitCode::SUCCESS,
        Some(Err(text)) => {
            eprintln!("{text}");
            ExitCode::from(1)
        }
        None => {
            eprint!("{}", usage());
            ExitCode::from(2)
        }
    }
}

/// Does what the words ask for; none where they ask for nothing known.
fn run(words: &[&str]) -> Option<Result<(), String>> {
    match words {
        ["help"] => Some(put(usage().as_bytes())),
        ["answer"] => {
            let done = answerer::answer(io::stdin().lock(), io::stdout().lock());
            Some(done.map_err(|error| error.to_string()))
        }
        ["report", path] => Some(write_report(path)),
        ["list", "random", seed, count] => {
            let list = lists::random::list(seed.parse().ok()?, count.parse().ok()?);
            Some(put(&list))
        }
        ["list", name] => Some(put(&lists::named(name)?)),
        ["compare", program, seed, count, calls] => {
            let (seed, count) = (seed.parse().ok()?, count.parse().ok()?);
            let calls = calls.parse().ok()?;
            Some(tell(compare::random_lists(program, seed, count, calls)))
        }
        ["compare", program, name] => Some(tell(compare::named_list(program, name))),
        _ => None,
    }
}

fn write_report(path: &str) -> Result<(), String> {
    let list = std::fs::read(path).map_err(|error| format!("{path}: {error}"))?;
    let name = Path::new(path).file_name().unwrap_or_default();
    put(report::page(&name.to_string_lossy(), &list).as_bytes())
}

fn put(octets: &[u8]) -> Result<(), String> {
    let done = io::stdout().lock().write_all(octets);
    done.map_err(|error| error.to_string())
}

fn tell(compared: Result<usize, String>) -> Result<(), String> {
    put(format!("{} calls agreed\n", compared?).as_bytes())
}

/// Tries a build and says how that ended.
fn attempt(words: &[&str]) -> ExitCode {
    let plan = match Plan::read(words) {
        Ok(plan) => plan,
        Err(text) => {
            eprintln!("second try: {text}; `second help` has the words");
            return ExitCode::from(2);
        }
    };
    let (code, text) = match trial::run(&plan) {
        Ok(end @ End::Alike { .. }) => (0, told(&plan, &end)),
        Ok(end) => (1, told(&plan, &end)),
        Err(text) => {
            eprintln!("second try: {text}");
            return ExitCode::from(3);
        }
    };
    match put(text.as_bytes()) {
        Ok(()) => ExitCode::from(code),
        Err(_) => ExitCode::from(1),
    }
}

/// The last lines of a trial.
fn told(plan: &Plan, end: &End) -> String {
    match end {
        End::Alike { lists, calls, late } => {
            let end = if *late { ", and the time is up" } else { "" };
            format!("no difference: {calls} calls of {lists} lists answered alike{end}\n")
        }
        End::Differs { name, shrunk } => {
            let found = &shrunk.found;
            let (length, to) = (found::length(shrunk), &plan.to);
            format!(
                "difference: {} at the last call of {to}\n  from list {name}; {length}\n  \
                 against  {}\n  command  {}\n",
                found.kind.name(),
                compare::short(&found.expected),
                compare::short(&found.given)
            )
        }
    }
}

/// The comment at the head of this file.
fn usage() -> String {
    let head = include_str!("main.rs").lines();
    head.take_while(|line| line.starts_with("//!"))
        .map(|line| line.trim_start_matches("//!").to_string() + "\n")
        .collect()
}
