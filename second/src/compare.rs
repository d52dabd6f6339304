//! Runs lists through the built bench and through this program and finds the first difference.

use crate::answerer::Answerer;
use crate::lists::{self, random};
use std::io::{self, Read, Write};
use std::process::{Command, Stdio};

/// The first line of a list that is not answered alike.
#[derive(Debug, PartialEq)]
pub struct Difference {
    /// Counted from 1, lines that are passed over too; one past the last for answers too many.
    pub line: usize,
    pub call: String,
    pub bench: String,
    pub second: String,
}

/// Runs LISTS random lists and says how many calls agreed, or where the first one did not.
pub fn random_lists(program: &str, seed: u64, count: u64, calls: usize) -> Result<usize, String> {
    let mut agreed = 0;
    for number in 0..count {
        let seed = seed.wrapping_add(number);
        let list = random::list(seed, calls);
        agreed +=
            one(program, &list).map_err(|text| format!("list random {seed} {calls}: {text}"))?;
    }
    Ok(agreed)
}

/// Runs a list by its name.
pub fn named_list(program: &str, name: &str) -> Result<usize, String> {
    let list = lists::named(name).ok_or(format!("no list {name}"))?;
    one(program, &list).map_err(|text| format!("list {name}: {text}"))
}

fn one(program: &str, list: &[u8]) -> Result<usize, String> {
    let answers = run(program, list).map_err(|error| format!("{program}: {error}"))?;
    match difference(list, &answers) {
        Ok(agreed) => Ok(agreed),
        Err(found) => Err(report(&found)),
    }
}

/// The bench's whole output for a list. Its input is written by a thread of its own, so that
/// neither side waits for the other.
fn run(program: &str, list: &[u8]) -> io::Result<Vec<u8>> {
    let mut child = Command::new(program).stdin(Stdio::piped()).stdout(Stdio::piped()).spawn()?;
    let mut input = child.stdin.take().expect("its input is piped");
    let mut output = child.stdout.take().expect("its output is piped");
    let mut answers = Vec::new();
    std::thread::scope(|scope| {
        // Where the bench ends early, its answers tell.
        scope.spawn(move || drop(input.write_all(list)));
        output.read_to_end(&mut answers)
    })?;
    let status = child.wait()?;
    if status.success() {
        Ok(answers)
    } else {
        Err(io::Error::other(format!("ended with {status}")))
    }
}

/// How many calls agree, or the first that doesn't.
pub fn difference(list: &[u8], answers: &[u8]) -> Result<usize, Difference> {
    let mut answerer = Answerer::default();
    let mut theirs = lines(answers);
    let (mut agreed, mut last) = (0, 0);
    for (place, call) in lines(list).enumerate() {
        last = place + 1;
        let Some(ours) = answerer.line(call) else {
            continue;
        };
        let (ours, bench) = (ours.to_string(), theirs.next());
        if bench != Some(ours.as_bytes()) {
            return Err(Difference {
                line: place + 1,
                call: text(Some(call)),
                bench: text(bench),
                second: ours,
            });
        }
        agreed += 1;
    }
    match theirs.next() {
        None => Ok(agreed),
        extra => Err(Difference {
            line: last + 1,
            call: String::from("(end of the list)"),
            bench: text(extra),
            second: text(None),
        }),
    }
}

/// Lines without their newlines; what stands after the last newline is a line where it is not
/// empty.
pub fn lines(text: &[u8]) -> impl Iterator<Item = &[u8]> {
    text.split_inclusive(|octet| *octet == b'\n')
        .map(|line| line.strip_suffix(b"\n").unwrap_or(line))
}

fn text(line: Option<&[u8]>) -> String {
    match line {
        Some(line) => String::from_utf8_lossy(line).into_owned(),
        None => String::from("(no answer)"),
    }
}

/// A difference as it is told: where, the call, both answers, each cut to a readable length.
fn report(found: &Difference) -> String {
    let Difference { line, call, bench, second } = found;
    let (call, bench, second) = (short(call), short(bench), short(second));
    format!("first difference at line {line}\n  call   {call}\n  bench  {bench}\n  second {second}")
}

/// A text cut to a readable length.
pub fn short(text: &str) -> String {
    let length = text.chars().count();
    if length <= 600 {
        return text.to_string();
    }
    let start: String = text.chars().take(600).collect();
    format!("{start}... ({length} characters)")
}

#[cfg(test)]
mod tests {
    use super::*;

    const LIST: &[u8] = b"# two calls\nshow\n\nlend 5\n";

    #[test]
    fn equal_answers_are_counted() {
        assert_eq!(difference(LIST, b"no unit\nok\n"), Ok(2));
    }

    #[test]
    fn the_first_difference_is_told_by_its_line() {
        let found = difference(LIST, b"no unit\nno\n").unwrap_err();
        assert_eq!((found.line, found.call.as_str()), (4, "lend 5"));
        assert_eq!((found.bench.as_str(), found.second.as_str()), ("no", "ok"));
    }

    #[test]
    fn answers_too_few_and_too_many_are_differences() {
        assert_eq!(difference(LIST, b"no unit\n").unwrap_err().bench, "(no answer)");
        assert_eq!(difference(LIST, b"no unit\nok\nok\n").unwrap_err().line, 5);
        assert_eq!(difference(LIST, b"").unwrap_err().line, 2);
    }
}
