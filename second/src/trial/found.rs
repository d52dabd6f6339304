//! The file that a list which differs is written to: a list of calls that can be played again, the
//! answers beside it as comments.

use super::calls;
use super::plan::Plan;
use super::shrink::Shrunk;

/// Calls with the answers that both give, and both answers where they differ.
pub fn text(plan: &Plan, name: &str, shrunk: &Shrunk, expected: &[Vec<u8>]) -> Vec<u8> {
    let found = &shrunk.found;
    let head = format!(
        "# A list of calls that two programs answer otherwise: {}.\n\
         # From list {name}; {}.\n# against: {}\n# command: {}\n",
        found.kind.name(),
        length(shrunk),
        plan.against.join(" "),
        plan.command.join(" "),
    );
    let both = format!("# against: {}\n# command: {}\n", found.expected, found.given);
    let mut text = head.into_bytes();
    for (place, call) in calls(&shrunk.list).into_iter().enumerate() {
        text.extend([b"\n", call, b"\n"].concat());
        match expected.get(place) {
            Some(answer) if place + 1 < found.call => {
                text.extend([b"# ", &answer[..], b"\n"].concat())
            }
            _ => text.extend(both.bytes()),
        }
    }
    if found.call > shrunk.calls {
        text.extend(both.bytes());
    }
    text
}

/// How short the list is, and whether it could be shorter.
pub fn length(shrunk: &Shrunk) -> String {
    let least = if shrunk.least { "none of them can be left out" } else { "the time was up" };
    format!("{} calls, {least}", shrunk.calls)
}
