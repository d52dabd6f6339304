//! What counts as a difference between a command's answers and those expected, and its name.

use super::player::Ending;

/// The first difference.
#[derive(Clone, Debug, PartialEq)]
pub struct Difference {
    /// Which call, counted from 1; one past the last where all calls have their answers.
    pub call: usize,
    pub kind: Kind,
    pub expected: String,
    pub given: String,
}

#[derive(Clone, Copy, Debug, PartialEq)]
pub enum Kind {
    Other,
    Bad,
    Few,
    Many,
    Silent,
    Died,
}

impl Kind {
    pub fn name(self) -> &'static str {
        match self {
            Kind::Other => "another answer",
            Kind::Bad => "bad answer: no answer of docs/BENCH.md",
            Kind::Few => "too few answers",
            Kind::Many => "too many answers",
            Kind::Silent => "silence",
            Kind::Died => "died",
        }
    }
}

/// The first word of every answer.
const FIRST: [&str; 24] = [
    "bad", "no", "refused", "ok", "message", "wrote", "chosen", "held", "paired", "measured",
    "neg", "long", "huge", "path", "step", "asked", "stamped", "wiped", "taken", "back", "range",
    "jump", "line", "port",
];

/// Whether a line could be an answer at all.
fn is_answer(line: &[u8]) -> bool {
    let printable = line.iter().all(|octet| (0x20..=0x7e).contains(octet));
    let first = line.split(|octet| b" =".contains(octet)).next().unwrap_or_default();
    printable && FIRST.iter().any(|word| word.as_bytes() == first)
}

/// The first difference between answers expected and answers given up to the ending.
pub fn judge(expected: &[Vec<u8>], given: &[Vec<u8>], ending: &Ending) -> Option<Difference> {
    let alike = expected.iter().zip(given).take_while(|(one, other)| one == other).count();
    let text = |answers: &[Vec<u8>], none: &str| match answers.get(alike) {
        Some(line) => String::from_utf8_lossy(line).into_owned(),
        None => String::from(none),
    };
    let kind = match given.get(alike) {
        Some(line) if !is_answer(line) => Kind::Bad,
        Some(_) if alike == expected.len() => Kind::Many,
        Some(_) => Kind::Other,
        None => unanswered(alike == expected.len(), ending)?,
    };
    Some(Difference {
        call: alike + 1,
        kind,
        expected: text(expected, "(the end of the list)"),
        given: text(given, &format!("(no answer: {ending})")),
    })
}

/// What it is that no further answer came; nothing where all came and the command ended well.
fn unanswered(all: bool, ending: &Ending) -> Option<Kind> {
    match ending {
        Ending::Ended(status) if !status.success() => Some(Kind::Died),
        Ending::Ended(_) if all => None,
        Ending::Ended(_) | Ending::Stopped => Some(Kind::Few),
        Ending::Silent => Some(Kind::Silent),
    }
}

#[cfg(test)]
mod tests {
    use super::*;
    use std::os::unix::process::ExitStatusExt;
    use std::process::ExitStatus;

    fn kind(given: &[&str], ending: Ending) -> Option<(usize, Kind)> {
        let octets = |lines: &[&str]| lines.iter().map(|line| line.as_bytes().to_vec()).collect();
        let (expected, given): (Vec<Vec<u8>>, Vec<Vec<u8>>) =
            (octets(&["ok", "held"]), octets(given));
        judge(&expected, &given, &ending).map(|found| (found.call, found.kind))
    }

    fn ended(status: i32) -> Ending {
        Ending::Ended(ExitStatus::from_raw(status))
    }

    #[test]
    fn every_difference_has_its_name() {
        assert_eq!(kind(&["ok", "held"], ended(0)), None);
        assert_eq!(kind(&["ok", "paired"], Ending::Stopped), Some((2, Kind::Other)));
        assert_eq!(kind(&["okay"], Ending::Stopped), Some((1, Kind::Bad)));
        assert_eq!(kind(&["ok", "held\r"], Ending::Stopped), Some((2, Kind::Bad)));
        assert_eq!(kind(&["ok"], ended(0)), Some((2, Kind::Few)));
        assert_eq!(kind(&["ok", "held", "ok"], Ending::Stopped), Some((3, Kind::Many)));
        assert_eq!(kind(&["ok"], Ending::Silent), Some((2, Kind::Silent)));
        assert_eq!(kind(&["ok", "held"], Ending::Silent), Some((3, Kind::Silent)));
        assert_eq!(kind(&["ok"], ended(9)), Some((2, Kind::Died)));
        assert_eq!(kind(&["ok", "held"], ended(256)), Some((3, Kind::Died)));
    }

    #[test]
    fn a_difference_tells_both_answers() {
        let found = judge(&[b"held".to_vec()], &[], &ended(256)).unwrap();
        assert_eq!(found.expected, "held");
        assert_eq!(found.given, "(no answer: exit status: 1)");
    }

    #[test]
    fn every_answer_of_the_lists_could_be_one() {
        let answers = crate::answerer::answers(&crate::lists::named("card").unwrap());
        assert!(crate::compare::lines(&answers).all(is_answer));
        for line in ["", "Held", "held\r", "slope=3", "portly"] {
            assert!(!is_answer(line.as_bytes()), "{line}");
        }
    }
}
