//! The desk that lists are written at: each line is answered as it is written.

use crate::answerer::Answerer;

/// A list in the making. Its lines go through an answerer, so that what follows can depend on the
/// answers, as it does for a real caller.
#[derive(Clone, Debug, Default)]
pub struct Desk {
    text: Vec<u8>,
    /// Where each line begins in the text.
    starts: Vec<usize>,
    calls: usize,
    answerer: Answerer,
    /// The text of the last answer.
    last: String,
}

impl Desk {
    /// Writes a line and gives its answer's text, nothing where the line is passed over.
    pub fn say(&mut self, line: impl AsRef<[u8]>) -> String {
        let line = line.as_ref();
        assert!(!line.contains(&b'\n'), "one line at a time");
        self.starts.push(self.text.len());
        self.text.extend(line);
        self.text.push(b'\n');
        let Some(answer) = self.answerer.line(line) else {
            return String::new();
        };
        self.calls += 1;
        self.last = answer.to_string();
        self.last.clone()
    }

    /// The last answer's text.
    pub fn last(&self) -> &str {
        &self.last
    }

    /// Writes several lines.
    pub fn say_all<T: AsRef<[u8]>>(&mut self, lines: impl IntoIterator<Item = T>) {
        for line in lines {
            self.say(line);
        }
    }

    /// A line that is passed over and says what follows.
    pub fn note(&mut self, what: &str) {
        self.say(format!("# {what}"));
    }

    /// The line this many lines ago, 0 being the last one; none where there are not so many.
    pub fn earlier(&self, back: usize) -> Option<Vec<u8>> {
        let start = *self.starts.iter().rev().nth(back)?;
        let line = self.text[start..].split(|octet| *octet == b'\n').next()?;
        Some(line.to_vec())
    }

    /// How many lines have an answer.
    pub fn calls(&self) -> usize {
        self.calls
    }

    pub fn text(self) -> Vec<u8> {
        self.text
    }
}
