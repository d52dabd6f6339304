//! Makes a list that differs short: calls are left out, and some made plainer so that more can go.

use super::difference::Difference;
use super::numbering::Calls;
use super::plainer::plainer;
use std::collections::HashSet;
use std::time::Instant;

/// A list that differs at its last call.
#[derive(Clone, Debug)]
pub struct Shrunk {
    pub list: Vec<u8>,
    pub calls: usize,
    pub found: Difference,
    /// How many lists were played for it.
    pub played: usize,
    /// Whether each call was tried alone at the end: none of them can be left out.
    pub least: bool,
}

/// Up to so many calls are left out at every place; more only at places that far apart.
const NEAR: usize = 12;

struct Shrinker<F> {
    calls: Calls,
    found: Difference,
    tried: HashSet<Vec<u8>>,
    limit: Instant,
    differs: F,
}

/// Leaves out what can be left out, halves first and then fewer and fewer calls, until no call or
/// run of calls can go or the time is up. `differs` plays a list, and is told how many it has
/// played and how many calls are left.
pub fn shrink(
    calls: Calls,
    found: Difference,
    limit: Instant,
    differs: impl FnMut(&[u8], usize, usize) -> Result<Option<Difference>, String>,
) -> Result<Shrunk, String> {
    let calls = calls.first(found.call);
    let mut shrinker = Shrinker { calls, found, tried: HashSet::new(), limit, differs };
    let mut size = shrinker.calls.len().div_ceil(2);
    while size > NEAR && !shrinker.late() {
        shrinker.pass(size, size)?;
        size = size.div_ceil(2).min(size - 1);
    }
    while shrinker.round()? {}
    Ok(Shrunk {
        list: shrinker.calls.text(),
        calls: shrinker.calls.len(),
        played: shrinker.tried.len(),
        least: !shrinker.late(),
        found: shrinker.found,
    })
}

impl<F: FnMut(&[u8], usize, usize) -> Result<Option<Difference>, String>> Shrinker<F> {
    fn late(&self) -> bool {
        Instant::now() >= self.limit
    }

    /// Makes each call plainer where the list still differs then; whether any became so.
    fn make_plainer(&mut self) -> Result<bool, String> {
        let (mut at, mut any) = (0, false);
        while at < self.calls.len() && !self.late() {
            if let Some(plain) = plainer(&self.calls, at) {
                any |= self.take(plain)?;
            }
            at += 1;
        }
        Ok(any)
    }

    /// Plainer calls, then every small size left out at every place; whether anything changed.
    fn round(&mut self) -> Result<bool, String> {
        let before = self.calls.len();
        let plainer = self.make_plainer()?;
        for size in (1..=NEAR).rev() {
            self.pass(size, 1)?;
        }
        Ok((plainer || self.calls.len() < before) && !self.late())
    }

    /// Tries to leave out `size` calls at every place that is so many calls further.
    fn pass(&mut self, size: usize, further: usize) -> Result<(), String> {
        let mut at = 0;
        while at < self.calls.len() && !self.late() {
            if !self.leave_out(at, size)? {
                at += further;
            }
        }
        Ok(())
    }

    /// Leaves calls out where what remains still differs.
    fn leave_out(&mut self, at: usize, size: usize) -> Result<bool, String> {
        self.take(self.calls.without(at, size))
    }

    /// Takes another list where it still differs, up to its difference.
    fn take(&mut self, calls: Calls) -> Result<bool, String> {
        let text = calls.text();
        if calls.is_empty() || !self.tried.insert(text.clone()) {
            return Ok(false);
        }
        let (played, left) = (self.tried.len(), self.calls.len());
        let found = (self.differs)(&text, played, left)?;
        if let Some(found) = found {
            self.calls = calls.first(found.call);
            self.found = found;
            return Ok(true);
        }
        Ok(false)
    }
}
