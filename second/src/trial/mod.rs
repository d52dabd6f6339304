//! Tries a build: generated lists are played to it and to the proved bench, and the first list that
//! is answered otherwise is shrunk and written down.

pub mod difference;
pub mod found;
pub mod numbering;
pub mod plainer;
pub mod plan;
pub mod player;
pub mod progress;
pub mod shrink;

use crate::compare::lines;
use crate::lists::random;
use crate::text::passed_over;
use difference::{judge, Difference};
use numbering::Calls;
use plan::Plan;
use player::{Ending, Player};
use progress::Progress;
use shrink::{shrink, Shrunk};
use std::time::{Duration, Instant};

/// How a trial ended.
#[derive(Debug)]
pub enum End {
    /// So many lists, of so many calls in all; `late` where the time was up before the last list.
    Alike { lists: u64, calls: usize, late: bool },
    /// What was found and where it was written.
    Differs { name: String, shrunk: Shrunk },
}

/// The two programs that are compared.
pub struct Pair {
    reference: Player,
    command: Player,
}

impl Pair {
    /// The first difference between the two on this list, none where there is none.
    pub fn compare(&self, list: &[u8]) -> Result<Option<Difference>, String> {
        let expected = self.expected(list)?;
        let mut given = Vec::new();
        let ending = self.command.play(list, |answer| {
            let alike = expected.get(given.len()).is_some_and(|wanted| wanted == answer);
            given.push(answer.to_vec());
            alike
        });
        let ending = ending.map_err(|error| format!("{}: {error}", self.command.name()))?;
        Ok(judge(&expected, &given, &ending))
    }

    /// The reference's answers: one for each call, or there is nothing to compare with.
    fn expected(&self, list: &[u8]) -> Result<Vec<Vec<u8>>, String> {
        let calls = calls(list).len();
        let mut answers = Vec::new();
        let ending = self.reference.play(list, |answer| {
            answers.push(answer.to_vec());
            answers.len() <= calls
        });
        let name = self.reference.name();
        match ending.map_err(|error| format!("{name}: {error}"))? {
            Ending::Ended(status) if status.success() && answers.len() == calls => Ok(answers),
            Ending::Silent => Err(format!("{name}, compared against, fell silent")),
            other => {
                let told = format!("gave {} answers to {calls} calls", answers.len());
                Err(format!("{name}, compared against, {told} ({other})"))
            }
        }
    }
}

/// The lines of a list that are calls.
pub fn calls(list: &[u8]) -> Vec<&[u8]> {
    lines(list).filter(|line| !passed_over(line)).collect()
}

/// Plays the plan's lists until one differs, all are played or the time is up.
pub fn run(plan: &Plan) -> Result<End, String> {
    let silence = Duration::from_secs(plan.silence);
    let pair = Pair {
        reference: Player::new(&plan.against, silence),
        command: Player::new(&plan.command, silence),
    };
    pair.reference.make_ready()?;
    let mut progress = Progress::default();
    let (begun, mut agreed) = (Instant::now(), 0);
    for number in 0..plan.lists {
        if begun.elapsed().as_secs() >= plan.seconds {
            return Ok(End::Alike { lists: number, calls: agreed, late: true });
        }
        let (name, list) = one_list(plan, number)?;
        if let Some(found) = pair.compare(&list)? {
            return differs(plan, &pair, &mut progress, name, &list, found);
        }
        agreed += calls(&list).len();
        progress.tell(&format!("{} of {} lists, {agreed} calls alike", number + 1, plan.lists));
    }
    Ok(End::Alike { lists: plan.lists, calls: agreed, late: false })
}

/// A list of the plan with its name: the one named, or a random one by its seed.
fn one_list(plan: &Plan, number: u64) -> Result<(String, Vec<u8>), String> {
    if let Some(path) = &plan.list {
        let list = std::fs::read(path).map_err(|error| format!("{path}: {error}"))?;
        return Ok((path.clone(), list));
    }
    let seed = plan.seed.wrapping_add(number);
    Ok((format!("random {seed} {}", plan.calls), random::list(seed, plan.calls)))
}

/// Shrinks a list that differs and writes it.
fn differs(
    plan: &Plan,
    pair: &Pair,
    progress: &mut Progress,
    name: String,
    list: &[u8],
    found: Difference,
) -> Result<End, String> {
    progress.say(&format!("list {name}: call {} is answered otherwise; shrinking", found.call));
    let limit = Instant::now() + Duration::from_secs(plan.seconds);
    let shrunk = shrink(Calls::of(list), found, limit, |candidate, played, left| {
        progress.tell(&format!("{left} calls left, {played} lists played"));
        pair.compare(candidate)
    })?;
    let text = found::text(plan, &name, &shrunk, &pair.expected(&shrunk.list)?);
    std::fs::write(&plan.to, text).map_err(|error| format!("{}: {error}", plan.to))?;
    Ok(End::Differs { name, shrunk })
}
