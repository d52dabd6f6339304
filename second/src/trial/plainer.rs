//! Plainer calls in place of those that stand in a list, so that more of it can be left out.

use super::numbering::Calls;
use crate::call::{parse, Call, Stamp};
use crate::lists::settings;
use crate::message::{self, Message, FOLLOW_UP, SYNC};
use crate::settings::Settings;
use crate::text::hex;

/// In the flags of a Sync: a Follow_Up is to come.
const TWO_STEP: i128 = 0x0200;

/// The list with a plainer call at a place, none where there is nothing plainer to try.
pub fn plainer(calls: &Calls, at: usize) -> Option<Calls> {
    match parse(calls.line(at))? {
        // A wipe by any cause may have taken many calls; the operator's takes one.
        call if call != Call::Reset && calls.wipes(at) => {
            Some(calls.with(at, String::from("reset")))
        }
        Call::Unit(given) => {
            let plain = Settings { minimum: 2, holdoff: 0, ..given.clone() };
            (plain != given).then(|| calls.with(at, settings::line(&plain)))
        }
        Call::Receive { now, stamp, octets } => {
            let sync = message::read(&octets).ok()?;
            let two_step = sync.kind() == SYNC && sync.get("flags") & TWO_STEP != 0;
            if !two_step {
                return None;
            }
            let (place, follow) = follow_up(calls, at, &sync)?;
            let line = receive(now, stamp, &one_step(&sync, &follow));
            Some(calls.with(at, line).without(place, 1))
        }
        _ => None,
    }
}

/// The first Follow_Up behind a place with a Sync's sequenceId.
fn follow_up(calls: &Calls, at: usize, sync: &Message) -> Option<(usize, Message)> {
    (at + 1..calls.len()).find_map(|place| match parse(calls.line(place))? {
        Call::Receive { octets, .. } => {
            let follow = message::read(&octets).ok()?;
            let same = follow.kind() == FOLLOW_UP && follow.get("sequence") == sync.get("sequence");
            same.then_some((place, follow))
        }
        _ => None,
    })
}

/// The Sync with what its Follow_Up says.
fn one_step(sync: &Message, follow: &Message) -> Message {
    sync.clone()
        .with("flags", sync.get("flags") - TWO_STEP)
        .with("seconds", follow.get("seconds"))
        .with("nanos", follow.get("nanos"))
        .with("correction", sync.get("correction") + follow.get("correction"))
}

fn receive(now: i128, stamp: Stamp, message: &Message) -> String {
    let Stamp { seconds, nanos } = stamp;
    format!("receive {now} {seconds} {nanos} {}", hex(&message.octets()))
}

#[cfg(test)]
mod tests {
    use super::*;
    use crate::answerer::answers;
    use crate::lists::desk::Desk;
    use crate::lists::hall::Hall;

    #[test]
    fn a_wipe_becomes_a_reset() {
        let mut hall = Hall::with_master(Desk::default(), settings::exchange());
        assert!(hall.measure(10_000, 200_000_000).ends_with("wiped"));
        let calls = Calls::of(&hall.close().text());
        let last = calls.len() - 1;
        let plain = plainer(&calls, last).unwrap();
        assert_eq!(plain.line(last), b"reset");
        assert!(plainer(&plain, last).is_none() && plainer(&calls, last - 1).is_none());
    }

    #[test]
    fn two_steps_become_one_and_settings_plain() {
        let mut hall = Hall::with_master(Desk::default(), settings::exchange());
        hall.measure(10_000, 250);
        let calls = Calls::of(&hall.close().text());
        // lend, unit, two Announces; then the Sync.
        let plain = plainer(&plainer(&calls, 4).unwrap(), 1).unwrap();
        assert_eq!(plain.len(), calls.len() - 1);
        assert!(plainer(&plain, 1).is_none() && plainer(&plain, 4).is_none());
        let given = String::from_utf8(answers(&plain.text())).unwrap();
        assert!(given.ends_with("measured delay=10000 used=10000 offset=250 output=250\n"));
    }
}
