//! The master table: every Announce of each place, liveness, comparison and choice.

use crate::message::{Identity, Message};
use crate::refusal::{refuse, Refusal};

/// One accepted Announce and the now it came with.
#[derive(Clone, Debug, PartialEq)]
struct Arrival {
    at: i128,
    announce: Message,
}

/// A place of the table: all arrivals of the sender that took it, oldest first.
#[derive(Clone, Debug, Default, PartialEq)]
struct Place(Vec<Arrival>);

impl Place {
    fn newest(&self) -> Option<&Message> {
        self.0.last().map(|arrival| &arrival.announce)
    }

    /// How long ago the newest arrival (0) or the one before it (1) was.
    fn ago(&self, back: usize, now: i128) -> Option<i128> {
        let arrival = self.0.iter().rev().nth(back)?;
        Some(now - arrival.at)
    }

    /// Live: the newer arrival is not older than 4 intervals (rule 5.4).
    fn live(&self, now: i128, interval: i128) -> bool {
        self.ago(0, now).is_some_and(|ago| ago <= 4 * interval)
    }

    /// Qualified: two arrivals that are recent enough (rule 5.8).
    fn qualified(&self, now: i128, interval: i128) -> bool {
        let newer = self.ago(0, now).is_some_and(|ago| ago <= 3 * interval);
        let older = self.ago(1, now).is_some_and(|ago| ago <= 4 * interval);
        newer && older
    }

    /// Taken by this sender and live; one that is not live is as good as none (rule 5.5).
    fn stands_for(&self, sender: Identity, now: i128, interval: i128) -> bool {
        let same = self.newest().is_some_and(|last| last.sender() == sender);
        same && self.live(now, interval)
    }
}

#[derive(Clone, Debug, PartialEq)]
pub struct Table {
    places: Vec<Place>,
    interval: i128,
}

impl Table {
    pub fn empty(interval: i128) -> Table {
        Table { places: vec![Place::default(); 5], interval }
    }

    /// Takes an Announce in, or refuses it with 14 or 15 and changes nothing.
    pub fn admit(&mut self, announce: Message, now: i128) -> Result<(), Refusal> {
        let (sender, interval) = (announce.sender(), self.interval);
        let mut places = self.places.iter_mut();
        let known = places.find(|place| place.stands_for(sender, now, interval));
        if let Some(place) = known {
            let last = place.newest().map(|last| last.get("sequence"));
            refuse(last == Some(announce.get("sequence")), Refusal::Repeat)?;
            place.0.push(Arrival { at: now, announce });
            return Ok(());
        }
        let mut places = self.places.iter_mut();
        let free = places.find(|place| !place.live(now, interval));
        let place = free.ok_or(Refusal::Full)?;
        place.0 = vec![Arrival { at: now, announce }];
        Ok(())
    }

    /// The choice among the qualified, place by place (rule 5.11).
    pub fn choose(&self, now: i128) -> Option<Identity> {
        let chosen = self
            .places
            .iter()
            .filter(|place| place.qualified(now, self.interval))
            .filter_map(Place::newest)
            .reduce(|held, next| if better(next, held) { next } else { held });
        chosen.map(Message::sender)
    }
}

/// Whether one Announce is better than another: the smaller list wins, field by field.
fn better(one: &Message, other: &Message) -> bool {
    if one.get("grandmaster") == other.get("grandmaster") {
        let key = |announce: &Message| (announce.get("steps"), announce.sender());
        return key(one) < key(other);
    }
    let names = ["p1", "class", "accuracy", "variance", "p2", "grandmaster"];
    let key = |announce: &Message| names.map(|name| announce.get(name));
    key(one) < key(other)
}

#[cfg(test)]
mod tests {
    use super::*;
    use crate::message::ANNOUNCE;

    fn announce(clock: i128, grandmaster: i128, p1: i128, steps: i128) -> Message {
        Message::blank(ANNOUNCE)
            .with("clock", clock)
            .with("grandmaster", grandmaster)
            .with("p1", p1)
            .with("steps", steps)
    }

    fn choice_of(order: [&Message; 3]) -> i128 {
        let mut table = Table::empty(1_000);
        for sequence in 0..2 {
            for message in order {
                let again = message.clone().with("sequence", sequence);
                table.admit(again, sequence).unwrap();
            }
        }
        table.choose(1).unwrap().clock()
    }

    /// The circle of rule 5.15.
    #[test]
    fn the_choice_is_no_maximum() {
        let (x, y) = (50, 60);
        let a = announce(1, x, 10, 3);
        let b = announce(2, x, 200, 1);
        let c = announce(3, y, 100, 0);
        assert_eq!(choice_of([&a, &b, &c]), 3);
        assert_eq!(choice_of([&a, &c, &b]), 2);
    }

    #[test]
    fn each_key_decides_before_those_behind_it() {
        let names = ["p1", "class", "accuracy", "variance", "p2", "grandmaster"];
        for (place, name) in names.iter().enumerate() {
            let mut good = announce(9, 70, 5, 9);
            let mut bad = announce(1, 80, 5, 1);
            good = good.with(name, 20);
            bad = bad.with(name, 21);
            for behind in &names[place + 1..] {
                good = good.with(behind, 200);
                bad = bad.with(behind, 100);
            }
            assert!(better(&good, &bad), "{name}");
            assert!(!better(&bad, &good), "{name}");
        }
    }

    #[test]
    fn one_grandmaster_is_compared_by_steps_and_then_by_sender() {
        assert!(better(&announce(9, 7, 200, 1), &announce(1, 7, 10, 2)));
        assert!(better(&announce(1, 7, 200, 1), &announce(2, 7, 10, 1)));
        assert!(!better(&announce(1, 7, 0, 1), &announce(1, 7, 0, 1)));
    }
}
