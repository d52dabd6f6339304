//! A hall: a unit with a master, its now and its local clock, for lists that reach deep states.

use super::desk::Desk;
use super::settings;
use crate::message::{Message, ANNOUNCE, DELAY_RESP, FOLLOW_UP, SYNC};
use crate::settings::Settings;
use crate::text::hex;

pub const SECOND: i128 = 1_000_000_000;

/// The clock identity of the hall's master; its port is 1.
pub const MASTER: i128 = 0x0200_00ff_fe00_0001;

/// One exchange as it is meant to go: stamps in ns, corrections as the fields hold them.
#[derive(Clone, Copy, Debug)]
pub struct Trip {
    pub two_step: bool,
    /// The sequenceId of Sync and Follow_Up, and that of the request.
    pub sequence: i128,
    pub asked: i128,
    pub t1: i128,
    pub t2: i128,
    pub t3: i128,
    pub t4: i128,
    pub sync_correction: i128,
    pub follow_correction: i128,
    pub response_correction: i128,
}

impl Trip {
    /// Its legs in order.
    pub fn legs(&self) -> &'static [Leg] {
        if self.two_step {
            &TWO_STEP
        } else {
            &ONE_STEP
        }
    }
}

#[derive(Clone, Copy, Debug, PartialEq)]
pub enum Leg {
    Sync,
    FollowUp,
    Request,
    Sent,
    Response,
}

pub const TWO_STEP: [Leg; 5] = [Leg::Sync, Leg::FollowUp, Leg::Request, Leg::Sent, Leg::Response];
pub const ONE_STEP: [Leg; 4] = [Leg::Sync, Leg::Request, Leg::Sent, Leg::Response];

pub struct Hall {
    pub desk: Desk,
    pub settings: Settings,
    pub now: i128,
    /// The local clock in ns: the next t2.
    pub local: i128,
    /// The sequenceId that the next request will have.
    pub next: i128,
    /// Clock and port of the master that the exchange's messages come from.
    pub master: (i128, i128),
    announces: i128,
    syncs: i128,
    /// The octets of the last Announce.
    announced: Vec<u8>,
}

/// An Announce of a sender that is its own grandmaster.
pub fn announce(clock: i128, port: i128) -> Message {
    Message::blank(ANNOUNCE)
        .with("clock", clock)
        .with("port", port)
        .with("control", 5)
        .with("utc", 37)
        .with("p1", 128)
        .with("class", 248)
        .with("accuracy", 254)
        .with("variance", 65_535)
        .with("p2", 128)
        .with("grandmaster", clock)
        .with("source", 160)
}

fn at(message: Message, stamp: i128) -> Message {
    message.with("seconds", stamp / SECOND).with("nanos", stamp % SECOND)
}

impl Hall {
    /// A fresh unit with these settings.
    pub fn open(mut desk: Desk, settings: Settings) -> Hall {
        desk.say("lend 5");
        desk.say(settings::line(&settings));
        Hall {
            desk,
            settings,
            now: 1_000,
            local: 1_000_000 * SECOND,
            next: 0,
            master: (MASTER, 1),
            announces: 0,
            syncs: 100,
            announced: Vec::new(),
        }
    }

    /// A fresh unit that has chosen the hall's master.
    pub fn with_master(desk: Desk, settings: Settings) -> Hall {
        let mut hall = Hall::open(desk, settings);
        hall.announce(&announce(MASTER, 1));
        hall.announce(&announce(MASTER, 1));
        hall
    }

    pub fn close(self) -> Desk {
        self.desk
    }

    pub fn say(&mut self, line: &str) -> String {
        self.desk.say(line)
    }

    pub fn note(&mut self, what: &str) {
        self.desk.note(what);
    }

    pub fn show(&mut self) -> String {
        self.say("show")
    }

    pub fn time(&mut self) -> String {
        let now = self.now;
        self.say(&format!("time {now}"))
    }

    /// Hands octets over with a stamp in ns.
    pub fn receive(&mut self, stamp: i128, octets: &[u8]) -> String {
        let (now, seconds, nanos) = (self.now, stamp / SECOND, stamp % SECOND);
        self.say(&format!("receive {now} {seconds} {nanos} {}", hex(octets)))
    }

    /// An Announce of the hall's domain with the next sequenceId.
    pub fn announce(&mut self, message: &Message) -> String {
        self.announces = (self.announces + 1) % 65_536;
        let domain = self.settings.domain;
        let message = message.clone().with("domain", domain).with("sequence", self.announces);
        self.announced = message.octets();
        self.repeat()
    }

    /// The last Announce once more.
    pub fn repeat(&mut self) -> String {
        let octets = self.announced.clone();
        self.receive(0, &octets)
    }

    /// A two-step exchange with this forward and back, its stamps a second after the last one's.
    pub fn trip(&mut self, forward: i128, back: i128) -> Trip {
        self.local += SECOND;
        self.syncs = (self.syncs + 1) % 65_536;
        let t3 = self.local + 1_000_000;
        Trip {
            two_step: true,
            sequence: self.syncs,
            asked: self.next,
            t1: self.local - forward,
            t2: self.local,
            t3,
            t4: t3 + back,
            sync_correction: 0,
            follow_correction: 0,
            response_correction: 0,
        }
    }

    fn masters_message(&self, kind: i128, sequence: i128, correction: i128) -> Message {
        Message::blank(kind)
            .with("domain", self.settings.domain)
            .with("clock", self.master.0)
            .with("port", self.master.1)
            .with("sequence", sequence)
            .with("correction", correction)
    }

    /// The message of a leg; a request and its stamp have none.
    pub fn message(&self, leg: Leg, trip: &Trip) -> Message {
        match leg {
            Leg::Sync => {
                let sync = self.masters_message(SYNC, trip.sequence, trip.sync_correction);
                if trip.two_step {
                    sync.with("flags", 0x0200)
                } else {
                    at(sync, trip.t1)
                }
            }
            Leg::FollowUp => {
                let follow = self.masters_message(FOLLOW_UP, trip.sequence, trip.follow_correction);
                at(follow.with("control", 2), trip.t1)
            }
            Leg::Response => {
                let response =
                    self.masters_message(DELAY_RESP, trip.asked, trip.response_correction);
                at(response, trip.t4)
                    .with("control", 3)
                    .with("requesting clock", self.settings.clock)
                    .with("requesting port", self.settings.port)
            }
            Leg::Request | Leg::Sent => unreachable!("no message of the master"),
        }
    }

    /// Goes one leg of a trip.
    pub fn leg(&mut self, leg: Leg, trip: &Trip) -> String {
        let now = self.now;
        match leg {
            Leg::Request => self.request(58),
            Leg::Sent => {
                let (seconds, nanos) = (trip.t3 / SECOND, trip.t3 % SECOND);
                self.say(&format!("sent {now} {} {seconds} {nanos}", trip.asked))
            }
            other => {
                let octets = self.message(other, trip).octets();
                self.receive(trip.t2, &octets)
            }
        }
    }

    /// A request into a frame of this length.
    pub fn request(&mut self, length: usize) -> String {
        let now = self.now;
        let answer = self.say(&format!("request {now} {length}"));
        if let Some(rest) = answer.strip_prefix("asked sequence=") {
            let digits = rest.split(' ').next().unwrap_or_default();
            let sequence: i128 = digits.parse().expect("a sequenceId is a number");
            self.next = (sequence + 1) % 65_536;
        }
        answer
    }

    /// Goes these legs and gives the last answer.
    pub fn go(&mut self, legs: &[Leg], trip: &Trip) -> String {
        let answers = legs.iter().map(|leg| self.leg(*leg, trip));
        answers.last().unwrap_or_default()
    }

    /// A whole two-step exchange: the answer to its Delay_Resp.
    pub fn exchange(&mut self, forward: i128, back: i128) -> String {
        let trip = self.trip(forward, back);
        self.go(&TWO_STEP, &trip)
    }

    /// A whole exchange of this delay and, where the filter uses the delay, this offset.
    pub fn measure(&mut self, delay: i128, offset: i128) -> String {
        self.exchange(delay + offset, delay - offset)
    }

    /// A second pulse.
    pub fn tick(&mut self, reference: i128, clock: i128) -> String {
        self.say(&format!("tick {reference} {clock}"))
    }

    pub fn reset(&mut self) -> String {
        self.say("reset")
    }
}
