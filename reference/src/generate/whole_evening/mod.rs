//! Whole evenings from a seed: thousands of packets of one sender, and one receiver that gets them
//! early, late, again or never, with strange strings and control between.
//!
//! Any packet that was sent may be handed over at any time. [`keeps_up`] alone decides whether that
//! is a delivery; a packet that doesn't keep up is one more strange string.
//!
//! [`keeps_up`]: crate::evening::keeps_up

mod receiving;
mod scenes;
mod sending;
mod strange;

use super::recorder::Recorder;
use super::set_ups;
use crate::evening::{Evening, Role};
use crate::random::Random;
use crate::session::Session;
use crate::settings::{Integrity, SetUp, Settings};
use crate::trace::{sender_body, Answer, Call, MAX_ROOM};
use std::collections::{BTreeMap, BTreeSet};

/// What a step of an evening does.
#[derive(Clone, Copy)]
enum Act {
    Send,
    SendInVain,
    SendControl,
    ReceiveControl,
    Repeat,
    ComeLate,
    Strange,
    Jump,
    HoldBack,
    ReachAhead,
    RollOver,
    GoUnheard,
}

/// An evening under way.
struct Maker {
    random: Random,
    recorder: Recorder,
    roles: Vec<Role>,
    /// The set-up of both sides.
    values: SetUp,
    settings: Settings,
    /// What others make packets with.
    strangers: Vec<Session>,
    /// How many packets are under way before one arrives.
    backlog: usize,
    /// How often there is a scene that breaks the steady stream.
    unrest: u64,
    first_number: u16,
    started_count: u32,
    /// The packets sent, by index.
    sent: BTreeMap<u64, Sent>,
    /// Indices sent and not yet handed over.
    under_way: Vec<u64>,
    /// Indices delivered.
    delivered: BTreeSet<u64>,
    /// Control packets sent.
    control: Vec<Vec<u8>>,
}

/// A packet that was sent.
struct Sent {
    /// The record's place.
    place: usize,
    packet: Vec<u8>,
}

/// An evening of 2,000 to 4,000 media packets, the same for the same seed.
pub fn whole_evening(seed: u64) -> Evening {
    let mut random = Random::new(seed);
    loop {
        if let Some(maker) = Maker::open(&mut random) {
            return maker.play();
        }
    }
}

impl Maker {
    /// A link with nothing sent; None if its values were refused.
    fn open(random: &mut Random) -> Option<Maker> {
        let values = values(random);
        let mut maker = Maker {
            recorder: Recorder::default(),
            roles: Vec::new(),
            settings: Session::set_up(&values)?.settings,
            strangers: strange::strangers(random, &values),
            backlog: random.pick([0, 2, 8, 60, 300]),
            unrest: random.pick([2, 10, 40]),
            first_number: set_ups::first_number(random, values.integrity),
            values,
            started_count: 0,
            sent: BTreeMap::new(),
            under_way: Vec::new(),
            delivered: BTreeSet::new(),
            control: Vec::new(),
            random: random.clone(),
        };
        let body = sender_body(&maker.values);
        maker.record(Role::Other, Call::SetUpSender.op(), &body);
        Some(maker)
    }

    fn play(mut self) -> Evening {
        // A scene sends some hundred packets at most.
        let wanted = self.random.length(2000..=3500);
        self.join();
        while self.sent.len() < wanted {
            let act = self.choose_act();
            self.act(act);
        }
        self.catch_up();
        Evening { trace: self.recorder.into_trace(), roles: self.roles }
    }

    fn choose_act(&mut self) -> Act {
        let unrest = self.unrest;
        let reads = u64::from(self.values.integrity != Integrity::HmacSha1);
        self.random.weighted([
            (6000, Act::Send),
            (80, Act::SendInVain),
            (350, Act::SendControl),
            (400, Act::ReceiveControl),
            (500, Act::Repeat),
            (600, Act::ComeLate),
            (1100, Act::Strange),
            (unrest, Act::Jump),
            (2 * unrest, Act::HoldBack),
            (unrest, Act::ReachAhead),
            (unrest, Act::RollOver),
            (2 * unrest * reads, Act::GoUnheard),
        ])
    }

    fn act(&mut self, act: Act) {
        match act {
            Act::Send => self.send_on(),
            Act::SendInVain => self.send_in_vain(),
            Act::SendControl => self.send_control(),
            Act::ReceiveControl => self.receive_control(),
            Act::Repeat => self.repeat(),
            Act::ComeLate => self.come_late(),
            Act::Strange => self.receive_strange(),
            Act::Jump => self.jump(),
            Act::HoldBack => self.hold_back(),
            Act::ReachAhead => self.reach_ahead(),
            Act::RollOver => self.roll_over(),
            Act::GoUnheard => self.go_unheard(),
        }
    }

    fn record(&mut self, role: Role, op: u8, body: &[u8]) {
        self.roles.push(role);
        self.recorder.record(op, body);
    }

    fn call(&mut self, role: Role, call: Call, room: usize, packet: &[u8]) -> Answer {
        self.roles.push(role);
        self.recorder.call(call, room, packet)
    }

    /// An outgoing buffer's size for a result of this length: just enough or more. No record can
    /// ask for more than the largest.
    fn room(&mut self, needed: usize) -> usize {
        let more = needed + self.random.length(1..=40);
        self.random.weighted([(50, needed), (49, more), (1, MAX_ROOM)]).min(MAX_ROOM)
    }
}

/// A set-up on the list, two of five under RCCm2. At a rate of 1,000 most packets are estimated and
/// one that carries its count is seldom far.
fn values(random: &mut Random) -> SetUp {
    let any = random.within(1..=65_535) as u16;
    let rate = random.weighted([(3, 1), (3, 2), (3, 3), (3, 16), (3, 1000), (2, 65_535), (3, any)]);
    let integrity = random.weighted([(6, Integrity::HmacSha1), (4, Integrity::Rccm2 { rate })]);
    set_ups::under(random, integrity)
}
