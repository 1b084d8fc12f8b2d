//! A scene: one link, set up and used.

mod jumping;
mod receiving;
mod sending;
mod traffic;

use super::recorder::Recorder;
use super::{misfit, set_ups};
use crate::random::Random;
use crate::session::Session;
use crate::settings::{Integrity, SetUp, Start};
use crate::trace::{receiver_body, sender_body, Call, MAX_ROOM};
use traffic::Traffic;

/// What a step of a scene does.
#[derive(Clone, Copy)]
enum Act {
    SendMedia,
    SendControl,
    DeliverMedia,
    DeliverControl,
    MakeMedia,
    MakeControl,
    RepeatMedia,
    RepeatControl,
    JumpMedia,
    JumpControl,
    Burst,
    GoUnheard,
    CatchUp,
    ComeLate,
    Strange,
    Misfit,
    RefusedSetUp,
    SetUpAgain,
}

/// A link under way.
pub struct Scene<'a> {
    random: &'a mut Random,
    recorder: &'a mut Recorder,
    /// The receiver's set-up.
    values: SetUp,
    /// The sender's: the same, or the stranger's.
    sender_values: SetUp,
    /// What a sender under the receiver's set-up makes packets with.
    session: Session,
    /// The same for a set-up that differs in one value.
    stranger: Session,
    /// Whether sender and receiver have the same set-up.
    is_matched: bool,
    first_number: u16,
    /// Whether the receiver follows the trace's own sender; else it gets packets made for it.
    follows_sender: bool,
    traffic: Traffic,
}

impl<'a> Scene<'a> {
    /// Sets up a sender and a receiver.
    pub fn open(random: &'a mut Random, recorder: &'a mut Recorder) -> Option<Scene<'a>> {
        let values = set_ups::good(random);
        let session = Session::set_up(&values)?;
        let other_values = set_ups::neighbour(random, &values);
        let stranger = Session::set_up(&other_values)?;
        let first_number = set_ups::first_number(random, values.integrity);
        let follows_sender = random.percent(35);
        let is_matched = follows_sender || random.percent(70);
        let sender_values = if is_matched { values.clone() } else { other_values };
        let mut scene = Scene {
            random,
            recorder,
            values,
            sender_values,
            session,
            stranger,
            is_matched,
            first_number,
            follows_sender,
            traffic: Traffic::default(),
        };
        scene.set_up_sender();
        scene.set_up_receiver();
        Some(scene)
    }

    /// Some hundred calls, more or less.
    pub fn play(&mut self) {
        for _ in 0..self.random.length(30..=200) {
            let act = self.choose_act();
            self.act(act);
        }
    }

    fn choose_act(&mut self) -> Act {
        let (own, made) = if self.follows_sender { (4, 0) } else { (1, 4) };
        // Only a receiver that reads the rollover count gets in step again, or joins late.
        let reads = u64::from(self.values.integrity != Integrity::HmacSha1);
        self.random.weighted([
            (80 + 40 * own, Act::SendMedia),
            (50, Act::SendControl),
            (60 * own, Act::DeliverMedia),
            (20 * own, Act::DeliverControl),
            (10 + 100 * made, Act::MakeMedia),
            (10 + 60 * made, Act::MakeControl),
            (50, Act::RepeatMedia),
            (40, Act::RepeatControl),
            (30, Act::JumpMedia),
            (30, Act::JumpControl),
            (own, Act::Burst),
            (5 * own * reads, Act::GoUnheard),
            (6 * made * reads, Act::CatchUp),
            (14 * made * reads, Act::ComeLate),
            (30, Act::Strange),
            (35, Act::Misfit),
            (20, Act::RefusedSetUp),
            (12 + 24 * reads, Act::SetUpAgain),
        ])
    }

    fn act(&mut self, act: Act) {
        match act {
            Act::SendMedia => self.send_media(),
            Act::SendControl => self.send_control(),
            Act::DeliverMedia => self.deliver(Call::ReceiveMedia),
            Act::DeliverControl => self.deliver(Call::ReceiveControl),
            Act::MakeMedia => self.make_media(),
            Act::MakeControl => self.make_control(),
            Act::RepeatMedia => self.repeat(Call::ReceiveMedia),
            Act::RepeatControl => self.repeat(Call::ReceiveControl),
            Act::JumpMedia => self.jump(Call::ReceiveMedia),
            Act::JumpControl => self.jump(Call::ReceiveControl),
            Act::Burst => self.burst(),
            Act::GoUnheard => self.go_unheard(),
            Act::CatchUp => self.catch_up(),
            Act::ComeLate => self.come_late(),
            Act::Strange => self.strange(),
            Act::Misfit => misfit::record(self.random, self.recorder),
            Act::RefusedSetUp => self.refused_set_up(),
            Act::SetUpAgain => {
                self.set_up_sender();
                self.set_up_receiver();
            }
        }
    }

    fn set_up_sender(&mut self) {
        let body = sender_body(&self.sender_values);
        self.recorder.record(Call::SetUpSender.op(), &body);
    }

    fn set_up_receiver(&mut self) {
        let start = if self.follows_sender {
            set_ups::start_of_link(self.random, self.first_number, self.values.integrity)
        } else {
            set_ups::start(self.random)
        };
        let values = self.values.clone();
        self.record_receiver(&values, start);
    }

    fn record_receiver(&mut self, values: &SetUp, start: Start) {
        let body = receiver_body(values, start, self.random.bits() as u16);
        self.recorder.record(Call::SetUpReceiver.op(), &body);
    }

    /// A refused set-up, calls on the closed context that it leaves, and a good set-up again.
    fn refused_set_up(&mut self) {
        let values = set_ups::refused(self.random, &self.values);
        let is_sender = self.random.percent(50);
        if is_sender {
            self.recorder.record(Call::SetUpSender.op(), &sender_body(&values));
        } else {
            let start = set_ups::start(self.random);
            self.record_receiver(&values, start);
        }
        for _ in 0..self.random.length(0..=3) {
            let act = self.random.pick([
                Act::SendMedia,
                Act::SendControl,
                Act::MakeMedia,
                Act::MakeControl,
            ]);
            self.act(act);
        }
        if is_sender {
            self.set_up_sender();
        } else {
            self.set_up_receiver();
        }
    }

    /// Bytes that nobody made, at times with the look of a packet.
    fn strange(&mut self) {
        let length = self.random.weighted([(1, 0), (8, 40), (1, 400)]);
        let length = self.random.length(0..=length);
        let mut packet = self.random.bytes(length);
        if let Some(first) = packet.first_mut() {
            *first = self.random.pick([0x80, 0x81, 0x90, *first]);
        }
        let ssrc = self.values.ssrc.to_be_bytes();
        let call = misfit::packet_call(self.random);
        let place = if matches!(call, Call::SendMedia | Call::ReceiveMedia) { 8 } else { 4 };
        if self.random.percent(60) {
            if let Some(field) = packet.get_mut(place..place + 4) {
                field.copy_from_slice(&ssrc);
            }
        }
        let room = self.room(packet.len() + 20);
        self.recorder.call(call, room, &packet);
    }

    /// How many faults a packet gets: mostly none, at times several, so that rows compete.
    fn faults(&mut self) -> u64 {
        self.random.weighted([(66, 0), (22, 1), (9, 2), (3, 3)])
    }

    /// The outgoing buffer's size for a result of this length: just enough, more, or too little.
    fn room(&mut self, needed: usize) -> usize {
        let more = needed + self.random.length(1..=40);
        let less = self.random.length(0..=needed);
        let room = self.random.weighted([
            (50, needed),
            (30, more),
            (7, needed.saturating_sub(1)),
            (4, less),
            (3, 0),
            (2, MAX_ROOM),
        ]);
        room.min(MAX_ROOM)
    }
}
