//! The time of a refused call, for every refusal that a media call can be brought to give.
//!
//! Left out are control's refusals, and a sender's SPENT: no set-up starts a sender near the last
//! index.

use crate::clock::timed;
use crate::implementations::{Link, Settings, PLAIN, PROVED, REFERENCE, TAG_LENGTH};
use crate::packets::{rtp, Call, ROOM};
use crate::report::{head, nanos, ratio_and_spread, row};
use crate::rounds::interleaved;
use reference::random::Random;
use reference::refusal::Refusal;
use reference::replay::WINDOW_LENGTH;
use reference::settings::{Start, MAX_PLAIN_LENGTH};
use std::time::Duration;

const ROUNDS: usize = 60;
/// About how long a turn of reference/ is to take.
const TURN: Duration = Duration::from_millis(2);
const LENGTH: usize = 1200;
const NUMBER: u16 = 1_000;

/// A call that is refused.
struct Case {
    call: Call,
    refusal: Refusal,
    settings: Settings,
    /// Does the same call come first, and is not refused?
    is_repeated: bool,
    packet: Vec<u8>,
    room: usize,
}

/// A call that would be finished, changed so that it is refused.
fn case(call: Call, refusal: Refusal, change: fn(&mut Case)) -> Case {
    let plain = rtp(NUMBER, LENGTH, &mut Random::new(1));
    let packet = match call {
        Call::Protect => plain,
        Call::Open => {
            let mut out = vec![0; LENGTH + TAG_LENGTH];
            let sent = (REFERENCE.set_up)(&PLAIN).protect(&plain, &mut out);
            assert_eq!(sent, Ok(out.len()));
            out
        }
    };
    let mut case = Case { call, refusal, settings: PLAIN, is_repeated: false, packet, room: ROOM };
    change(&mut case);
    case
}

/// Every case, in the order of the refusals.
fn cases() -> Vec<Case> {
    use Call::{Open, Protect};
    let at_last_index = |case: &mut Case| case.settings.start = start(u32::MAX, u16::MAX);
    let far_ahead = |case: &mut Case| case.settings.start = start(0, NUMBER + WINDOW_LENGTH as u16);
    let too_long = |case: &mut Case| case.packet.resize(MAX_PLAIN_LENGTH + TAG_LENGTH + 1, 0);
    vec![
        case(Protect, Refusal::Setup, |case| case.settings.tag_length = 9),
        case(Open, Refusal::Setup, |case| case.settings.tag_length = 9),
        case(Protect, Refusal::Long, too_long),
        case(Open, Refusal::Long, too_long),
        case(Protect, Refusal::Shape, |case| case.packet[0] = 0x40),
        case(Open, Refusal::Shape, |case| case.packet[0] = 0x40),
        case(Protect, Refusal::Stream, |case| case.packet[11] ^= 1),
        case(Open, Refusal::Stream, |case| case.packet[11] ^= 1),
        case(Protect, Refusal::Room, |case| case.room = LENGTH + TAG_LENGTH - 1),
        case(Open, Refusal::Room, |case| case.room = LENGTH - 1),
        case(Open, Refusal::Key, |case| case.settings.mki = b"mki!"),
        case(Protect, Refusal::Order, |case| case.is_repeated = true),
        case(Open, Refusal::Spent, at_last_index),
        case(Open, Refusal::Old, far_ahead),
        case(Open, Refusal::Repeat, |case| case.is_repeated = true),
        case(Open, Refusal::Forged, |case| case.packet[LENGTH] ^= 1),
    ]
}

fn start(rollover_count: u32, last_number: u16) -> Start {
    Start { rollover_count, last_number: Some(last_number) }
}

impl Case {
    /// Each contender's link, where the next call will be refused.
    fn links(&self, out: &mut [u8]) -> Vec<Box<dyn Link>> {
        let links = [REFERENCE, PROVED].iter().map(|implementation| {
            let mut link = (implementation.set_up)(&self.settings);
            if self.is_repeated {
                assert!(self.call.make(&mut *link, &self.packet, out).is_ok());
            }
            let answer = self.call.make(&mut *link, &self.packet, &mut out[..self.room]);
            assert_eq!(answer, Err(self.refusal), "{}", implementation.name);
            link
        });
        links.collect()
    }

    /// So many calls on a link; all must be refused alike.
    fn turn(&self, link: &mut dyn Link, out: &mut [u8], calls: usize) -> Duration {
        let out = &mut out[..self.room];
        let (time, refused) = timed(|| {
            let is_right = |_: &usize| self.call.make(link, &self.packet, out) == Err(self.refusal);
            (0..calls).filter(is_right).count()
        });
        assert_eq!(refused, calls);
        time
    }
}

/// Every case, proved beside reference/, which knows the settings of all of them.
pub fn print() {
    println!("### Refusals\n");
    println!("Media packets of {LENGTH} bytes but for LONG; {ROUNDS} rounds of each. Control's");
    println!("refusals and a sender's SPENT are left out.\n");
    head(&["refusal", "call", "proved, ns", "reference/, ns", "rate", "middle half"]);
    let mut out = vec![0; ROOM];
    for case in cases() {
        let mut links = case.links(&mut out);
        let trial = case.turn(&mut *links[0], &mut out, 1000) / 1000;
        let calls = (TURN.as_nanos() / trial.as_nanos().max(1)) as usize;
        let times =
            interleaved(ROUNDS, links.len(), |at| case.turn(&mut *links[at], &mut out, calls));
        let [rate, half, _] = ratio_and_spread(&times[0], &times[1]);
        let (proved, second) = (nanos(&times[1], calls), nanos(&times[0], calls));
        let refusal = case.refusal.to_string();
        row(&[&refusal, case.call.name(), &proved, &second, &rate, &half]);
    }
    println!();
}
