//! Every jump of H up to past the window's length, for media and for control, and what the window
//! holds after it.
//!
//! Small jumps and large ones take turns, so that marks are both moved and dropped. After each
//! jump every mark is asked about where it stands now, and so are the places where a wrong shift
//! might leave the last H, both sides of each border of words, and the places about the window's
//! end. Then every word's last place is marked: whatever the next jump is, unless it is one of
//! whole words, it moves a mark over each border. After a few jumps every place is asked about.

use super::recorder::Recorder;
use super::window::{WORDS, WORD_LENGTH};
use super::{made, set_ups};
use crate::index;
use crate::random::Random;
use crate::replay::WINDOW_LENGTH;
use crate::session::Session;
use crate::settings::Start;
use crate::trace::{receiver_body, Call};

const KINDS: [Call; 2] = [Call::ReceiveMedia, Call::ReceiveControl];
/// The largest jump.
const LARGEST: u64 = 1100;
/// How often small jump and large one take turns before there is a new receiver.
const TURNS: usize = 5;
/// The jumps after which every place is asked about.
const THOROUGH: [u64; 10] = [1, 63, 64, 65, 127, 128, 1022, 1023, 1024, 1025];
/// The farthest behind that is asked about, beyond the window.
const FARTHEST: u64 = WINDOW_LENGTH + 1;

/// The trace. The seed fixes keys and contents; the places are always the same.
pub fn window_sweep(seed: u64) -> Vec<u8> {
    let mut random = Random::new(seed);
    let mut recorder = Recorder::default();
    let turns: Vec<_> = (1..=LARGEST / 2).map(|small| [small, LARGEST + 1 - small]).collect();
    let mut ordinals = 0..;
    for (turns, ordinal) in turns.chunks(TURNS).zip(&mut ordinals) {
        if let Some(mut sweep) = Sweep::open(&mut random, &mut recorder, ordinal) {
            turns.iter().flatten().for_each(|jump| sweep.jump(*jump));
        }
    }
    for (jump, ordinal) in THOROUGH.iter().zip(&mut ordinals) {
        if let Some(mut sweep) = Sweep::open(&mut random, &mut recorder, ordinal) {
            KINDS.iter().for_each(|call| sweep.jump_thoroughly(*call, *jump));
        }
    }
    recorder.into_trace()
}

/// One receiver.
struct Sweep<'a> {
    random: &'a mut Random,
    recorder: &'a mut Recorder,
    session: Session,
}

impl<'a> Sweep<'a> {
    /// Sets up a receiver, and lets in a first packet of each kind and some late ones. Receivers
    /// start in different places and soon come to a rollover.
    fn open(random: &'a mut Random, recorder: &'a mut Recorder, ordinal: u32) -> Option<Self> {
        let values = set_ups::good(random);
        let session = Session::set_up(&values)?;
        let start = Start { rollover_count: ordinal, last_number: None };
        recorder.record(Call::SetUpReceiver.op(), &receiver_body(&values, start, 0));
        let first = index::join(ordinal, 63_000 + 13 * ordinal as u16);
        let mut sweep = Sweep { random, recorder, session };
        for call in KINDS {
            sweep.let_in(call, first);
            sweep.mark_last_places(call);
        }
        Some(sweep)
    }

    /// A jump of each kind, and questions after it. One mark is moved to the window's last place.
    fn jump(&mut self, jump: u64) {
        for call in KINDS {
            let highest = self.highest(call);
            let to_last_place = (highest + jump).saturating_sub(WINDOW_LENGTH - 1);
            self.let_in(call, to_last_place.min(highest));
            self.let_in(call, highest + jump);
            self.ask_about_marks(call);
            self.ask_beside(call, highest);
            self.ask_about_limits(call);
            self.mark_last_places(call);
        }
    }

    /// Asks about every accepted index behind H, in the window or just beyond.
    fn ask_about_marks(&mut self, call: Call) {
        let highest = self.highest(call);
        let accepted = &self.recorder.contexts().replay_list(call).accepted;
        let marks: Vec<u64> = accepted.range(highest - FARTHEST..highest).copied().collect();
        marks.into_iter().for_each(|index| self.ask(call, index));
    }

    /// Asks about the places that a wrong shift might move a mark to: one place or one word off.
    fn ask_beside(&mut self, call: Call, mark: u64) {
        let highest = self.highest(call);
        for off in [1, WORD_LENGTH] {
            self.ask(call, mark - off);
            self.ask(call, highest.min(mark + off));
        }
    }

    /// Asks about the last place of each word and the one behind it, and about the places on both
    /// sides of the window's end.
    fn ask_about_limits(&mut self, call: Call) {
        let highest = self.highest(call);
        let borders = (1..=WORDS).map(|word| word * WORD_LENGTH);
        borders.for_each(|border| (border - 1..=border).for_each(|p| self.ask(call, highest - p)));
        [WINDOW_LENGTH - 2, FARTHEST].iter().for_each(|place| self.ask(call, highest - place));
    }

    fn mark_last_places(&mut self, call: Call) {
        let highest = self.highest(call);
        (1..=WORDS).for_each(|word| self.let_in(call, highest + 1 - word * WORD_LENGTH));
    }

    /// A jump over marks about the borders, as these are and as the jump moves them, and
    /// elsewhere; then questions about every place.
    fn jump_thoroughly(&mut self, call: Call, jump: u64) {
        let highest = self.highest(call);
        let is_at_border = |place: u64| (place + 1) % WORD_LENGTH <= 1;
        for place in 0..WINDOW_LENGTH {
            if is_at_border(place) || is_at_border(place + jump) || place % 23 == 0 {
                self.let_in(call, highest - place);
            }
        }
        self.let_in(call, highest + jump);
        (0..=FARTHEST).for_each(|place| self.ask(call, highest + jump - place));
    }

    fn highest(&self, call: Call) -> u64 {
        self.recorder.contexts().replay_list(call).highest.unwrap_or(0)
    }

    /// Hands over a good packet, which is let in unless it was before or is behind the window.
    fn let_in(&mut self, call: Call, index: u64) {
        let packet = made::small(self.random, &self.session, call, index);
        self.recorder.call(call, packet.len(), &packet);
    }

    fn ask(&mut self, call: Call, index: u64) {
        made::probe(self.random, self.recorder, &self.session, call, index);
    }
}
