//! A call that the reference has answered, for a slip to spoil.

use reference::context::Receiver;
use reference::index;
use reference::layout::{ProtectedControl, ProtectedMedia, RtpHeader};
use reference::refusal::Refusal;
use reference::replay::ReplayList;
use reference::session::Session;
use reference::settings::{SetUp, Settings, CARRIED_COUNT_LENGTH};
use reference::trace::{Answer, Call, Contexts, Record, Request, BUFFER_FILL, FINISHED, MISFIT};

/// A slip: its name, and what it does to a call.
pub type Slip = (&'static str, fn(&mut Done));

/// Answers a record with a slip.
pub fn slipped(contexts: &mut Contexts, record: &Record, slip: impl Fn(&mut Done)) -> Answer {
    let before = contexts.clone();
    let mut answer = contexts.answer(record);
    slip(&mut Done::new(record, &before, contexts, &mut answer));
    answer
}

/// A call that the reference has answered. A slip changes the answer or the contexts that are
/// left.
pub struct Done<'a> {
    pub call: Option<Call>,
    pub room: usize,
    pub packet: &'a [u8],
    record: &'a Record<'a>,
    pub before: &'a Contexts,
    pub after: &'a mut Contexts,
    pub answer: &'a mut Answer,
}

impl<'a> Done<'a> {
    pub fn new(
        record: &'a Record<'a>,
        before: &'a Contexts,
        after: &'a mut Contexts,
        answer: &'a mut Answer,
    ) -> Done<'a> {
        let (room, packet) = match Request::read(record) {
            Some(Request::Packet { room, packet, .. }) => (room, packet),
            _ => (0, &[][..]),
        };
        Done { call: Call::from_op(record.op), room, packet, record, before, after, answer }
    }

    pub fn finished(&self, call: Call) -> bool {
        self.call == Some(call) && self.answer.outcome == FINISHED
    }

    pub fn refused(&self, call: Call, refusal: Refusal) -> bool {
        self.call == Some(call) && self.answer.outcome == refusal.number()
    }

    /// Refuses after all.
    pub fn refuse(&mut self, refusal: Refusal) {
        let buffer = vec![BUFFER_FILL; self.room];
        *self.answer = Answer::to_call(self.answer.op, Err(refusal), buffer);
        *self.after = self.before.clone();
    }
}

/// Packets received.
impl Done<'_> {
    pub fn settings(&self) -> Settings {
        self.before.receiver.session.as_ref().unwrap().settings.clone()
    }

    /// The parts of a received media packet that has the layout.
    pub fn media(&self) -> ProtectedMedia<'_> {
        let settings = &self.before.receiver.session.as_ref().unwrap().settings;
        ProtectedMedia::read(self.packet, settings).unwrap()
    }

    /// The index that a received media packet has, or would have beyond the ends.
    pub fn index(&self) -> i128 {
        let number = self.media().header.number;
        match self.media().carried_count {
            Some(count) => i128::from(index::join(count, number)),
            None => self.estimate(),
        }
    }

    /// The same without a look at the tag.
    pub fn estimate(&self) -> i128 {
        self.before.receiver.estimate(self.media().header.number)
    }

    pub fn distance(&self) -> i128 {
        ahead_of(self.before.receiver.media.highest, self.index())
    }

    /// The parts of a received control packet that has the layout.
    pub fn control(&self) -> ProtectedControl<'_> {
        let settings = &self.before.receiver.session.as_ref().unwrap().settings;
        ProtectedControl::read(self.packet, settings).unwrap()
    }

    pub fn control_distance(&self) -> i128 {
        ahead_of(self.before.receiver.control.highest, i128::from(self.control().index))
    }

    /// Opens the packet at an index after all, if its tag is right there.
    pub fn open_at(&mut self, index: u64) {
        *self.answer = self.answer_at(index, self.packet);
    }

    /// Opens another packet in this one's place.
    pub fn open_instead(&mut self, packet: &[u8]) {
        *self.answer = self.answer_at(self.index() as u64, packet);
    }

    pub fn has_good_tag(&self) -> bool {
        self.answer_at(self.index() as u64, self.packet).outcome == FINISHED
    }

    /// What a receiver with nothing accepted says to a packet at an index.
    fn answer_at(&self, index: u64, packet: &[u8]) -> Answer {
        let mut receiver = Receiver {
            started_count: index::rollover_count(index),
            media: ReplayList::default(),
            ..self.before.receiver.clone()
        };
        let mut buffer = vec![BUFFER_FILL; self.room];
        let answer = receiver.receive_media(packet, &mut buffer);
        Answer::to_call(self.answer.op, answer, buffer)
    }

    /// What a receiver with nothing accepted says to the control packet.
    pub fn control_answer(&self) -> Answer {
        let control = ReplayList::default();
        let mut receiver = Receiver { control, ..self.before.receiver.clone() };
        let mut buffer = vec![BUFFER_FILL; self.room];
        let answer = receiver.receive_control(self.packet, &mut buffer);
        Answer::to_call(self.answer.op, answer, buffer)
    }
}

/// How far an index is ahead of H; 0 without one.
fn ahead_of(highest: Option<u64>, index: i128) -> i128 {
    highest.map_or(0, |highest| index - i128::from(highest))
}

/// A media packet that was sent, and what its tag is made of.
pub struct Sent<'a> {
    pub session: &'a Session,
    pub authenticated: &'a [u8],
    pub index: u64,
    /// The sender's index before.
    pub last_index: Option<u64>,
}

impl Sent<'_> {
    pub fn count(&self) -> [u8; CARRIED_COUNT_LENGTH] {
        index::rollover_count(self.index).to_be_bytes()
    }

    pub fn is_carrier(&self) -> bool {
        self.session.settings.integrity.carries_count(index::number(self.index))
    }

    /// The tag with the count carried or not, whatever the number says.
    pub fn tag(&self, carries_count: bool) -> Vec<u8> {
        self.tag_over(carries_count, &[self.authenticated, &self.count()])
    }

    /// The tag whose MAC covers these parts.
    pub fn tag_over(&self, carries_count: bool, parts: &[&[u8]]) -> Vec<u8> {
        let count = self.count();
        let carried = if carries_count { &count[..] } else { &[] };
        let mut tag = [carried, &self.session.media.tag.mac(parts)].concat();
        tag.truncate(self.session.settings.media_tag_length);
        tag
    }
}

/// Packets sent.
impl Done<'_> {
    /// Puts another tag into a media packet that was sent, if the slip has one.
    pub fn rewrite_tag(&mut self, write: impl Fn(&Sent) -> Option<Vec<u8>>) {
        if !self.finished(Call::SendMedia) {
            return;
        }
        let session = self.before.sender.session.as_ref().unwrap();
        let end = usize::from(self.answer.length);
        let authenticated = &self.answer.buffer[..end - session.settings.media_expansion()];
        let last_index = self.before.sender.last_index;
        let sent = Sent { session, authenticated, index: self.answer.index, last_index };
        if let Some(tag) = write(&sent) {
            self.answer.buffer[end - tag.len()..end].copy_from_slice(&tag);
        }
    }

    /// The header of a packet to be sent that has one.
    pub fn header(&self) -> RtpHeader {
        RtpHeader::read(self.packet).unwrap()
    }
}

/// Set-ups.
impl Done<'_> {
    fn is_set_up(&self) -> bool {
        matches!(self.call, Some(Call::SetUpSender | Call::SetUpReceiver))
    }

    /// What a good set-up has left.
    pub fn new_settings(&mut self) -> Option<&mut Settings> {
        let session = match self.call {
            _ if self.answer.outcome != FINISHED => None,
            Some(Call::SetUpSender) => self.after.sender.session.as_mut(),
            Some(Call::SetUpReceiver) => self.after.receiver.session.as_mut(),
            _ => None,
        };
        session.map(|session| &mut session.settings)
    }

    /// Accepts a refused set-up that would be good with the change.
    pub fn accept_with(&mut self, change: impl Fn(&mut SetUp)) {
        let values = match Request::read(self.record) {
            Some(Request::SetUpSender(values) | Request::SetUpReceiver(values, _)) => values,
            _ => return,
        };
        let mut changed = values.clone();
        change(&mut changed);
        if Session::set_up(&values).is_none() && Session::set_up(&changed).is_some() {
            *self.answer = Answer::to_set_up(self.answer.op, Ok(()));
        }
    }

    /// Takes the front of a set-up that doesn't fit for the whole, if the slip passes over the
    /// rest.
    pub fn pass_over(&mut self, passes: impl Fn(&[u8]) -> bool) {
        if !self.is_set_up() || self.answer.outcome != MISFIT {
            return;
        }
        let Record { op, body } = *self.record;
        let fits = |end: &usize| Request::read(&Record { op, body: &body[..*end] }).is_some();
        if let Some(end) = (0..body.len()).rev().find(fits) {
            if passes(&body[end..]) {
                *self.answer = Contexts::default().answer(&Record { op, body: &body[..end] });
            }
        }
    }
}
