//! An evening's records as two runs: what the sender sends and what the receiver is given.

use super::{keeps_up, Evening, Role};
use crate::index;
use crate::settings::{Integrity, SetUp, Start};
use crate::trace::{Call, Records, Request};
use std::collections::{BTreeMap, BTreeSet};

/// Both runs of an evening.
#[derive(Clone, Debug, Default)]
pub struct Runs<'a> {
    /// The sender's set-up.
    pub sender: Option<SetUp>,
    /// The receiver's, and where it starts.
    pub receiver: Option<(SetUp, Start)>,
    /// The media packets sent, by the place of the record.
    pub sent: BTreeMap<usize, Sent<'a>>,
    /// The calls that receive media, in their order.
    pub received: Vec<Received<'a>>,
    /// The indices delivered so far.
    delivered: BTreeSet<u64>,
}

/// A media packet that is sent.
#[derive(Clone, Copy, Debug)]
pub struct Sent<'a> {
    /// Its index.
    pub index: u64,
    /// The plain packet.
    pub plain: &'a [u8],
}

/// A call that receives media.
#[derive(Clone, Debug)]
pub struct Received<'a> {
    /// The record's place.
    pub place: usize,
    /// Size of the outgoing buffer.
    pub room: usize,
    /// The bytes to read.
    pub packet: &'a [u8],
    /// The highest index delivered before.
    pub highest: Option<u64>,
    /// What is delivered; None for a strange string.
    pub delivery: Option<Delivery<'a>>,
}

/// A delivery.
#[derive(Clone, Copy, Debug)]
pub struct Delivery<'a> {
    /// The place of the record that sends the packet.
    pub sent_at: usize,
    /// What it sends.
    pub sent: Sent<'a>,
    /// Whether the packet's tag carries the rollover count.
    pub carries_count: bool,
    /// Whether the index was not delivered before.
    pub is_first: bool,
}

impl<'a> Runs<'a> {
    /// Reads an evening; the error tells of a record that is not what it is said to be.
    pub fn read(evening: &'a Evening) -> Result<Runs<'a>, String> {
        let mut runs = Runs::default();
        let mut roles = evening.roles.iter();
        for (place, record) in Records::new(&evening.trace).enumerate() {
            let role = roles.next().ok_or(format!("record {place} is nothing"))?;
            let request = Request::read(&record);
            let told = request.and_then(|request| runs.take(place, *role, request));
            told.ok_or_else(|| format!("record {place} is not what it is said to be: {role:?}"))?;
        }
        match (roles.len(), &runs.sender, &runs.receiver) {
            (0, Some(_), Some(_)) => Ok(runs),
            _ => Err("a record or a set-up is missing".to_string()),
        }
    }

    /// Takes a record as what it is said to be; None if it is not. Each side is set up once.
    fn take(&mut self, place: usize, role: Role, request: Request<'a>) -> Option<()> {
        match (role, request) {
            (Role::Other, Request::SetUpSender(values)) => {
                self.sender.replace(values).is_none().then_some(())
            }
            (Role::Other, Request::SetUpReceiver(values, start)) => {
                self.receiver.replace((values, start)).is_none().then_some(())
            }
            (Role::Other, Request::Packet { call, .. }) => {
                (call != Call::ReceiveMedia).then_some(())
            }
            (Role::Send { index }, Request::Packet { call: Call::SendMedia, packet, .. }) => {
                self.sent.insert(place, Sent { index, plain: packet });
                Some(())
            }
            (role, Request::Packet { call: Call::ReceiveMedia, room, packet }) => {
                let highest = self.delivered.last().copied();
                let delivery = match role {
                    Role::Delivery { sent } => Some(self.deliver(sent)?),
                    Role::Strange => None,
                    Role::Other | Role::Send { .. } => return None,
                };
                self.received.push(Received { place, room, packet, highest, delivery });
                Some(())
            }
            _ => None,
        }
    }

    fn deliver(&mut self, sent_at: usize) -> Option<Delivery<'a>> {
        let sent = *self.sent.get(&sent_at)?;
        let carries_count = self.integrity()?.carries_count(index::number(sent.index));
        let is_first = self.delivered.insert(sent.index);
        Some(Delivery { sent_at, sent, carries_count, is_first })
    }

    /// The receiver's integrity transform.
    fn integrity(&self) -> Option<Integrity> {
        self.receiver.as_ref().map(|(values, _)| values.integrity)
    }

    /// The rollover count that the receiver is started with.
    pub fn started_count(&self) -> u32 {
        self.receiver.as_ref().map_or(0, |(_, start)| start.rollover_count)
    }

    /// What an evening supposes and doesn't hold of this one, in words. That strange strings are
    /// refused is left to the answers.
    pub fn broken_hypotheses(&self) -> Vec<String> {
        let mut broken = Vec::new();
        if self.sender.as_ref() != self.receiver.as_ref().map(|(values, _)| values) {
            broken.push("sender and receiver have not one set-up".to_string());
        }
        if self.receiver.as_ref().is_some_and(|(_, start)| start.last_number.is_some()) {
            broken.push("the receiver was given a sequence number".to_string());
        }
        for Received { place, room, highest, delivery, .. } in &self.received {
            let Some(Delivery { sent, carries_count, .. }) = delivery else { continue };
            if !keeps_up(*carries_count, self.started_count(), *highest, sent.index) {
                let index = sent.index;
                broken.push(format!("record {place}: {index} doesn't keep up with {highest:?}"));
            }
            if *room < sent.plain.len() {
                broken.push(format!("record {place}: no room"));
            }
        }
        broken
    }
}
