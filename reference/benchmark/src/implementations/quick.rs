//! Ordinary Rust in its quickest forms, one for each form of counter mode.

use super::{Answer, Link, Settings, MASTER_KEY, MASTER_SALT, PLAIN};
use crate::quick::{CounterMode, Receiver, Sender};
use std::marker::PhantomData;

struct Quick<C> {
    sender: Sender,
    receiver: Receiver,
    counter_mode: PhantomData<C>,
}

/// A link under the plain settings: no others are known here.
pub fn set_up<C: CounterMode + 'static>(settings: &Settings) -> Box<dyn Link> {
    assert!(*settings == PLAIN);
    Box::new(Quick {
        sender: Sender::new(&MASTER_KEY, &MASTER_SALT),
        receiver: Receiver::new(&MASTER_KEY, &MASTER_SALT),
        counter_mode: PhantomData::<C>,
    })
}

impl<C: CounterMode> Link for Quick<C> {
    fn protect(&mut self, packet: &[u8], out: &mut [u8]) -> Answer {
        self.sender.send_media::<C>(packet, out)
    }

    fn open(&mut self, packet: &[u8], out: &mut [u8]) -> Answer {
        self.receiver.receive_media::<C>(packet, out)
    }
}
