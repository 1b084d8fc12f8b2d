//! Traces: random ones, sweeps and whole evenings from a seed, and the example.
//!
//! A random trace is a row of scenes. A scene sets up a sender and a receiver on one link and then
//! mixes good packets with lost, late, repeated, damaged and strange ones, and with jumps over the
//! replay window. The maker answers its own records as it goes, so that it knows each context and
//! can aim at the limits.

mod carried;
mod damage;
mod evening;
mod made;
mod misfit;
mod plain;
mod recorder;
mod scene;
mod set_ups;
mod sweep;
mod targets;
mod whole_evening;
mod window;
mod window_sweep;

pub use evening::evening;
pub use sweep::set_up_sweep;
pub use whole_evening::whole_evening;
pub use window_sweep::window_sweep;

use crate::random::Random;
use crate::trace::Call;
use recorder::Recorder;
use scene::Scene;

/// A trace of at least so many calls, the same for the same seed.
pub fn make_trace(seed: u64, calls: usize) -> Vec<u8> {
    let mut random = Random::new(seed);
    let mut recorder = Recorder::default();
    calls_before_set_up(&mut random, &mut recorder);
    while recorder.calls() < calls {
        if let Some(mut scene) = Scene::open(&mut random, &mut recorder) {
            scene.play();
        }
    }
    let mut trace = recorder.into_trace();
    if random.percent(70) {
        trace.extend(misfit::cut_record(&mut random));
    }
    trace
}

/// Packets that would do, were the contexts set up.
fn calls_before_set_up(random: &mut Random, recorder: &mut Recorder) {
    for call in [Call::SendMedia, Call::SendControl, Call::ReceiveMedia, Call::ReceiveControl] {
        let packet = match call {
            Call::SendMedia | Call::ReceiveMedia => plain::media(random, 1, 1),
            _ => plain::control(random, 1),
        };
        recorder.call(call, packet.len() + 20, &packet);
    }
}
