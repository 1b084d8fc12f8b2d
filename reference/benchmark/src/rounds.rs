//! Interleaved rounds: every contender has its turn in each, so that whatever else the machine
//! does meets all alike.

use std::time::{Duration, Instant};

/// Rounds that are not counted come first, for so long: caches fill, and the processor's clock
/// settles.
const WARM_UP: Duration = Duration::from_millis(500);

/// The times of each contender, one a round, in seconds. `turn` does the turn of the contender
/// with the given place and says how long its timed part took. Another contender begins each
/// round.
pub fn interleaved(
    rounds: usize,
    contenders: usize,
    mut turn: impl FnMut(usize) -> Duration,
) -> Vec<Vec<f64>> {
    let start = Instant::now();
    while start.elapsed() < WARM_UP {
        (0..contenders).for_each(|contender| _ = turn(contender));
    }
    let mut times = vec![Vec::with_capacity(rounds); contenders];
    for round in 0..rounds {
        for place in 0..contenders {
            let contender = (round + place) % contenders;
            times[contender].push(turn(contender).as_secs_f64());
        }
    }
    times
}
