//! The time of a media packet, by size and call: every contender in the same rounds.

use crate::clock::timed;
use crate::implementations::{Implementation, LIBSRTP2, PLAIN, PROVED, QUICK, REFERENCE};
use crate::packets::{Call, Traffic, PACKETS, ROOM};
use crate::report::{head, micros, ratio_and_spread, row};
use crate::rounds::interleaved;
use crate::statistics::Spread;
use std::time::Duration;

const SIZES: [usize; 5] = [60, 172, 400, 1200, 2000];
const ROUNDS: usize = 200;

/// The times of a contender, one a round, and its name.
type Times = (&'static str, Vec<f64>);

/// The times of one call on packets of one size.
struct Measured {
    length: usize,
    call: Call,
    proved: Vec<f64>,
    /// reference/ and the quick forms.
    ordinary: Vec<Times>,
    libsrtp2: Option<Times>,
}

/// The summary, and every contender.
pub fn print() {
    let measured: Vec<Measured> = SIZES.into_iter().flat_map(measure).collect();
    println!("### Media packets\n");
    println!("{ROUNDS} rounds of {PACKETS} packets of each size.\n");
    print_summary(&measured);
    print_contenders(&measured);
}

/// The proved library beside the quickest of ordinary Rust, and beside libsrtp2.
fn print_summary(measured: &[Measured]) {
    let columns = ["bytes", "call", "proved, µs", "quickest ordinary Rust", "µs", "rate"];
    head(&[&columns[..], &["libsrtp2, µs", "rate"]].concat());
    for of in measured {
        let time_and_rate = |(_, times): &Times| {
            let [rate, ..] = ratio_and_spread(times, &of.proved);
            [micros(times, PACKETS), rate]
        };
        let [length, call, proved] = of.front();
        let quickest = of.quickest();
        let [time, rate] = time_and_rate(quickest);
        let [libsrtp2, its_rate] =
            of.libsrtp2.as_ref().map_or(["-", "-"].map(String::from), time_and_rate);
        row(&[&length, &call, &proved, quickest.0, &time, &rate, &libsrtp2, &its_rate]);
    }
    println!();
}

/// The proved library beside each of the others.
fn print_contenders(measured: &[Measured]) {
    println!("### Media packets, every contender\n");
    let columns = ["bytes", "call", "proved, µs", "beside", "µs", "rate"];
    head(&[&columns[..], &["middle half", "all rounds"]].concat());
    for of in measured {
        for (name, times) in of.ordinary.iter().chain(&of.libsrtp2) {
            let [length, call, proved] = of.front();
            let [rate, half, all] = ratio_and_spread(times, &of.proved);
            let time = micros(times, PACKETS);
            row(&[&length, &call, &proved, name, &time, &rate, &half, &all]);
        }
    }
    println!();
}

impl Measured {
    /// The first cells of its rows.
    fn front(&self) -> [String; 3] {
        let call = self.call.name().to_string();
        [self.length.to_string(), call, micros(&self.proved, PACKETS)]
    }

    /// The contender of ordinary Rust with the least median.
    fn quickest(&self) -> &Times {
        let median = |times: &Times| Spread::of(times.1.clone()).median;
        let least = self.ordinary.iter().min_by(|a, b| median(a).total_cmp(&median(b)));
        least.expect("there is ordinary Rust")
    }
}

/// Both calls on packets of one size.
fn measure(length: usize) -> [Measured; 2] {
    let traffic = Traffic::new(length);
    let ordinary = [&[REFERENCE][..], &QUICK].concat();
    let contenders: Vec<_> =
        [PROVED].into_iter().chain(ordinary.iter().copied()).chain(LIBSRTP2).collect();
    Call::ALL.map(|call| {
        let mut times = times(&traffic, call, &contenders).into_iter();
        let proved = times.next().expect("proved comes first");
        let names = ordinary.iter().map(|contender| contender.name);
        let ordinary = names.zip(times.by_ref()).collect();
        let libsrtp2 = LIBSRTP2.map(|library| library.name).zip(times.next());
        Measured { length, call, proved, ordinary, libsrtp2 }
    })
}

/// The times of each contender, once the bytes that it gives have been found right.
fn times(traffic: &Traffic, call: Call, contenders: &[Implementation]) -> Vec<Vec<f64>> {
    for contender in contenders {
        traffic.check(call, contender);
    }
    let mut out = vec![0; ROOM];
    interleaved(ROUNDS, contenders.len(), |at| turn(traffic, call, &contenders[at], &mut out))
}

/// Every packet once. Set-up is not in the time, nor is the check of what came out.
fn turn(traffic: &Traffic, call: Call, contender: &Implementation, out: &mut [u8]) -> Duration {
    let mut link = (contender.set_up)(&PLAIN);
    let (given, wanted) = traffic.of(call);
    let (time, bytes) = timed(|| {
        given.iter().map(|packet| call.make(&mut *link, packet, out).unwrap_or(0)).sum::<usize>()
    });
    let last = wanted.last().expect("a round has packets");
    assert_eq!(bytes, wanted.len() * last.len(), "{} refused a packet", contender.name);
    assert!(out.starts_with(last), "{} gave other bytes", contender.name);
    time
}
