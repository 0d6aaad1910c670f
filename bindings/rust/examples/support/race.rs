//! Times two calls in turns, and prints the table of times.

use std::hint::black_box;
use std::time::{Duration, Instant};

/// How many rounds there are.
const ROUNDS: usize = 60;
/// How long a round lasts at least.
const ROUND: Duration = Duration::from_millis(2);

/// Prints a line of the table.
pub fn line(case: &str, library: &str, ordinary: &str, ratio: &str) {
    println!("{case:<36} {library:>14} {ordinary:>14} {ratio:>7}");
}

/// Times the two, prints the time of a call, and answers both times.
pub fn race_and_print(
    case: &str,
    library: impl FnMut() -> u64,
    ordinary: impl FnMut() -> u64,
) -> (f64, f64) {
    let (library, ordinary) = race(library, ordinary);
    line(
        case,
        &shown(library),
        &shown(ordinary),
        &ratio(library, ordinary),
    );
    (library, ordinary)
}

/// The seconds that a call of each takes in its best round; each call must answer 0.
pub fn race(library: impl FnMut() -> u64, ordinary: impl FnMut() -> u64) -> (f64, f64) {
    race_to(0, library, ordinary)
}

/// The same, where each call must give the answer.
pub fn race_to(
    answer: u64,
    mut library: impl FnMut() -> u64,
    mut ordinary: impl FnMut() -> u64,
) -> (f64, f64) {
    assert_eq!((library(), ordinary()), (answer, answer));
    let calls = (
        calls_of_a_round(&mut library),
        calls_of_a_round(&mut ordinary),
    );
    let mut best = (f64::INFINITY, f64::INFINITY);
    for _ in 0..ROUNDS {
        best.0 = best.0.min(time(&mut library, calls.0));
        best.1 = best.1.min(time(&mut ordinary, calls.1));
    }
    best
}

/// How many calls fill a round.
fn calls_of_a_round(call: &mut impl FnMut() -> u64) -> u32 {
    let mut calls = 1;
    while time(call, calls) * f64::from(calls) < ROUND.as_secs_f64() {
        calls *= 2;
    }
    calls
}

/// The seconds of a call, measured over so many.
fn time(call: &mut impl FnMut() -> u64, calls: u32) -> f64 {
    let start = Instant::now();
    for _ in 0..calls {
        black_box(call());
    }
    start.elapsed().as_secs_f64() / f64::from(calls)
}

/// A time with its unit.
pub fn shown(seconds: f64) -> String {
    match seconds {
        s if s < 1e-6 => format!("{:.0} ns", s * 1e9),
        s if s < 1e-3 => format!("{:.2} µs", s * 1e6),
        s => format!("{:.2} ms", s * 1e3),
    }
}

/// The ratio of two times.
pub fn ratio(library: f64, ordinary: f64) -> String {
    format!("{:.2}", library / ordinary)
}
