//! Rounds of the same work by several sides, and their medians.
//!
//! Interleaved, each round runs every side once, so that no side's branches are learnt by heart over hundreds of runs of the same text, and
//! in an order drawn anew, so that none always finds the memory that another left. Alone, a side runs all its rounds before the next begins.

use crate::generate::random::Random;
use std::time::{Duration, Instant};

/// Rounds before those that count: memory is touched and code is warm.
const WARM: usize = 10;

/// One side: its name, and a run of its work that gives the time it took.
pub struct Side<'a> {
    pub name: String,
    pub run: Box<dyn FnMut() -> Duration + 'a>,
}

impl<'a> Side<'a> {
    /// A side all of whose work counts.
    pub fn new(name: &str, mut work: impl FnMut() + 'a) -> Side<'a> {
        Side::timed(name, move || timed(&mut work))
    }

    /// A side that times its runs itself, as what it makes ready does not count.
    pub fn timed(name: &str, run: impl FnMut() -> Duration + 'a) -> Side<'a> {
        Side {
            name: name.to_string(),
            run: Box::new(run),
        }
    }
}

/// The time that some work takes.
pub fn timed(work: impl FnOnce()) -> Duration {
    let began = Instant::now();
    work();
    began.elapsed()
}

/// Which rounds, and how many.
#[derive(Clone, Copy)]
pub struct Rounds {
    pub count: usize,
    pub interleaved: bool,
}

/// The median time of each side.
pub fn medians(sides: &mut [Side], rounds: Rounds) -> Vec<Duration> {
    let mut times = vec![Vec::with_capacity(rounds.count); sides.len()];
    if rounds.interleaved {
        let mut random = Random::new(rounds.count as u64);
        let mut order: Vec<usize> = (0..sides.len()).collect();
        for round in 0..rounds.count + WARM {
            shuffle(&mut order, &mut random);
            for &side in &order {
                let time = (sides[side].run)();
                if round >= WARM {
                    times[side].push(time);
                }
            }
        }
    } else {
        for (side, times) in sides.iter_mut().zip(&mut times) {
            for _ in 0..WARM {
                (side.run)();
            }
            times.extend((0..rounds.count).map(|_| (side.run)()));
        }
    }
    times.into_iter().map(median).collect()
}

/// Any order, each as likely.
fn shuffle(order: &mut [usize], random: &mut Random) {
    for last in (1..order.len()).rev() {
        order.swap(last, random.below(last + 1));
    }
}

fn median(mut times: Vec<Duration>) -> Duration {
    times.sort();
    times[times.len() / 2]
}

/// Runs the sides and prints a row of the table for each: microseconds, nanoseconds for each of so many units, and how many times as
/// fast it is as each side that is measured against.
pub fn report(
    what: &str,
    unit: &str,
    units: usize,
    sides: Vec<Side>,
    against: &[&str],
    rounds: Rounds,
) {
    let mut sides = sides;
    let times = medians(&mut sides, rounds);
    println!("\n{what}");
    for (side, time) in sides.iter().zip(&times) {
        let ratios: String = against
            .iter()
            .filter_map(|name| {
                let other = sides.iter().position(|other| other.name == *name)?;
                let ratio = times[other].as_secs_f64() / time.as_secs_f64();
                (*name != side.name).then(|| format!("   {ratio:>6.2} x {name}"))
            })
            .collect();
        println!(
            "  {:<42} {:>10.2} us {:>8.2} ns a {unit}{ratios}",
            side.name,
            time.as_nanos() as f64 / 1000.0,
            time.as_nanos() as f64 / units as f64
        );
    }
}
