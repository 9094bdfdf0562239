//! The clock. The implementations are taken in turns, in short runs, since a machine that others share is now faster, now
//! slower: a ratio is taken within each turn.

use std::time::Instant;

/// There are this many turns; in each, every implementation has one run of about this long.
pub const TURNS: usize = 200;
const NANOSECONDS_A_RUN: f64 = 250_000.0;

/// The machine is quiet where the middle half of the ratios spread over at most this part of their median. Within a run the
/// median of 200 is then good to about 0.02; another run of the program may still find another one.
pub const QUIET: f64 = 0.25;

/// Nanoseconds a call in one run.
fn run(calls: usize, call: &mut dyn FnMut()) -> f64 {
    let start = Instant::now();
    for _ in 0..calls {
        call();
    }
    start.elapsed().as_nanos() as f64 / calls as f64
}

/// How many calls fill a run; finding out warms up, too.
fn calls_in_a_run(call: &mut dyn FnMut()) -> usize {
    let mut calls = 1;
    loop {
        let filled = run(calls, call) * calls as f64;
        if filled * 2.0 >= NANOSECONDS_A_RUN {
            return ((calls as f64 * NANOSECONDS_A_RUN / filled) as usize).max(1);
        }
        calls *= 2;
    }
}

/// Nanoseconds a call in each turn, for each implementation.
pub struct Times(Vec<Vec<f64>>);

impl Times {
    /// The least over all turns.
    pub fn least(&self, number: usize) -> f64 {
        self.0[number].iter().copied().fold(f64::INFINITY, f64::min)
    }

    /// The time of one implementation over that of another.
    pub fn ratio(&self, number: usize, other: usize) -> Ratio {
        let turns = self.0[number].iter().zip(&self.0[other]);
        let mut ratios: Vec<f64> = turns.map(|(own, other)| own / other).collect();
        ratios.sort_by(f64::total_cmp);
        let part = |quarters: usize| ratios[(ratios.len() - 1) * quarters / 4];
        Ratio {
            median: part(2),
            quiet: part(3) - part(1) <= QUIET * part(2),
        }
    }
}

/// The median of the ratios in each turn, and whether the machine was quiet: the middle half of them lie close together.
#[derive(Clone, Copy)]
pub struct Ratio {
    pub median: f64,
    pub quiet: bool,
}

/// Measures, where `call` makes one call of the implementation with that number.
pub fn measure(implementations: usize, mut call: impl FnMut(usize)) -> Times {
    let calls: Vec<usize> = (0..implementations)
        .map(|number| calls_in_a_run(&mut || call(number)))
        .collect();
    let mut times = vec![Vec::new(); implementations];
    for _ in 0..TURNS {
        for number in 0..implementations {
            times[number].push(run(calls[number], &mut || call(number)));
        }
    }
    Times(times)
}
