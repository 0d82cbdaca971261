//! Times the sides of a race in turn, many times over.

use std::fmt;
use std::hint::black_box;
use std::time::{Duration, Instant};

/// How often each side is timed.
pub const ROUNDS: usize = 31;

/// How long a side is timed each time, or one pass if that is longer.
const PERIOD: Duration = Duration::from_millis(5);

/// What is timed: a pass over inputs, which makes so many calls.
pub struct Side<'a> {
    name: &'static str,
    calls: usize,
    pass: Box<dyn FnMut() -> u64 + 'a>,
    /// Passes of a round.
    passes: u32,
    /// Nanoseconds of a call, round by round.
    times: Vec<f64>,
}

impl<'a> Side<'a> {
    /// The number that a pass returns depends on all that it does, so that
    /// nothing of it can be left out.
    pub fn new(name: &'static str, calls: usize, pass: impl FnMut() -> u64 + 'a) -> Self {
        Self {
            name,
            calls,
            pass: Box::new(pass),
            passes: 1,
            times: Vec::with_capacity(ROUNDS),
        }
    }

    fn time(&mut self) -> Duration {
        let begin = Instant::now();
        for _ in 0..self.passes {
            black_box((self.pass)());
        }
        begin.elapsed()
    }

    /// Finds how many passes fill the period; the inputs are warm afterwards.
    fn calibrate(&mut self) {
        while self.time() < PERIOD {
            self.passes *= 2;
        }
    }

    fn time_round(&mut self) {
        let calls = f64::from(self.passes) * self.calls as f64;
        let nanoseconds = self.time().as_nanos() as f64;
        self.times.push(nanoseconds / calls);
    }

    /// Nanoseconds of a call: 5th percentile, median, 95th percentile.
    pub fn spread(&self) -> [f64; 3] {
        let mut times = self.times.clone();
        times.sort_by(f64::total_cmp);
        let last = times.len() - 1;
        [last * 5 / 100, last / 2, last - last * 5 / 100].map(|place| times[place])
    }

    pub fn median(&self) -> f64 {
        self.spread()[1]
    }
}

impl fmt::Display for Side<'_> {
    fn fmt(&self, formatter: &mut fmt::Formatter<'_>) -> fmt::Result {
        let [low, median, high] = self.spread();
        let name = self.name;
        write!(
            formatter,
            "  {name:<24} {median:>12.1} ns  ({low:.1} to {high:.1})"
        )
    }
}

/// Sides that do the same, or parts of one thing. The first is what the second
/// is measured by.
pub struct Race<'a> {
    pub name: String,
    /// What it is about, and what its inputs are.
    pub about: String,
    pub sides: Vec<Side<'a>>,
}

impl Race<'_> {
    /// The second side's median over the first's.
    pub fn ratio(&self) -> f64 {
        self.sides[1].median() / self.sides[0].median()
    }
}

impl fmt::Display for Race<'_> {
    fn fmt(&self, formatter: &mut fmt::Formatter<'_>) -> fmt::Result {
        writeln!(formatter, "{}: {}", self.name, self.about)?;
        for side in &self.sides {
            writeln!(formatter, "{side}")?;
        }
        Ok(())
    }
}

/// Runs all races, round by round, so that what disturbs the machine disturbs
/// them alike. Each round has the sides in the other order.
pub fn run(races: &mut [Race]) {
    for side in races.iter_mut().flat_map(|race| &mut race.sides) {
        side.calibrate();
    }
    for round in 0..ROUNDS {
        for race in races.iter_mut() {
            if round % 2 == 0 {
                race.sides.iter_mut().for_each(Side::time_round);
            } else {
                race.sides.iter_mut().rev().for_each(Side::time_round);
            }
        }
    }
}
