//! Runs in pairs: two programs in turn, each for some milliseconds, so that what else the machine does meets both alike.

use std::time::Duration;

pub const PAIRS: usize = 400;
pub const RUN_INSTRUCTIONS: u32 = 1_000_000;

const MILLION: f64 = 1e6;

pub struct Pairs(Vec<(Duration, Duration)>);

/// The numbers that a tenth, a half and nine tenths of the given ones do not reach.
fn spread(mut numbers: Vec<f64>) -> [f64; 3] {
    numbers.sort_by(|a, b| a.partial_cmp(b).expect("no time is zero"));
    [1, 5, 9].map(|tenths| numbers[numbers.len() * tenths / 10])
}

fn speed(time: Duration) -> f64 {
    f64::from(RUN_INSTRUCTIONS) / MILLION / time.as_secs_f64()
}

impl Pairs {
    /// Each is told how many instructions to run, and says how long that took.
    pub fn taken(
        mut first: impl FnMut(u32) -> Duration,
        mut second: impl FnMut(u32) -> Duration,
    ) -> Pairs {
        Pairs(
            (0..PAIRS)
                .map(|_| (first(RUN_INSTRUCTIONS), second(RUN_INSTRUCTIONS)))
                .collect(),
        )
    }

    /// Medians of both speeds, in million instructions a second.
    pub fn speeds(&self) -> [f64; 2] {
        let median = |times: Vec<Duration>| spread(times.into_iter().map(speed).collect())[1];
        [
            median(self.0.iter().map(|pair| pair.0).collect()),
            median(self.0.iter().map(|pair| pair.1).collect()),
        ]
    }

    /// The first's time over the second's: what a tenth of the pairs do not reach, the median, what nine tenths do not reach.
    pub fn ratios(&self) -> [f64; 3] {
        spread(
            self.0
                .iter()
                .map(|(first, second)| first.as_secs_f64() / second.as_secs_f64())
                .collect(),
        )
    }
}
