//! Times of calls, which have their turns one after the other.

use std::hint::black_box;
use std::time::Instant;

/// A sample lasts at least so long, so that the clock's steps don't show.
const SAMPLE_NANOSECONDS: f64 = 50_000.0;

/// Nanoseconds of one call, as often as it was measured.
#[derive(Clone, Default)]
pub struct Samples(Vec<f64>);

impl Samples {
    /// Nothing if none was taken.
    pub fn times(&self) -> Option<Times> {
        let mut rising = self.0.clone();
        rising.sort_by(f64::total_cmp);
        let at = |part: usize| rising[(rising.len() - 1) * part / 4];
        (!rising.is_empty()).then(|| Times { median: at(2), low: at(1), high: at(3) })
    }
}

/// The median of all samples, and the middle half of them.
#[derive(Clone, Copy)]
pub struct Times {
    pub median: f64,
    low: f64,
    high: f64,
}

impl Times {
    /// How far the middle half of the samples reaches, in hundredths of the median.
    pub fn spread(self) -> f64 {
        100.0 * (self.high - self.low) / self.median
    }
}

/// One program's call of an operation; what it gives as a number.
pub type Call<'a> = Box<dyn FnMut() -> usize + 'a>;

fn sample(times: usize, call: &mut Call) -> f64 {
    let began = Instant::now();
    for _ in 0..times {
        black_box(call());
    }
    began.elapsed().as_nanos() as f64 / times as f64
}

fn times_for(call: &mut Call) -> usize {
    // The first call warms up.
    sample(1, call);
    (SAMPLE_NANOSECONDS / sample(3, call)).ceil().clamp(1.0, 100_000.0) as usize
}

/// Adds so many samples of each call, one of each in turn.
pub fn measure(rounds: usize, calls: &mut [Call], mut samples: Vec<&mut Samples>) {
    let times: Vec<usize> = calls.iter_mut().map(times_for).collect();
    for _ in 0..rounds {
        for (i, call) in calls.iter_mut().enumerate() {
            samples[i].0.push(sample(times[i], call));
        }
    }
}
