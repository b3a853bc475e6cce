//! The timing rule: the least time of many batches, in which all take turns.

use std::hint::black_box;
use std::time::{Duration, Instant};

/// Who computes a total.
#[derive(Clone, Copy, PartialEq, Eq)]
pub enum Who {
    Ours,
    Original,
    Mpfr,
    MpfrSet,
    Fsum,
    Plain,
}

impl Who {
    pub const ALL: [Self; 6] = [Self::Ours, Self::Original, Self::Mpfr, Self::MpfrSet, Self::Fsum, Self::Plain];

    pub fn name(self) -> &'static str {
        match self {
            Self::Ours => "Fermuzhai",
            Self::Original => "original",
            Self::Mpfr => "mpfr_sum",
            Self::MpfrSet => "set_d, mpfr_sum",
            Self::Fsum => "math.fsum",
            Self::Plain => "plain loop",
        }
    }
}

/// One way to the same total.
pub struct Rival<'a> {
    pub who: Who,
    /// Its result, where it is the exact sum, rounded once.
    pub exact: Option<u64>,
    /// Makes so many calls, and tells how many nanoseconds they took.
    pub batch: Box<dyn FnMut(u32) -> f64 + 'a>,
}

impl<'a> Rival<'a> {
    pub fn new<T>(who: Who, exact: Option<u64>, mut call: impl FnMut() -> T + 'a) -> Self {
        let batch = move |calls| {
            let start = Instant::now();
            for _ in 0..calls {
                black_box(call());
            }
            start.elapsed().as_secs_f64() * 1e9
        };
        Self { who, exact, batch: Box::new(batch) }
    }
}

const BATCH: f64 = 200_000.0;
const ROUNDS: u32 = 100;
const LEAST_ROUNDS: u32 = 5;

/// How many calls make a batch of some 0.2 ms; each list has its turn equally often.
fn calls_in_batch(rival: &mut Rival, lists: u32) -> u32 {
    let mut calls = lists;
    while calls < 1 << 20 {
        let time = (rival.batch)(calls);
        if time >= BATCH {
            break;
        }
        calls *= 2;
    }
    calls
}

/// The least nanoseconds per call of each, where they take so many lists in turn. In each round each makes one batch.
pub fn measure(rivals: &mut [Rival], lists: usize, at_most: Duration) -> Vec<(Who, f64)> {
    let calls: Vec<u32> = rivals.iter_mut().map(|rival| calls_in_batch(rival, lists as u32)).collect();
    let mut least = vec![f64::INFINITY; rivals.len()];
    let start = Instant::now();
    for round in 0..ROUNDS {
        if round >= LEAST_ROUNDS && start.elapsed() > at_most {
            break;
        }
        for (place, rival) in rivals.iter_mut().enumerate() {
            let time = (rival.batch)(calls[place]) / f64::from(calls[place]);
            least[place] = least[place].min(time);
        }
    }
    rivals.iter().map(|rival| rival.who).zip(least).collect()
}
