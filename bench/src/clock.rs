//! Times. The sides of a comparison take turns, eleven rounds of them; a round's figure is the median of a turn's calls, and what is
//! shown is the median of the rounds. Ratios are taken round by round, since the machine's speed changes. Of the check of the book, and of
//! what stands beside it, the least of many short rounds is shown, and its ratio: other users of the machine's memory add to both sides'
//! times, and not equally.
use std::time::Instant;

const ROUNDS: usize = 11;
/// How many short rounds there are of which the least is shown, and how many calls in a row a side makes in each.
pub const SHORT_ROUNDS: usize = 2_500;
const SHORT_CALLS: usize = 8;
/// How long a turn lasts, about, in ns.
const TURN: f64 = 1_500_000.0;

fn median(mut v: Vec<f64>) -> f64 {
    v.sort_by(f64::total_cmp);
    v[v.len() / 2]
}

/// A side's rounds, each in ns a call.
#[derive(Clone)]
pub struct Time(Vec<f64>);

impl Time {
    pub fn ns(&self) -> f64 {
        median(self.0.clone())
    }
    pub fn least(&self) -> f64 {
        self.0.iter().copied().fold(f64::MAX, f64::min)
    }
    /// How far the slowest round lies above the fastest, in % of the median.
    pub fn noise(&self) -> f64 {
        let (low, high) = self.0.iter().fold((f64::MAX, f64::MIN), |(l, h), &x| (l.min(x), h.max(x)));
        (high - low) / self.ns() * 100.0
    }
    pub fn less(&self, other: &Time) -> Time {
        Time(self.0.iter().zip(&other.0).map(|(x, y)| x - y).collect())
    }
    pub fn ratio(&self, other: &Time) -> f64 {
        median(self.0.iter().zip(&other.0).map(|(x, y)| x / y).collect())
    }
}

/// How long `f` takes, in ns. Reading the clock takes part of it: some 20 ns.
pub fn timed<T>(f: impl FnOnce() -> T) -> f64 {
    let t = Instant::now();
    std::hint::black_box(f());
    t.elapsed().as_nanos() as f64
}

/// The mean of so many calls in a row, of a call that leaves things as they were.
fn row<T>(calls: usize, f: &mut impl FnMut() -> T) -> f64 {
    timed(|| {
        for _ in 0..calls {
            std::hint::black_box(f());
        }
    }) / calls as f64
}

/// The same for a call that leaves things as they were: the mean of 64 calls in a row.
pub fn repeated<T>(mut f: impl FnMut() -> T) -> f64 {
    row(64, &mut f)
}

/// The times of two such calls in short rounds, in which they take turns.
pub fn short<T, U>(mut f: impl FnMut() -> T, mut g: impl FnMut() -> U) -> [Time; 2] {
    let (a, b) = (0..SHORT_ROUNDS).map(|_| (row(SHORT_CALLS, &mut f), row(SHORT_CALLS, &mut g))).unzip();
    [Time(a), Time(b)]
}

/// Each side's time. A side runs one call, with what it needs before and after it, and says how long the call took.
pub fn times(sides: &mut [&mut dyn FnMut() -> f64]) -> Vec<Time> {
    let reps: Vec<usize> = sides
        .iter_mut()
        .map(|side| {
            side();
            side();
            ((TURN / timed(&mut **side)) as usize).clamp(5, 2_000)
        })
        .collect();
    let mut all = vec![Time(Vec::new()); sides.len()];
    for _ in 0..ROUNDS {
        for (i, side) in sides.iter_mut().enumerate() {
            all[i].0.push(median((0..reps[i]).map(|_| side()).collect()));
        }
    }
    all
}
