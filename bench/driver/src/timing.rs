//! Times: the least of many repetitions, in each of which every way of doing the work has its turn.

use std::hint::black_box;
use std::time::{Duration, Instant};

const REPETITIONS: usize = 200;

/// A batch is long enough for the clock.
const BATCH: Duration = Duration::from_micros(20);

/// One way of doing a piece of work: it is done so many times, and the time is told.
pub struct Way<'a>(Box<dyn FnMut(usize) -> Duration + 'a>);

impl<'a> Way<'a> {
    /// What the work answers is kept until the clock is read, so that freeing it is not counted.
    pub fn new<T>(mut work: impl FnMut() -> T + 'a) -> Self {
        Way(Box::new(move |times| {
            let mut kept = Vec::with_capacity(times);
            let start = Instant::now();
            for _ in 0..times {
                kept.push(black_box(work()));
            }
            start.elapsed()
        }))
    }

    /// How often the work is to be done in a batch.
    fn times(&mut self) -> usize {
        let mut times = 1;
        while times < 4096 && (self.0)(times).min((self.0)(times)) < BATCH {
            times *= 2;
        }
        times
    }
}

/// The microseconds that the work takes, for each way.
pub fn least(mut ways: Vec<Way>) -> Vec<f64> {
    let times: Vec<usize> = ways.iter_mut().map(Way::times).collect();
    let mut least = vec![f64::MAX; ways.len()];
    for turn in 0..REPETITIONS {
        for k in 0..ways.len() {
            let way = (turn + k) % ways.len();
            let batch = (ways[way].0)(times[way]);
            let each = batch.as_nanos() as f64 / 1000.0 / times[way] as f64;
            least[way] = least[way].min(each);
        }
    }
    least
}
