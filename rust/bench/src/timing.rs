//! Times: the best of several runs, with the contenders in turn so that a slow moment of the machine meets them all.
use std::time::Instant;

/// A contender of a race.
pub struct Contender<'a> {
    pub name: &'a str,
    pub run: Box<dyn FnMut() + 'a>,
}

impl<'a> Contender<'a> {
    pub fn new(name: &'a str, run: impl FnMut() + 'a) -> Contender<'a> {
        Contender { name, run: Box::new(run) }
    }
}

/// The best time of each contender in seconds.
pub fn race(runs: u32, contenders: &mut [Contender]) -> Vec<f64> {
    let mut best = vec![f64::INFINITY; contenders.len()];
    for _ in 0..runs {
        for (contender, best) in contenders.iter_mut().zip(&mut best) {
            *best = best.min(seconds(&mut contender.run));
        }
    }
    best
}

/// The time of one run in seconds.
pub fn seconds(run: impl FnOnce()) -> f64 {
    let start = Instant::now();
    run();
    start.elapsed().as_secs_f64()
}
