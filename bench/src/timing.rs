//! Times in milliseconds.
use std::time::Instant;

/// The time of one run, with what it gave.
pub fn once<T>(work: impl FnOnce() -> T) -> (f64, T) {
    let start = Instant::now();
    let gave = work();
    (start.elapsed().as_secs_f64() * 1000.0, gave)
}

/// The shortest of several runs.
pub fn best<T>(runs: usize, mut work: impl FnMut() -> T) -> (f64, T) {
    let mut best = once(&mut work);
    for _ in 1..runs {
        let again = once(&mut work);
        if again.0 < best.0 {
            best = again;
        }
    }
    best
}

/// Where turns take longer than this many seconds, three of them suffice.
const LONG: f64 = 4.0;

/// The shortest of several runs of each thing, by turns, so that a busy machine hurts all alike.
pub fn best_by_turns<T, const N: usize>(turns: usize, mut works: [&mut dyn FnMut() -> T; N]) -> [(f64, T); N] {
    let start = Instant::now();
    let mut best = works.each_mut().map(once);
    for turn in 1..turns {
        if turn >= 3 && start.elapsed().as_secs_f64() > LONG {
            break;
        }
        for (best, work) in best.iter_mut().zip(&mut works) {
            let again = once(work);
            if again.0 < best.0 {
                *best = again;
            }
        }
    }
    best
}
