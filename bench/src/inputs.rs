//! The stated inputs, the same in every run.

use crate::random::Random;

/// So many that the branch predictor does not learn them by heart.
pub const COUNT: usize = 8192;

/// COUNT inputs, each drawn by `draw`.
pub fn many<const N: usize>(mut draw: impl FnMut(&mut Random) -> [f64; N]) -> Vec<[f64; N]> {
    let mut random = Random::new(7);
    (0..COUNT).map(|_| draw(&mut random)).collect()
}

/// From 0 to 1.
pub fn uniform(random: &mut Random) -> f64 {
    (random.word() >> 11) as f64 / (1u64 << 53) as f64
}

pub fn between(random: &mut Random, low: f64, high: f64) -> f64 {
    low + (high - low) * uniform(random)
}

pub fn log_between(random: &mut Random, low: f64, high: f64) -> f64 {
    between(random, low.ln(), high.ln()).exp()
}

/// [1e-3, 1e3], log-uniform: the entries' arguments.
pub fn moderate(random: &mut Random) -> f64 {
    log_between(random, 1e-3, 1e3)
}
