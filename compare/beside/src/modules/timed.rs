//! Times of calls, and the tables that they are measured on, for the modules' benches.
use crate::rng::Rng;
use crate::tables::{Curve, Surface};
use std::fmt;
use std::hint::black_box;
use std::time::Instant;

/// How long a round lasts at least, in seconds: short, so that some are not interrupted.
const ROUND: f64 = 0.001;

/// Nanoseconds per call over all cases, the best of `rounds`. The answers are summed by their bits: a whole number stays in a
/// register across a call, and a double would wait for the memory.
pub fn time<T>(rounds: u32, cases: &[T], mut f: impl FnMut(&T) -> f64) -> f64 {
    let mut round = |passes: usize| {
        let start = Instant::now();
        let mut sum = 0u64;
        for _ in 0..passes {
            for x in black_box(cases) {
                sum = sum.wrapping_add(f(x).to_bits());
            }
        }
        black_box(sum);
        start.elapsed().as_secs_f64()
    };
    let passes = (ROUND / round(1)).ceil().clamp(1.0, 1e6) as usize;
    let best = (0..rounds).map(|_| round(passes)).fold(f64::INFINITY, f64::min);
    best * 1e9 / (cases.len() * passes) as f64
}

/// Nanoseconds of a call: ours, the Rust's on a table that was made before, and the Rust's with all that our call does.
pub struct Times {
    call: String,
    sizes: String,
    ours: f64,
    alone: f64,
    full: Option<f64>,
    /// Of the Rust's own time, what it takes for copies alone.
    copies: f64,
}

impl Times {
    pub fn new(call: &str, sizes: &[(&str, usize)], ours: f64, alone: f64, full: Option<f64>) -> Self {
        let sizes: Vec<String> = sizes.iter().map(|(name, n)| format!("{name}={n}")).collect();
        Self { call: call.into(), sizes: sizes.join(" "), ours, alone, full, copies: 0.0 }
    }

    pub fn less_copies(self, copies: f64) -> Self {
        Self { copies, ..self }
    }

    /// The best of two sweeps.
    pub fn best(self, other: Self) -> Self {
        Self {
            ours: self.ours.min(other.ours),
            alone: self.alone.min(other.alone),
            full: self.full.zip(other.full).map(|(a, b)| a.min(b)),
            copies: self.copies.min(other.copies),
            ..self
        }
    }
}

/// A line for compare/bench; a dash where there is no time.
impl fmt::Display for Times {
    fn fmt(&self, f: &mut fmt::Formatter) -> fmt::Result {
        let alone = (self.alone - self.copies).max(0.1);
        let full = self.full.map_or("-".into(), |t| format!("{t:.3}"));
        write!(f, "{}\t{}\t{:.3}\t{alone:.3}\t{full}", self.call, self.sizes, self.ours)
    }
}

/// A rational curve with knots 0, 1, 2 and so on, clamped.
pub fn clamped(r: &mut Rng, degree: usize, count: usize) -> Curve {
    let last = (count - degree) as f64;
    Curve {
        degree,
        knots: (0..count + degree + 1).map(|i| (i as f64 - degree as f64).clamp(0.0, last)).collect(),
        points: (0..3 * count).map(|_| r.unit()).collect(),
        rational: true,
        weights: (0..count).map(|_| 0.5 + r.unit()).collect(),
    }
}

/// A rational surface of `side` by `side` points, with such knots both ways.
pub fn clamped_surface(r: &mut Rng, degree: usize, side: usize) -> Surface {
    let Curve { knots, .. } = clamped(r, degree, side);
    Surface {
        degrees: [degree; 2],
        knots: [knots.clone(), knots],
        counts: [side; 2],
        points: (0..3 * side * side).map(|_| r.unit()).collect(),
        rational: true,
        weights: (0..side * side).map(|_| 0.5 + r.unit()).collect(),
    }
}
