//! How tables are broken: one thing at a time, often at the front or at the end.
use super::Surface;
use super::at::NOT_FINITE;
use crate::rng::Rng;

/// A place of a run that has some, often the first or the last.
fn place(r: &mut Rng, n: usize) -> usize {
    match r.below(8) {
        0 => 0,
        1 => n - 1,
        _ => r.below(n as u64) as usize,
    }
}

/// Places to go wrong: one of a run that has n, and now and then another.
fn wrong(r: &mut Rng, n: usize) -> Vec<usize> {
    (0..n.min(1 + r.below(4) as usize / 3)).map(|_| place(r, n)).collect()
}

fn numbers(r: &mut Rng, run: &mut [f64], with: &[f64]) {
    for at in wrong(r, run.len()) {
        run[at] = r.pick(with);
    }
}

fn resize(r: &mut Rng, run: &mut Vec<f64>) {
    match r.below(4) {
        0 => run.clear(),
        1 => run.push(1.0),
        _ => {
            run.pop();
        }
    }
}

/// One thing wrong with knots; the degree and the count may change.
pub fn knots(r: &mut Rng, degree: &mut usize, count: &mut usize, knots: &mut Vec<f64>) {
    match r.below(9) {
        0 => *degree = 0,
        1 => *degree = *count,
        2 => *degree = r.pick(&[usize::MAX, usize::MAX - 1, usize::MAX / 2, *degree + 1]),
        3 => resize(r, knots),
        4 => numbers(r, knots, &NOT_FINITE),
        5 => {
            for at in wrong(r, knots.len()) {
                knots[at] += if r.below(2) == 0 { 1.5 } else { -1.5 };
            }
        }
        6 => {
            let x = knots[*degree];
            knots[*degree..=*count].fill(x);
        }
        7 => {
            for at in wrong(r, *count) {
                let x = knots[at];
                let end = (at + *degree + 2).min(knots.len());
                knots[at..end].fill(x);
            }
        }
        _ => {
            for k in knots.iter_mut() {
                *k = if *k > 0.0 { f64::MAX } else { -f64::MAX };
            }
            let middle = knots.len() / 2;
            knots[..middle].fill(-f64::MAX);
            knots[middle..].fill(f64::MAX);
        }
    }
}

pub fn rest(r: &mut Rng, points: &mut Vec<f64>, rational: bool, weights: &mut Vec<f64>) {
    match r.below(if rational { 7 } else { 3 }) {
        0 | 1 => numbers(r, points, &NOT_FINITE),
        2 => resize(r, points),
        3 | 4 => resize(r, weights),
        _ => numbers(r, weights, &[f64::NAN, f64::INFINITY, 0.0, -0.0, -1.0]),
    }
}

/// Counts that are swapped, wrong, or whose product overflows, also to the right number.
pub fn counts(r: &mut Rng, s: &mut Surface) {
    match r.below(6) {
        0 => s.counts.swap(0, 1),
        1 => s.counts[r.below(2) as usize] += 1,
        2 => s.counts[r.below(2) as usize] = 0,
        3 => s.counts = [usize::MAX, r.below(3) as usize],
        4 => {
            s.counts = [1 << 63, 2];
            s.points.clear();
        }
        _ => {
            s.counts = [usize::MAX, 0];
            s.points.clear();
        }
    }
}
