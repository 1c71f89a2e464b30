//! Curves whose coordinates have no difference, and numbers next to 0: what is slow or rounds most in a bound.
use crate::rng::Rng;
use crate::tables::Curve;

const T: f64 = f64::from_bits(1);

/// What a run has to meet.
pub const FEATURES: [&str; 6] =
    ["a coordinate all equal", "z all 0", "y all equal", "points all equal", "weights 2^1074 apart", "knots a few 2^-1074 apart"];

fn is_finite(run: &[f64]) -> bool {
    run.iter().all(|x| x.is_finite())
}

/// Five curves in eight lie in a plane z = 0, dwell in y, or are one point; one rational one in eight has weights from 2^-1074 to 1.
/// What is not finite stays.
pub fn flattened(r: &mut Rng, c: &mut Curve) {
    let style = r.below(8);
    if let Some(&[x, y, z]) = c.points.first_chunk()
        && is_finite(&c.points)
    {
        let zero = if r.below(4) == 0 { -0.0 } else { 0.0 };
        for p in c.points.chunks_exact_mut(3) {
            match style {
                0 | 1 => p[2] = zero,
                2 | 3 => p[1] = y,
                4 => p.copy_from_slice(&[x, y, z]),
                _ => {}
            }
        }
    }
    if r.below(8) == 0 && is_finite(&c.weights) && c.weights.iter().all(|w| *w > 0.0) {
        for w in &mut c.weights {
            *w = if r.below(2) == 0 { 1.0 } else { T * 2f64.powi(r.below(60) as i32 / 4) };
        }
    }
}

/// Adds to what FEATURES names, of a table that is no longer than most.
pub fn features(c: &Curve, seen: &mut [u64]) {
    if c.points.len() > 4000 || c.knots.len() > 4000 || c.weights.len() > 4000 {
        return;
    }
    let all = |k: usize, is: &dyn Fn(f64) -> bool| !c.points.is_empty() && c.points.chunks_exact(3).all(|p| is(p[k]));
    let equal = |k: usize| all(k, &|x| x == c.points[k]);
    let most = c.weights.iter().fold(0.0f64, |a, w| a.max(*w));
    seen[0] += [0, 1, 2].into_iter().any(equal) as u64;
    seen[1] += all(2, &|z| z == 0.0) as u64;
    seen[2] += equal(1) as u64;
    seen[3] += [0, 1, 2].into_iter().all(equal) as u64;
    seen[4] += (c.rational && c.weights.contains(&T) && (1.0..f64::INFINITY).contains(&most)) as u64;
    seen[5] += c.knots.windows(2).any(|k| 0.0 < k[1] - k[0] && k[1] - k[0] <= 8.0 * T) as u64;
}
