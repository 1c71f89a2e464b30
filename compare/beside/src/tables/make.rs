//! How tables are made: mostly valid, often at an edge, now and then broken in one place.
use super::{Curve, LIMIT, Surface, spoil};
use crate::doubles::double;
use crate::rng::Rng;

const T: f64 = f64::from_bits(1);

/// Degrees from 1 to 66; of 1000 cases `steep[k]` have a degree up to MOST[k], and the others 1.
pub fn degree(r: &mut Rng, steep: &[u64; 6]) -> usize {
    const MOST: [usize; 6] = [2, 3, 5, 10, 20, 66];
    let mut at = r.below(1000);
    for (most, share) in MOST.iter().zip(steep) {
        if at < *share {
            return if *most == 66 && r.below(2) == 0 { r.pick(&[63, 64, 65, 66]) } else { 1 + r.below(*most as u64) as usize };
        }
        at -= share;
    }
    1
}

/// How many points: degree + 1 and a few more.
pub fn count(r: &mut Rng, degree: usize) -> usize {
    degree + 1 + if r.below(16) == 0 { r.below(40) } else { r.below(6) } as usize
}

/// Where a run of rising values starts, and how it rises.
fn rising(r: &mut Rng, n: usize) -> Vec<f64> {
    let style = r.below(12);
    let (mut x, step) = match style {
        0..4 => (0.0, 1.0),
        4 | 5 => (r.unit() * 4.0 - 2.0, 1.0),
        6 => (T * (r.below(5) as f64 - 2.0), T),
        7 => (-(n as f64) * 5e306, 1e307),
        8 => (4_503_599_627_370_496.0 - r.below(4) as f64, 1.0),
        9 => (0.0, f64::MIN_POSITIVE),
        10 => {
            // Far apart, as 0, 2^-60, 1.
            let mut x = -1.0f64;
            return (0..n)
                .map(|i| {
                    x = if i == 0 { 0.0 } else { (x * 2f64.powi(r.below(50) as i32)).max(2f64.powi(-60)) + x };
                    x
                })
                .collect();
        }
        _ => {
            let mut xs: Vec<f64> = (0..n).map(|_| double(r)).filter(|x| x.is_finite()).collect();
            xs.resize(n, 0.0);
            xs.sort_by(f64::total_cmp);
            return xs;
        }
    };
    let whole = style < 3 || style >= 6;
    (0..n)
        .map(|_| {
            let at = x;
            x += step * if whole { (1 + r.below(3)) as f64 } else { r.unit() + 0.01 };
            at
        })
        .collect()
}

/// Knots of the right number, in order: clamped or not, with repeated knots up to full breaks, and zeros of both signs.
pub fn knots(r: &mut Rng, degree: usize, count: usize) -> Vec<f64> {
    let n = count + degree + 1;
    let (first, last) = match r.below(8) {
        0 => (1, 1),
        1 => (1 + r.below(degree as u64 + 1) as usize, degree + 1),
        _ => (degree + 1, degree + 1),
    };
    let mut times = vec![first];
    let mut left = n - first;
    let style = r.below(4);
    while left > last {
        let m = match style {
            0 | 1 => 1,
            2 => 1 + r.below(2) as usize,
            _ => 1 + r.below(degree as u64 + 1) as usize,
        };
        let m = m.min(left - last);
        times.push(m);
        left -= m;
    }
    times.push(left);
    let values = rising(r, times.len());
    let mut knots = Vec::with_capacity(n);
    for (x, m) in values.iter().zip(&times) {
        for _ in 0..*m {
            knots.push(if *x == 0.0 && r.below(4) == 0 { -*x } else { *x });
        }
    }
    knots
}

pub fn points(r: &mut Rng, count: usize) -> Vec<f64> {
    let style = r.below(16);
    let mut one = |_| match style {
        0..6 => r.unit() * 4.0 - 2.0,
        6 | 7 => r.below(9) as f64 - 4.0,
        8 | 9 => 1e6 + r.unit(),
        10 => 1e300 * (r.unit() - 0.5),
        11 => T * (r.below(9) as f64 - 4.0),
        12 => 3.5,
        13 => [f64::MAX, -f64::MAX, 0.0, -0.0, 1.0][r.below(5) as usize],
        _ => {
            let x = double(r);
            if x.is_finite() { x } else { 0.5 }
        }
    };
    (0..3 * count).map(&mut one).collect()
}

pub fn weights(r: &mut Rng, count: usize) -> Vec<f64> {
    let style = r.below(16);
    let mut one = |_| match style {
        0..7 => 0.1 + r.unit(),
        7 => 1.0,
        8 | 9 => [1.0, 0.5, std::f64::consts::FRAC_1_SQRT_2][r.below(3) as usize],
        10 => 2f64.powi(r.below(200) as i32 - 100),
        11 => 2f64.powi(r.below(2040) as i32 - 1020),
        12 => [T, 4.0, f64::MAX, 1.0][r.below(4) as usize],
        13 => T,
        14 => f64::MAX * (0.5 + 0.5 * r.unit()),
        _ => {
            let x = double(r).abs();
            if x.is_finite() && x > 0.0 { x } else { 1.0 }
        }
    };
    (0..count).map(&mut one).collect()
}

/// A run over its limit, or one that just keeps to it.
fn long(r: &mut Rng) -> Vec<f64> {
    vec![1.0; LIMIT + r.below(3) as usize]
}

/// How degrees are spread, how many of 64 tables are broken, and one in how many has a run of about LIMIT numbers.
pub struct Care {
    pub steep: [u64; 6],
    pub broken: u64,
    pub long: u64,
}

pub fn curve(r: &mut Rng, care: &Care) -> Curve {
    let degree = degree(r, &care.steep);
    let count = count(r, degree);
    let rational = r.below(2) == 0;
    let mut c = Curve { degree, knots: knots(r, degree, count), points: points(r, count), rational, weights: weights(r, count) };
    if r.below(64) < care.broken {
        for _ in 0..1 + r.below(2) {
            if r.below(3) < 2 && c.knots.len() == c.count() + c.degree + 1 && c.count() > c.degree {
                let mut count = c.count();
                spoil::knots(r, &mut c.degree, &mut count, &mut c.knots);
            } else {
                spoil::rest(r, &mut c.points, rational, &mut c.weights);
            }
        }
    }
    if r.below(care.long) == 0 {
        match r.below(3) {
            0 => c.knots = long(r),
            1 => c.points = long(r),
            _ => c.weights = long(r),
        }
    }
    c
}

/// A valid curve whose points keep to the limit.
pub fn long_curve(r: &mut Rng) -> Curve {
    let degree = 1 + r.below(3) as usize;
    let count = LIMIT / 3;
    let knots = (0..count + degree + 1).map(|i| i as f64).collect();
    Curve { degree, knots, points: vec![0.5; 3 * count], rational: true, weights: vec![2.0; count] }
}

pub fn surface(r: &mut Rng, care: &Care) -> Surface {
    let mut s = Surface { degrees: [degree(r, &care.steep), degree(r, &care.steep)], ..Surface::default() };
    if s.degrees.iter().all(|d| *d > 10) {
        s.degrees[r.below(2) as usize] = 1 + r.below(3) as usize;
    }
    for k in 0..2 {
        s.counts[k] = s.degrees[k] + 1 + r.below(4) as usize;
        s.knots[k] = knots(r, s.degrees[k], s.counts[k]);
    }
    let net = s.counts[0] * s.counts[1];
    s.rational = r.below(2) == 0;
    s.points = points(r, net);
    s.weights = weights(r, net);
    if r.below(64) < care.broken {
        for _ in 0..1 + r.below(2) {
            let k = r.below(2) as usize;
            match r.below(6) {
                0 | 1 | 2
                    if s.counts[k] > s.degrees[k] && Some(s.knots[k].len()) == s.counts[k].checked_add(s.degrees[k] + 1) =>
                {
                    spoil::knots(r, &mut s.degrees[k], &mut s.counts[k], &mut s.knots[k])
                }
                3 => spoil::counts(r, &mut s),
                _ => spoil::rest(r, &mut s.points, s.rational, &mut s.weights),
            }
        }
    }
    if r.below(care.long) == 0 {
        match r.below(4) {
            0 => s.knots[0] = long(r),
            1 => s.knots[1] = long(r),
            2 => s.points = long(r),
            _ => s.weights = long(r),
        }
    }
    s
}
