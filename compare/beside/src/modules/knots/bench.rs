//! Times of find_span, its search alone, and the validation of a curve, by the number of points.
use super::calls::{Run, our_span, span};
use crate::face::tasulogi_curve_refusal;
use crate::modules::timed::{Times, clamped, time};
use crate::rng::Rng;
use crate::steps::tasulogi_step_span_of;
use crate::tables::Curve;
use crate::tables::domain::Mode;
use oracle::{BCurve, Point3, find_span};
use std::hint::black_box;

const DEGREE: usize = 3;

/// The Rust's search is alone; in full it has the checks of `BCurve::new` before it.
fn spans(rounds: u32, c: &Curve, us: &[f64]) -> [Times; 2] {
    let k = Run { degree: DEGREE, count: c.count(), knots: &c.knots };
    let sizes = [("degree", DEGREE), ("points", k.count)];
    let few = if k.count > 10_000 { &us[..16] } else { us };
    let alone = time(rounds, us, |&u| find_span(k.count - 1, DEGREE, u, k.knots) as f64);
    let full = time(rounds, few, |&u| span(&k, u, Mode::Refusing).map_or(0.0, |s| s as f64));
    let ours = time(rounds, few, |&u| our_span(&k, u, Mode::Refusing) as f64);
    let (at, n) = (c.knots.as_ptr(), c.knots.len());
    let search = time(rounds, us, |&u| unsafe { tasulogi_step_span_of(DEGREE, k.count, u, at, n) } as f64);
    [Times::new("find_span", &sizes, ours, alone, Some(full)), Times::new("span_of", &sizes, search, alone, None)]
}

/// In full the Rust's checks come with the copies that it takes; alone they are less the time of such copies.
fn validation(rounds: u32, c: &Curve) -> Times {
    let ours = time(rounds, &[c], |c| tasulogi_curve_refusal(c) as f64);
    let points: Vec<Point3> = c.points.chunks_exact(3).map(|p| Point3::new(p[0], p[1], p[2])).collect();
    let full = time(rounds, &[c], |c| {
        BCurve::new(DEGREE, c.knots.clone(), points.clone(), Some(c.weights.clone())).is_ok() as u32 as f64
    });
    let copies = time(rounds, &[c], |c| black_box((c.knots.clone(), points.clone(), c.weights.clone())).0.len() as f64);
    Times::new("validation", &[("degree", DEGREE), ("points", c.count())], ours, full, Some(full)).less_copies(copies)
}

pub fn table(rounds: u32) -> Vec<Times> {
    let tables = [10, 1_000, 100_000].map(|points| {
        let mut r = Rng::new(7, points as u64);
        let c = clamped(&mut r, DEGREE, points);
        let end = c.knots[points];
        let us: Vec<f64> = (0..1024).map(|_| r.unit() * end).collect();
        (c, us)
    });
    let spans = tables.iter().flat_map(|(c, us)| spans(rounds, c, us));
    spans.chain(tables.iter().map(|(c, _)| validation(rounds, c))).collect()
}
