//! Times of many items by the number of points and of items. The Rust's are its single calls one after the other, on a
//! table made before, and with the making of it once.
use crate::face::*;
use crate::modules::bounds::calls::{BOX, POINT, bounded};
use crate::modules::timed::{Times, clamped, time};
use crate::rng::Rng;
use crate::tables::Curve;
use oracle::{BCurve, bound_curve};
use std::hint::black_box;

/// Ours on one table, the Rust's on the same made before, and with the making of it.
fn timed(
    rounds: u32,
    (call, sizes): (&str, &[(&str, usize)]),
    table: &Curve,
    mut ours: impl FnMut() -> bool,
    rust: impl Fn(&BCurve) -> f64,
) -> Times {
    let mut done = true;
    let ours = time(rounds, &[()], |_| {
        done &= ours();
        0.0
    });
    assert!(done, "{call} was refused");
    let made = table.rust().expect("valid");
    let full = time(rounds, &[()], |_| rust(&table.rust().expect("valid")));
    let alone = time(rounds, &[()], |_| rust(&made));
    Times::new(call, sizes, ours, alone, Some(full))
}

fn points(rounds: u32, points: usize, many: usize) -> Times {
    let mut r = Rng::new(7, points as u64);
    let table = clamped(&mut r, 3, points);
    let end = table.knots[points];
    let ts: Vec<f64> = (0..many).map(|_| r.unit() * end).collect();
    let (mut numbers, mut rows) = (vec![0; many], vec![0.0; 6 * many]);
    timed(
        rounds,
        ("eval_many", &[("degree", 3), ("points", points), ("parameters", many)]),
        &table,
        || tasulogi_eval_many(&table, &ts, black_box(&mut numbers), black_box(&mut rows)) == 0,
        |c| ts.iter().map(|t| c.eval(*t).point.x).sum(),
    )
}

/// A call of all spans.
type Boxes = fn(&Curve, &mut [u32], &mut [f64]) -> u64;

fn spans(rounds: u32, points: usize, (name, width, call): (&str, usize, Boxes)) -> Times {
    let table = clamped(&mut Rng::new(7, points as u64), 3, points);
    let n = points - 3;
    let (mut marks, mut boxes) = (vec![0; 2 * n], vec![0.0; width * n]);
    timed(
        rounds,
        (name, &[("degree", 3), ("points", points)]),
        &table,
        || call(&table, black_box(&mut marks), black_box(&mut boxes)) == n as u64,
        |c| (0..n).map(|s| bound_curve(c, bounded((s as f64, s as f64 + 1.0))).map_or(0.0, |b| b.point[0].lo())).sum(),
    )
}

pub fn table(rounds: u32) -> Vec<Times> {
    let parameters = [(1_000, 10), (1_000, 1_000), (33_000, 1_000)].map(|(n, many)| points(rounds, n, many));
    let boxes = [10, 100, 1_000].map(|n| spans(rounds, n, ("bound_spans", BOX, tasulogi_bound_spans)));
    let alone = [10, 100, 1_000].map(|n| spans(rounds, n, ("bound_points", POINT, tasulogi_bound_points)));
    parameters.into_iter().chain(boxes).chain(alone).collect()
}
