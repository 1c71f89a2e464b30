//! Times of bounds by degree and by the number of points. Ours check the table at each call; the Rust's are given a valid
//! one alone, and make it in full.
use super::calls::{BOX, CurveCase, SurfaceCase, bounded};
use crate::modules::timed::{Times, clamped, clamped_surface, time};
use crate::rng::Rng;
use oracle::{NurbsBounds, bound_curve, bound_surface};
use std::hint::black_box;

/// A part of some span of the knots 0, 1, 2 and so on.
fn range(r: &mut Rng, spans: usize) -> (f64, f64) {
    let s = r.below(spans as u64) as f64;
    let lo = s + 0.5 * r.unit();
    (lo, lo + (s + 1.0 - lo) * r.unit())
}

fn low(b: NurbsBounds) -> f64 {
    b.point[0].lo()
}

/// Our call, the Rust's on a table made before, and with the making of it.
fn timed<C, T>(
    (call, degree, points): (&str, usize, usize),
    rounds: u32,
    cases: &[C],
    ours: impl Fn(&C, &mut [f64]) -> u64,
    made: impl Fn(&C) -> T,
    rust: impl Fn(&C, &T) -> f64,
) -> Times {
    let mut out = [0.0; BOX];
    let mut done = true;
    let ours = time(rounds, cases, |c| {
        done &= ours(c, black_box(&mut out).as_mut_slice()) == 0;
        out[0]
    });
    assert!(done, "{call} was refused");
    let full = time(rounds, cases, |c| rust(c, &made(c)));
    let tables: Vec<(&C, T)> = cases.iter().map(|c| (c, made(c))).collect();
    let alone = time(rounds, &tables, |(c, table)| rust(c, table));
    Times::new(call, &[("degree", degree), ("points", points)], ours, alone, Some(full))
}

/// The whole box, or the point alone.
fn curve(call: &str, rounds: u32, degree: usize, points: usize, ours: fn(&CurveCase, &mut [f64]) -> u64) -> Times {
    let mut r = Rng::new(7, (degree * points) as u64);
    let case = |_| CurveCase { table: clamped(&mut r, degree, points), range: range(&mut r, points - degree) };
    let cases: Vec<CurveCase> = (0..if points > 1_000 { 4 } else { 16 }).map(case).collect();
    timed(
        (call, degree, points),
        rounds,
        &cases,
        ours,
        |c| c.table.rust().expect("valid"),
        |c, made| bound_curve(made, bounded(c.range)).map_or(0.0, low),
    )
}

fn surface(rounds: u32, degree: usize, side: usize) -> Times {
    let mut r = Rng::new(7, degree as u64);
    let mut case = || {
        let table = clamped_surface(&mut r, degree, side);
        SurfaceCase { table, u: range(&mut r, side - degree), v: range(&mut r, side - degree) }
    };
    let cases: Vec<SurfaceCase> = (0..16).map(|_| case()).collect();
    timed(
        ("bound_surface", degree, side * side),
        rounds,
        &cases,
        SurfaceCase::ours,
        |s| s.table.rust().expect("valid"),
        |s, made| bound_surface(made, bounded(s.u), bounded(s.v)).map_or(0.0, low),
    )
}

pub fn table(rounds: u32) -> Vec<Times> {
    const DEGREES: [usize; 6] = [1, 2, 3, 5, 10, 20];
    let boxed = |degree, points| curve("bound_curve", rounds, degree, points, CurveCase::ours);
    let alone = |degree, points| curve("bound_point", rounds, degree, points, CurveCase::ours_point);
    let by_degree = DEGREES.map(|degree| boxed(degree, 24));
    let by_points = [10, 1_000, 100_000].map(|points| boxed(3, points));
    let points_by_degree = DEGREES.map(|degree| alone(degree, 24));
    let points_by_points = [10, 1_000].map(|points| alone(3, points));
    let surfaces = [1, 2, 3, 5].map(|degree| surface(rounds, degree, 8));
    let points = points_by_degree.into_iter().chain(points_by_points);
    by_degree.into_iter().chain(by_points).chain(points).chain(surfaces).collect()
}
