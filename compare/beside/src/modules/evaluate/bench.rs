//! Times of the basis step by degree, and of whole evaluations by the number of points. `eval_at` is beside the Rust on
//! a table made before; the others check the table at each call, as the Rust does in full.
use super::calls::{CurveCase, Order, SurfaceCase};
use crate::modules::timed::{Times, clamped, clamped_surface, time};
use crate::rng::Rng;
use crate::steps::tasulogi_step_basis_derivatives;
use crate::tables::domain::Mode;
use oracle::{basis_derivatives, find_span};
use std::hint::black_box;

fn basis(rounds: u32, degree: usize) -> Times {
    let mut out = [0.0; 195];
    let mut r = Rng::new(7, degree as u64);
    let c = clamped(&mut r, degree, 3 * degree + 7);
    let end = c.knots[c.knots.len() - 1];
    let cases: Vec<(usize, f64)> = (0..256)
        .map(|_| {
            let u = r.unit() * end;
            (find_span(c.count() - 1, degree, u, &c.knots), u)
        })
        .collect();
    let (k, n) = (c.knots.as_ptr(), c.knots.len());
    let ours = time(rounds, &cases, |&(s, u)| {
        unsafe { tasulogi_step_basis_derivatives(s, u, degree, 1, k, n, black_box(&mut out).as_mut_ptr(), 195) };
        out[0]
    });
    let alone = time(rounds, &cases, |&(s, u)| basis_derivatives(s, u, degree, 1, &c.knots)[0][0]);
    Times::new("basis_derivatives", &[("degree", degree)], ours, alone, None)
}

fn point(rounds: u32, call: &str, order: Order, (degree, points): (usize, usize)) -> Times {
    let mut r = Rng::new(7, points as u64);
    let table = clamped(&mut r, degree, points);
    let made = table.rust().expect("valid");
    let end = table.knots[points];
    let cases: Vec<CurveCase> =
        (0..if points > 1_000 { 4 } else { 64 }).map(|_| CurveCase { t: r.unit() * end, table: table.clone() }).collect();
    let (mut out, mut done) = ([0.0; 9], true);
    let ours = time(rounds, &cases, |c| {
        done &= c.ours_point(order, Mode::Refusing, black_box(&mut out).as_mut_slice()) == 0;
        out[0]
    });
    assert!(done, "{call} was refused");
    let x = |c: &oracle::BCurve, t: f64| {
        if order != Order::Two { c.eval(t).point.x } else { c.eval2(t).map_or(0.0, |d| d.point.x) }
    };
    let alone = time(rounds, &cases, |c| x(&made, c.t));
    let full = || time(rounds, &cases, |c| x(&c.table.rust().expect("valid"), c.t));
    let full = (order != Order::Validated).then(full);
    Times::new(call, &[("degree", degree), ("points", points)], ours, alone, full)
}

fn surface(rounds: u32, side: usize) -> Times {
    let mut r = Rng::new(7, side as u64);
    let table = clamped_surface(&mut r, 3, side);
    let made = table.rust().expect("valid");
    let end = table.knots[0][side];
    let cases: Vec<SurfaceCase> =
        (0..16).map(|_| SurfaceCase { u: r.unit() * end, v: r.unit() * end, table: table.clone() }).collect();
    let (mut out, mut done) = ([0.0; 9], true);
    let ours = time(rounds, &cases, |c| {
        done &= c.ours_point(Mode::Refusing, black_box(&mut out).as_mut_slice()) == 0;
        out[0]
    });
    assert!(done, "eval_surface was refused");
    let alone = time(rounds, &cases, |c| made.eval(c.u, c.v).point.x);
    let full = time(rounds, &cases, |c| c.table.rust().expect("valid").eval(c.u, c.v).point.x);
    Times::new("eval_surface", &[("degree", 3), ("points", side * side)], ours, alone, Some(full))
}

pub fn table(rounds: u32) -> Vec<Times> {
    let mut lines: Vec<Times> = [1, 2, 3, 5, 10, 64].map(|degree| basis(rounds, degree)).into();
    for (call, order) in [("eval_at", Order::Validated), ("eval", Order::One), ("eval2", Order::Two)] {
        let sizes = [(3, 10), (3, 1_000), (3, 100_000), (1, 24), (5, 24), (10, 24), (20, 24)];
        lines.extend(sizes.map(|size| point(rounds, call, order, size)));
    }
    lines.extend([5, 20, 100].map(|side| surface(rounds, side)));
    lines
}
