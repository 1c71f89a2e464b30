//! Times of interval calls beside the Rust's: alone, inlined as Rust callers have them, and in full, behind a call like
//! ours.
use crate::face::*;
use crate::modules::timed::{Times, time};
use crate::rng::Rng;
use oracle::{Interval, divide};
use std::hint::black_box;

const CASES: usize = 4096;

type Ends = [f64; 4];

/// Ordinary operands; divisors do not contain 0.
fn operands() -> Vec<Ends> {
    let mut r = Rng::new(7, 7);
    (0..CASES)
        .map(|_| {
            let (a, b) = (r.unit() * 4.0 - 2.0, r.unit() + 0.5);
            [a, a + r.unit(), b, b + r.unit()]
        })
        .collect()
}

fn both(x: &Ends) -> Option<(Interval, Interval)> {
    Some((Interval::new(x[0], x[1])?, Interval::new(x[2], x[3])?))
}

fn put(i: Option<Interval>, out: &mut [f64]) -> u32 {
    match i {
        Some(i) if out.len() >= 2 => {
            out.fill(0.0);
            out[0] = i.lo();
            out[1] = i.hi();
            0
        }
        _ => {
            out.fill(0.0);
            99
        }
    }
}

#[inline(never)]
fn rust_add(x: &Ends, out: &mut [f64]) -> u32 {
    put(both(x).map(|(a, b)| a + b), out)
}

#[inline(never)]
fn rust_mul(x: &Ends, out: &mut [f64]) -> u32 {
    put(both(x).map(|(a, b)| a * b), out)
}

#[inline(never)]
fn rust_divide(x: &Ends, out: &mut [f64]) -> u32 {
    put(both(x).and_then(|(a, b)| divide(a, b).ok()), out)
}

type Behind = fn(&Ends, &mut [f64]) -> u32;

fn row(call: &str, rounds: u32, cases: &[Ends], ours: impl Fn(&Ends, &mut [f64]) -> u32, behind: Behind, alone: f64) -> Times {
    let mut out = [0.0; 2];
    let called = time(rounds, cases, |x| {
        behind(x, black_box(&mut out));
        out[0]
    });
    let mut done = true;
    let ours = time(rounds, cases, |x| {
        done &= ours(x, black_box(&mut out).as_mut_slice()) == 0;
        out[0]
    });
    assert!(done, "{call} was refused");
    Times::new(call, &[], ours, alone, Some(called))
}

pub fn table(rounds: u32) -> Vec<Times> {
    let cases = operands();
    let add = time(rounds, &cases, |x| both(x).map_or(0.0, |(a, b)| (a + b).lo()));
    let mul = time(rounds, &cases, |x| both(x).map_or(0.0, |(a, b)| (a * b).lo()));
    let quotient = time(rounds, &cases, |x| both(x).and_then(|(a, b)| divide(a, b).ok()).map_or(0.0, |i| i.lo()));
    vec![
        row("interval add", rounds, &cases, |x, out| tasulogi_interval_add(x[0], x[1], x[2], x[3], out), rust_add, add),
        row("interval mul", rounds, &cases, |x, out| tasulogi_interval_mul(x[0], x[1], x[2], x[3], out), rust_mul, mul),
        row(
            "interval divide",
            rounds,
            &cases,
            |x, out| tasulogi_interval_divide(x[0], x[1], x[2], x[3], out),
            rust_divide,
            quotient,
        ),
    ]
}
