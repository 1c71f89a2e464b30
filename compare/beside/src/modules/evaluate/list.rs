//! The part of the replayed list on points, the reversed curve and the isocurve.
use super::calls::{CurveCase, Order, SurfaceCase};
use crate::modules::listed::{self, Choice, Listed, word};
use crate::rng::Rng;
use crate::tables::domain::Mode;
use std::io::{Result, Write};

fn curve(r: &mut Rng) -> Option<(CurveCase, Vec<u64>)> {
    let case = CurveCase::made(r);
    let words = listed::curve(&case.table)?;
    Some((case, words))
}

fn surface(r: &mut Rng) -> Option<(SurfaceCase, Vec<u64>)> {
    let case = SurfaceCase::made(r);
    let words = listed::surface(&case.table)?;
    Some((case, words))
}

fn point(r: &mut Rng, order: Order, mode: Mode) -> Option<Listed> {
    let (case, mut words) = curve(r)?;
    words.push(word(case.t));
    Some(Listed::answered(words, case.rust_point(order, mode), 0))
}

fn surface_point(r: &mut Rng, mode: Mode) -> Option<Listed> {
    let (case, mut words) = surface(r)?;
    words.extend([word(case.u), word(case.v)]);
    Some(Listed::answered(words, case.rust_point(mode), 0))
}

fn reversed(r: &mut Rng) -> Option<Listed> {
    let (case, words) = curve(r)?;
    Some(Listed::answered(words, case.rust_reversed(), 3))
}

/// Behind the answer the knots that are handed back.
fn iso_curve(r: &mut Rng) -> Option<Listed> {
    let (case, mut words) = surface(r)?;
    let constant_u = r.below(2) == 0;
    words.extend([constant_u as u64, word(case.constant(constant_u))]);
    let mut listed = Listed::answered(words, case.rust_iso(constant_u), 2);
    listed::run(&mut listed.words, &case.table.knots[constant_u as usize]);
    Some(listed)
}

pub fn write(stdin: &mut dyn Write, stdout: &mut dyn Write) -> Result<()> {
    let calls: [(&str, fn(&mut Rng) -> Option<Listed>); 8] = [
        ("eval", |r| point(r, Order::One, Mode::Refusing)),
        ("eval_clamped", |r| point(r, Order::One, Mode::Clamping)),
        ("eval2", |r| point(r, Order::Two, Mode::Refusing)),
        ("eval2_clamped", |r| point(r, Order::Two, Mode::Clamping)),
        ("eval_surface", |r| surface_point(r, Mode::Refusing)),
        ("surface_clamped", |r| surface_point(r, Mode::Clamping)),
        ("reversed", reversed),
        ("iso_curve", iso_curve),
    ];
    for (stream, (name, call)) in calls.into_iter().enumerate() {
        let choice = Choice { stream: stream as u64, tried: 60_000, cases: 240, each: 6 };
        listed::write(stdin, stdout, name, &choice.of(call))?;
    }
    Ok(())
}
