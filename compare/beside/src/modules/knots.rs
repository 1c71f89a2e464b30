//! Module 2 and validation: curves and surfaces, spans, the clamp, classes.
mod bench;
mod calls;
mod list;

use super::answered::{class_agrees, class_number};
use super::{Desk, Module, joined};
use crate::face::{tasulogi_class_of, tasulogi_curve_refusal, tasulogi_surface_refusal};
use crate::rng::Rng;
use crate::tables::at;
use crate::tables::domain::{self, AROUND, Mode, around};
use crate::tables::make::{self, Care};
use crate::tables::{Curve, FEATURES, PLACES, Refused, double_literal, fixed, hex, literal};
use crate::tally::{Call, Place, Tally};
use calls::*;

const CARE: Care = Care { steep: [200, 300, 200, 150, 50, 30], broken: 32, long: 6000 };

/// The rows of the table. A span is 0, none 1; a parameter stays 0, is raised 1, is lowered 2; a class is its number.
const CALLS: [(&str, &[u32]); 7] = [
    ("curve_refusal", &[0, 1, 2, 3, 4, 5, 6, 7, 8, 9, 10, 30, 32]),
    ("surface_refusal", &[0, 8, 9, 10, 11, 30, 32, 101, 102, 103, 104, 105, 106, 107, 201, 202, 203, 204, 205, 206, 207]),
    ("find_span", &[0, 1, 2, 3, 4, 5, 6, 7, 12, 30, 43]),
    ("find_span_clamped", &[0, 1, 2, 3, 4, 5, 6, 7, 12, 30]),
    ("next_span", &[0, 1]),
    ("clamp", &[0, 1, 2]),
    ("class_of", &[0, 1, 2, 3, 4, 5]),
];

const TABLES: [&str; FEATURES.len() + PLACES.len()] = joined(&FEATURES, &PLACES);
/// By mode.
const PARAMETERS: [&str; 2 * AROUND] = around! { "find_span" "find_span_clamped" };
const SEEN: [&str; TABLES.len() + PARAMETERS.len()] = joined(&TABLES, &PARAMETERS);

pub const MODULE: Module = Module {
    name: "knots",
    calls: || CALLS.map(|c| Call { name: c.0, numbers: c.1, idle: &[] }).into(),
    features: &SEEN,
    exact: &[],
    default_cases: 4_000_000,
    case,
    list: Some(list::write),
    bench: bench::table,
};

fn case(place: Place, desk: &mut Desk) -> Option<String> {
    if place.block == 0
        && let Some((c, _)) = fixed::REFUSED.get(place.case as usize)
    {
        return curve(desk, c);
    }
    match desk.r.below(16) {
        0..5 => {
            let c = made_curve(desk);
            curve(desk, &c)
        }
        5..8 => surface(desk),
        8..13 => spanned(desk),
        13 => next(desk),
        14 => clamped(desk),
        _ => classed(desk),
    }
}

/// One curve in so many has as many points as the limit lets it have.
const LONG_EVERY: u64 = 30_000;

fn made_curve(desk: &mut Desk) -> Curve {
    let c = if desk.r.below(LONG_EVERY) == 0 { make::long_curve(&mut desk.r) } else { make::curve(&mut desk.r, &CARE) };
    c.features(&mut desk.tally.features);
    desk.tally.count(c.doubles().take(400));
    c
}

/// A refusal, and its class.
fn validated(tally: &mut Tally, row: usize, want: Refused, got: u64, literal: impl FnOnce() -> String) -> Option<String> {
    tally.judged(row, want.number, got == want.word() && class_agrees(want.number), || {
        let got = Refused::of_word(got);
        format!("{}\n  Rust literal:  {}\n  wanted:        {want:?}\n  ours:          {got:?}", CALLS[row].0, literal())
    })
}

fn curve(desk: &mut Desk, c: &Curve) -> Option<String> {
    let want = c.rust().err().unwrap_or_default();
    c.placed(want, &mut desk.tally.features[FEATURES.len()..]);
    validated(&mut desk.tally, 0, want, tasulogi_curve_refusal(c), || c.literal())
}

fn surface(desk: &mut Desk) -> Option<String> {
    let s = make::surface(&mut desk.r, &CARE);
    s.features(&mut desk.tally.features);
    desk.tally.count(s.doubles().take(400));
    let want = s.rust().err().unwrap_or_default();
    s.placed(want, &mut desk.tally.features[FEATURES.len()..]);
    validated(&mut desk.tally, 1, want, tasulogi_surface_refusal(&s), || s.literal())
}

/// Mostly the count that the knots have; else one off, none, or more than fits.
fn count(r: &mut Rng, c: &Curve) -> usize {
    match r.below(40) {
        0 => c.count() + 1,
        1 => c.degree,
        2 => r.pick(&[0, usize::MAX, usize::MAX - 1, usize::MAX - c.degree]),
        _ => c.count(),
    }
}

fn told(name: &str, k: &Run, with: &str, want: String, got: String) -> String {
    format!(
        "{name}\n  Rust literal:  degree {}, count {}, knots {}, {with}\n  as words:     {}\n  wanted:        {want}\n  ours:          {got}",
        k.degree,
        k.count,
        literal(k.knots),
        hex(k.knots.iter().map(|x| x.to_bits()))
    )
}

fn spanned(desk: &mut Desk) -> Option<String> {
    let c = made_curve(desk);
    let r = &mut desk.r;
    let k = Run { degree: c.degree, count: count(r, &c), knots: &c.knots };
    let (u, mode) = (at::of_domain(r, k.degree, k.count, k.knots), Mode::either(r));
    let want = span(&k, u, mode);
    let got = our_span(&k, u, mode);
    let (number, agrees) = match want {
        Ok(s) => (0, got == s as u64),
        Err(r) => (r.number, got == r.turned() && class_agrees(r.number)),
    };
    if domain::is_looked_at(number) {
        domain::met(k.domain().spots(u), &mut desk.tally.features[TABLES.len() + AROUND * mode as usize..]);
    }
    let row = 2 + mode as usize;
    desk.tally.judged(row, number, agrees, || {
        told(CALLS[row].0, &k, &format!("u {}", double_literal(u)), format!("{want:?}"), format!("{got:016x}"))
    })
}

fn next(desk: &mut Desk) -> Option<String> {
    let c = made_curve(desk);
    let r = &mut desk.r;
    let k = Run { degree: c.degree, count: count(r, &c), knots: &c.knots };
    let from = match r.below(8) {
        0 => r.pick(&[0, usize::MAX, usize::MAX - 1]),
        _ => r.below(c.knots.len() as u64 + 2) as usize,
    };
    let want = calls::next(&k, from);
    let got = our_next(&k, from);
    let walked = k.count != c.count() || c.rust().is_err() || walks(&k);
    desk.tally.judged(4, want.is_none() as u32, got == want.unwrap_or(k.count) && walked, || {
        told("next_span", &k, &format!("from {from}"), format!("{want:?}, the walk agrees: {walked}"), format!("{got}"))
    })
}

fn clamped(desk: &mut Desk) -> Option<String> {
    let c = made_curve(desk);
    let r = &mut desk.r;
    let k = Run { degree: c.degree, count: count(r, &c), knots: &c.knots };
    let u = at::of_domain(r, k.degree, k.count, k.knots);
    let want = clamp(&k, u);
    let got = our_clamp(&k, u);
    let number = if want > u { 1 } else { 2 * (want < u) as u32 };
    let agrees = want.to_bits() == got.to_bits() || want.is_nan() && got.is_nan();
    desk.tally.judged(5, number, agrees, || {
        told("clamp", &k, &format!("u {}", double_literal(u)), double_literal(want), double_literal(got))
    })
}

fn classed(desk: &mut Desk) -> Option<String> {
    let r = &mut desk.r;
    let number = if r.below(4) == 0 { r.next() as u32 } else { r.below(60) as u32 };
    let want = class_number(number);
    let got = tasulogi_class_of(number) as u32;
    desk.tally.judged(6, want, got == want, || format!("class_of({number})\n  wanted:        {want}\n  ours:          {got}"))
}
