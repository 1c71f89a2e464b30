//! The part of the replayed list on validation, spans and classes.
use super::calls::{Run, clamp, next, span};
use crate::modules::answered::{Wanted, class_number};
use crate::modules::listed::{self, Choice, Listed, word};
use crate::rng::Rng;
use crate::tables::Refused;
use crate::tables::at;
use crate::tables::domain::Mode;
use crate::tables::make::{self, Care};
use std::io::{Result, Write};

/// Fewer high degrees than a run has, so that the list stays short.
const CARE: Care = Care { steep: [300, 300, 200, 60, 10, 4], broken: 32, long: 6000 };

/// A degree, a count and a run of knots, with a parameter.
fn on_knots(r: &mut Rng, answer: impl Fn(&mut Rng, &Run, &mut Vec<u64>) -> Refused) -> Option<Listed> {
    let c = make::curve(r, &CARE);
    let k = Run { degree: c.degree, count: super::count(r, &c), knots: &c.knots };
    let mut words = vec![k.degree as u64, k.count as u64];
    listed::run(&mut words, &c.knots);
    let answer = answer(r, &k, &mut words);
    (c.knots.len() <= 512).then_some(Listed { words, answer })
}

fn spanned(r: &mut Rng, mode: Mode) -> Option<Listed> {
    on_knots(r, |r, k, words| {
        let u = at::of_domain(r, k.degree, k.count, k.knots);
        let answer = span(k, u, mode);
        let r = answer.err().unwrap_or_default();
        words.extend([word(u), r.number as u64, answer.unwrap_or(r.place as usize) as u64]);
        r
    })
}

fn case(r: &mut Rng, call: &str) -> Option<Listed> {
    match call {
        "curve_refusal" => {
            let c = make::curve(r, &CARE);
            let words = listed::curve(&c)?;
            Some(Listed::answered(words, Wanted::Refused(c.rust().err().unwrap_or_default()), 0))
        }
        "surface_refusal" => {
            let s = make::surface(r, &CARE);
            let words = listed::surface(&s)?;
            Some(Listed::answered(words, Wanted::Refused(s.rust().err().unwrap_or_default()), 0))
        }
        "find_span" => spanned(r, Mode::Refusing),
        "span_clamped" => spanned(r, Mode::Clamping),
        "next_span" => on_knots(r, |r, k, words| {
            let from = r.below(k.knots.len() as u64 + 2) as usize;
            let answer = next(k, from);
            words.extend([from as u64, answer.unwrap_or(k.count) as u64]);
            Refused::unplaced(answer.is_none() as u32)
        }),
        _ => on_knots(r, |r, k, words| {
            let u = at::of_domain(r, k.degree, k.count, k.knots);
            let answer = clamp(k, u);
            words.extend([word(u), word(answer)]);
            Refused::unplaced(if answer > u { 1 } else { 2 * (answer < u) as u32 })
        }),
    }
}

pub fn write(stdin: &mut dyn Write, stdout: &mut dyn Write) -> Result<()> {
    let calls = [
        ("curve_refusal", 16),
        ("surface_refusal", 9),
        ("find_span", 16),
        ("span_clamped", 16),
        ("next_span", 80),
        ("clamp", 60),
    ];
    for (stream, (call, each)) in calls.into_iter().enumerate() {
        let choice = Choice { stream: stream as u64, tried: 200_000, cases: 240, each };
        listed::write(stdin, stdout, call, &choice.of(|r| case(r, call)))?;
    }
    let classed = |n| Listed { words: vec![n as u64, class_number(n) as u64], answer: Refused::default() };
    let classes: Vec<Listed> = (0..60).map(classed).collect();
    listed::write(stdin, stdout, "class_of", &classes)
}
