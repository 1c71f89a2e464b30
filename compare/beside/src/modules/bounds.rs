//! Module 6: outward bounds of curves and surfaces.
mod basis;
mod bench;
pub mod calls;
mod exact;
mod flat;
mod known;
mod list;

use super::answered::{Asked, Wanted, compared};
use super::{Desk, Module, joined};
use crate::rng::Rng;
use crate::tables::FEATURES;
use crate::tables::make::Care;
use crate::tally::{BLOCK, Call, Place};
use calls::{BOX, CurveCase, POINT, SurfaceCase, point_of};
pub use known::self_test;

const CARE: Care = Care { steep: [400, 300, 100, 15, 4, 2], broken: 6, long: 20_000 };
const SURFACE_CARE: Care = Care { steep: [400, 200, 30, 6, 2, 3], broken: 8, long: 8000 };

/// One case in so many is a surface.
const SURFACE_EVERY: u64 = 11;
/// In one box in so many exact vectors are looked for: of a curve, of a surface. Surfaces over one point are rare, so each
/// of their boxes is looked at.
const EXACT_EVERY: [u64; 2] = [20, 5];

const CURVE: &[u32] = &[0, 1, 2, 3, 4, 5, 6, 7, 8, 9, 10, 24, 25, 26, 27, 30, 31, 32];

const CALLS: [(&str, &[u32]); 3] = [
    ("bound_curve", CURVE),
    (
        "bound_surface",
        &[0, 8, 9, 10, 11, 24, 25, 26, 27, 30, 31, 32, 101, 102, 103, 104, 105, 106, 107, 201, 202, 203, 204, 205, 206, 207],
    ),
    ("bound_point", CURVE),
];

const SEEN: [&str; FEATURES.len() + flat::FEATURES.len()] = joined(&FEATURES, &flat::FEATURES);

pub const MODULE: Module = Module {
    name: "bounds",
    calls: || CALLS.map(|c| Call { name: c.0, numbers: c.1, idle: &[28, 29] }).into(),
    features: &SEEN,
    exact: &exact::KINDS,
    default_cases: 2_200_000,
    case,
    list: Some(list::write),
    bench: bench::table,
};

fn case(place: Place, desk: &mut Desk) -> Option<String> {
    if (place.block * BLOCK + place.case).is_multiple_of(SURFACE_EVERY) { surface(desk) } else { curve(desk) }
}

/// Mostly the room that a box needs, now and then one short, one over, or any.
fn room(r: &mut Rng, need: usize) -> usize {
    match r.below(16) {
        0 => r.below(25) as usize,
        1 => need + 1,
        2 => need - 1,
        _ => need,
    }
}

/// The call of a row beside the Rust, and now and then our box beside exact vectors; the text where they differ.
fn asked(
    desk: &mut Desk,
    row: usize,
    want: &Wanted,
    is_point: bool,
    ours: impl Fn(&mut [f64]) -> u64,
    literal: impl FnOnce() -> String,
    look: impl FnOnce(&mut Desk, &[f64]) -> Option<String>,
) -> Option<String> {
    let text = compared(desk, Asked { row, needs: &[BOX], high: 0, room }, want, |l| ours(l[0]));
    let text = text.map(|text| format!("{}\n  Rust literal:  {}\n{text}", CALLS[row].0, literal()));
    let mut ends = [0.0; BOX];
    let is_looked_at = matches!(want, Wanted::Runs(_)) && (is_point || desk.r.below(EXACT_EVERY[row]) == 0);
    if !is_looked_at || ours(&mut ends) != 0 {
        return text;
    }
    let outside = look(desk, &ends);
    text.or(outside)
}

/// A curve as it is made, and behind one in four another that is flattened.
fn curve(desk: &mut Desk) -> Option<String> {
    let case = CurveCase::made(&mut desk.r, &CARE);
    let text = bounded(desk, &case);
    if text.is_some() || desk.r.below(4) != 0 {
        return text;
    }
    let mut case = CurveCase::made(&mut desk.r, &CARE);
    flat::flattened(&mut desk.r, &mut case.table);
    bounded(desk, &case)
}

fn bounded(desk: &mut Desk, case: &CurveCase) -> Option<String> {
    case.table.features(&mut desk.tally.features);
    flat::features(&case.table, &mut desk.tally.features[FEATURES.len()..]);
    desk.tally.count(case.table.doubles().take(400).chain([&case.range.0, &case.range.1]));
    let look = |desk: &mut Desk, b: &[f64]| exact::curve(&mut desk.r, case, b, &mut desk.tally);
    let want = case.rust();
    let text = asked(desk, 0, &want, false, |out| case.ours(out), || case.literal(), look);
    text.or(point(desk, case, &want))
}

/// The point alone, beside the same answer of the Rust's.
fn point(desk: &mut Desk, case: &CurveCase, want: &Wanted) -> Option<String> {
    let text = compared(desk, Asked { row: 2, needs: &[POINT], high: 0, room }, &point_of(want), |l| case.ours_point(l[0]));
    text.map(|text| format!("{}\n  Rust literal:  {}\n{text}", CALLS[2].0, case.literal()))
}

fn surface(desk: &mut Desk) -> Option<String> {
    let case = SurfaceCase::made(&mut desk.r, &SURFACE_CARE);
    case.table.features(&mut desk.tally.features);
    desk.tally.count(case.table.doubles().take(400));
    let is_point = case.u.0 == case.u.1 && case.v.0 == case.v.1;
    let look = |desk: &mut Desk, b: &[f64]| exact::surface(&mut desk.r, &case, b, &mut desk.tally);
    asked(desk, 1, &case.rust(), is_point, |out| case.ours(out), || case.literal(), look)
}
