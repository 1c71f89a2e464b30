//! Modules 3 and 4: points and derivatives of curves and surfaces, reversal, isocurves.
mod bench;
pub mod calls;
mod list;

use super::answered::{Asked, Wanted, compared, room};
use super::{Desk, Module, joined};
use crate::tables::domain::{self, AROUND, Mode, around};
use crate::tables::make::Care;
use crate::tables::{FEATURES, Refused, double_literal, fixed};
use crate::tally::{Call, Place};
use calls::{CurveCase, Order, SurfaceCase};

const CARE: Care = Care { steep: [300, 300, 200, 100, 20, 20], broken: 6, long: 20_000 };
const SURFACE_CARE: Care = Care { steep: [400, 300, 100, 30, 5, 5], broken: 8, long: 8000 };

const CALLS: [(&str, &[u32]); 9] = [
    ("eval", &[0, 1, 2, 3, 4, 5, 6, 7, 8, 9, 10, 12, 30, 31, 32, 43]),
    ("eval_clamped", &[0, 1, 2, 3, 4, 5, 6, 7, 8, 9, 10, 12, 30, 31, 32]),
    ("eval2", &[0, 1, 2, 3, 4, 5, 6, 7, 8, 9, 10, 12, 21, 30, 31, 32, 43]),
    ("eval2_clamped", &[0, 1, 2, 3, 4, 5, 6, 7, 8, 9, 10, 12, 21, 30, 31, 32]),
    (
        "eval_surface",
        &[0, 8, 9, 10, 11, 12, 30, 31, 32, 43, 101, 102, 103, 104, 105, 106, 107, 201, 202, 203, 204, 205, 206, 207],
    ),
    (
        "eval_surface_clamped",
        &[0, 8, 9, 10, 11, 12, 30, 31, 32, 101, 102, 103, 104, 105, 106, 107, 201, 202, 203, 204, 205, 206, 207],
    ),
    ("reversed", &[0, 1, 2, 3, 4, 5, 6, 7, 8, 9, 10, 30, 32]),
    ("iso_curve", &[0, 8, 9, 10, 11, 22, 23, 30, 31, 32, 101, 102, 103, 104, 105, 106, 107, 201, 202, 203, 204, 205, 206, 207]),
    ("eval_at", &[0, 12, 30, 31, 43]),
];

/// Refusals of curves that were formed, then pairs of a surface's parameters by mode.
const OWN: [&str; 10] = [
    "reversal's formed curve refused by 4",
    "reversal's by 7",
    "isocurve's by 8 at the front",
    "isocurve's by 8 behind the front",
    "eval_surface's u outside and v not finite",
    "eval_surface's u not finite and v outside",
    "eval_surface's u and v outside",
    "eval_surface_clamped's u outside and v not finite",
    "eval_surface_clamped's u not finite and v outside",
    "eval_surface_clamped's u and v outside",
];
/// A curve's call stands at its row, and u and v of the two calls of surfaces between them.
const PARAMETERS: [&str; 9 * AROUND] = around! {
    "eval" "eval_clamped" "eval2" "eval2_clamped" "eval_surface's u" "eval_surface's v" "eval_surface_clamped's u"
    "eval_surface_clamped's v" "eval_at"
};
const TABLES: [&str; FEATURES.len() + OWN.len()] = joined(&FEATURES, &OWN);
const SEEN: [&str; TABLES.len() + PARAMETERS.len()] = joined(&TABLES, &PARAMETERS);

pub const MODULE: Module = Module {
    name: "evaluate",
    calls: || CALLS.map(|c| Call { name: c.0, numbers: c.1, idle: &[] }).into(),
    features: &SEEN,
    exact: &[],
    default_cases: 2_000_000,
    case,
    list: Some(list::write),
    bench: bench::table,
};

fn case(place: Place, desk: &mut Desk) -> Option<String> {
    if place.block == 0
        && let Some((table, _)) = fixed::REVERSED.get(place.case as usize)
    {
        return reversed(desk, CurveCase { table: table.clone(), t: 0.0 });
    }
    let mode = Mode::either(&mut desk.r);
    match desk.r.below(6) {
        0 => point(desk, Order::One, mode),
        1 => point(desk, Order::Two, mode),
        2 => surface_point(desk, mode),
        3 => {
            let case = made_curve(desk);
            reversed(desk, case)
        }
        4 => point(desk, Order::Validated, Mode::Refusing),
        _ => iso_curve(desk),
    }
}

fn made_curve(desk: &mut Desk) -> CurveCase {
    let case = CurveCase::made(&mut desk.r);
    case.table.features(&mut desk.tally.features);
    desk.tally.count(case.table.doubles().take(400).chain([&case.t]));
    case
}

fn made_surface(desk: &mut Desk) -> SurfaceCase {
    let case = SurfaceCase::made(&mut desk.r);
    case.table.features(&mut desk.tally.features);
    desk.tally.count(case.table.doubles().take(400).chain([&case.u, &case.v]));
    case
}

/// The call of a row beside the Rust; the text of the case where they differ.
fn asked(
    desk: &mut Desk,
    row: usize,
    needs: &[usize],
    want: &Wanted,
    ours: impl FnOnce(&mut [&mut [f64]]) -> u64,
    literal: impl FnOnce() -> String,
) -> Option<String> {
    let text = compared(desk, Asked { row, needs, high: 0, room }, want, ours)?;
    Some(format!("{}\n  Rust literal:  {}\n{text}", CALLS[row].0, literal()))
}

fn point(desk: &mut Desk, order: Order, mode: Mode) -> Option<String> {
    let case = made_curve(desk);
    let (row, need) = match order {
        Order::One => (mode as usize, 6),
        Order::Two => (2 + mode as usize, 9),
        Order::Validated => {
            // On a table that is not valid the call is total, and the Rust has no answer.
            case.table.rust().ok()?;
            (8, 6)
        }
    };
    let want = case.rust_point(order, mode);
    if domain::is_looked_at(want.number()) {
        domain::met(case.table.domain().spots(case.t), &mut desk.tally.features[TABLES.len() + AROUND * row..]);
    }
    let literal = || format!("{}, at {}", case.table.literal(), double_literal(case.t));
    asked(desk, row, &[need], &want, |l| case.ours_point(order, mode, l[0]), literal)
}

fn surface_point(desk: &mut Desk, mode: Mode) -> Option<String> {
    let case = made_surface(desk);
    let want = case.rust_point(mode);
    if domain::is_looked_at(want.number()) {
        seen(&case, mode, &mut desk.tally.features);
    }
    let literal = || format!("{}, at {}, {}", case.table.literal(), double_literal(case.u), double_literal(case.v));
    asked(desk, 4 + mode as usize, &[9], &want, |l| case.ours_point(mode, l[0]), literal)
}

/// Counts where the parameters of a valid surface are. v is not looked at where u is refused.
fn seen(case: &SurfaceCase, mode: Mode, features: &mut [u64]) {
    let [(along_u, u), (along_v, v)] = case.parameters();
    let (own, spots) = features[FEATURES.len()..].split_at_mut(OWN.len());
    let spots = &mut spots[AROUND * (4 + 2 * mode as usize)..];
    domain::met(along_u.spots(u), spots);
    if mode.refusal(along_u, u).is_none() {
        domain::met(along_v.spots(v), &mut spots[AROUND..]);
    }
    let outside = [along_u.is_outside(u), along_v.is_outside(v)];
    let pairs = [outside[0] && !v.is_finite(), !u.is_finite() && outside[1], outside[0] && outside[1]];
    for (n, is_so) in own[4 + 3 * mode as usize..].iter_mut().zip(pairs) {
        *n += is_so as u64;
    }
}

fn reversed(desk: &mut Desk, case: CurveCase) -> Option<String> {
    let t = &case.table;
    let needs = [t.knots.len(), t.points.len(), if t.rational { t.weights.len() } else { 0 }];
    let want = case.rust_reversed();
    if let Wanted::Formed(Refused { number: n @ (4 | 7), .. }) = &want {
        desk.tally.features[FEATURES.len() + (*n == 7) as usize] += 1;
    }
    asked(desk, 6, &needs, &want, |l| case.ours_reversed(l), || t.literal())
}

fn iso_curve(desk: &mut Desk) -> Option<String> {
    let case = made_surface(desk);
    let constant_u = desk.r.below(2) == 0;
    let other = case.table.counts[constant_u as usize];
    let needs = if other < 1 << 20 { [3 * other, other] } else { [0, 0] };
    let literal = || {
        let t = double_literal(case.constant(constant_u));
        format!("{}.unwrap().iso_curve({constant_u}, {t})", case.table.literal())
    };
    let want = case.rust_iso(constant_u);
    if let Wanted::Formed(r @ Refused { number: 8, .. }) = &want {
        desk.tally.features[FEATURES.len() + 2 + (r.place > 0) as usize] += 1;
    }
    asked(desk, 7, &needs, &want, |l| case.ours_iso(constant_u, l), literal)
}
