//! Module 5: edits of curves.
mod bench;
mod calls;

use super::answered::{Asked, Wanted, compared};
use super::{Desk, Module, joined};
use crate::rng::Rng;
use crate::tables::make::Care;
use crate::tables::{FEATURES, Refused};
use crate::tally::{Call, Place};
use calls::{Case, Edit};
use oracle::noting;

/// By row: elevation takes a curve apart at each knot, so few of its curves are steep.
const CARE: [Care; 3] = [
    Care { steep: [300, 300, 200, 60, 10, 10], broken: 6, long: 20_000 },
    Care { steep: [300, 300, 200, 60, 10, 10], broken: 6, long: 20_000 },
    Care { steep: [350, 350, 200, 30, 6, 4], broken: 6, long: 20_000 },
];

const CALLS: [(&str, &[u32]); 3] = [
    ("insert_knots", &[0, 1, 2, 3, 4, 5, 6, 7, 8, 9, 10, 13, 14, 17, 19, 20, 30, 32]),
    ("trim", &[0, 1, 2, 3, 4, 5, 6, 7, 8, 9, 10, 15, 17, 19, 20, 30, 32]),
    ("elevate_degree", &[0, 1, 2, 3, 4, 5, 6, 7, 8, 9, 10, 16, 17, 18, 19, 20, 30, 32]),
];

/// The last of FEATURES is of surfaces alone: these stand in its place and behind it.
/// No 8 is at the front: the first point of an edit's formed curve is its reference again.
const OWN: [&str; 14] = [
    "insertion's formed curve refused by 8 before the end",
    "insertion's by 8 at the end",
    "trim's by 8 before the end",
    "trim's by 8 at the end",
    "elevation's by 8 before the end",
    "elevation's by 8 at the end",
    "trim at a full break",
    "trim at an inner knot",
    "trim between knots",
    "trim at one end of the domain",
    "trim to the whole domain",
    "trim at a zero of the other sign",
    "elevation with a full break",
    "elevation copied",
];
const COMMON: usize = FEATURES.len() - 1;
const SEEN: [&str; COMMON + OWN.len()] = joined(FEATURES.split_at(COMMON).0, &OWN);

pub const MODULE: Module = Module {
    name: "edits",
    calls: || CALLS.map(|c| Call { name: c.0, numbers: c.1, idle: &[] }).into(),
    features: &SEEN,
    exact: &[],
    // A million of each.
    default_cases: 3_000_000,
    case,
    list: None,
    bench: bench::table,
};

fn case(place: Place, desk: &mut Desk) -> Option<String> {
    // A block has one case more than a multiple of three.
    let row = ((place.block + place.case) % 3) as usize;
    let case = match place.block {
        0 if row == 2 && place.case < 18 => Case::fixed((place.case / 3) as usize),
        0 if (18..21).contains(&place.case) => Case::brim(row),
        _ => Case::made(&mut desk.r, row),
    };
    case.table.features(&mut desk.tally.features);
    desk.tally.count(case.table.doubles().take(400).chain(&case.doubles()));
    let (want, needs) = (case.rust(), case.needs());
    let formed = match &want {
        Wanted::Runs(runs) => {
            assert!(
                runs.iter().zip(needs).take(3).all(|(run, n)| run.len() == n),
                "the Rust forms another number of points: {}",
                case.literal()
            );
            runs[1].len() / 3
        }
        _ => 0,
    };
    seen(&case, row, &want, &mut desk.tally.features[COMMON..]);
    let text = compared(desk, Asked { row, needs: &needs, high: formed, room }, &want, |l| case.ours(l))?;
    Some(format!("{}\n  Rust literal:  {}\n{text}", CALLS[row].0, case.literal()))
}

/// Whether 8 is at the last point of the curve that the Rust formed last.
fn is_last(r: &Refused) -> bool {
    3 * (r.place as usize + 1) == noting::formed().len()
}

/// Counts what OWN names, in a case that is answered.
fn seen(case: &Case, row: usize, want: &Wanted, own: &mut [u64]) {
    if let Wanted::Formed(r @ Refused { number: 8, .. }) = want {
        own[2 * row + is_last(r) as usize] += 1;
    }
    let Wanted::Runs(_) = want else { return };
    let (p, n) = (case.table.degree, case.table.count());
    match &case.edit {
        Edit::Insert(_) => (),
        Edit::Trim(lo, hi) => {
            let (a, b) = (case.table.knots[p], case.table.knots[n]);
            let inner =
                |test: &dyn Fn(usize) -> bool| [lo, hi].iter().any(|x| **x > a && **x < b && test(case.times(**x))) as u64;
            own[6] += inner(&|times| times > p);
            own[7] += inner(&|times| times > 0 && times <= p);
            own[8] += inner(&|times| times == 0);
            own[9] += ((*lo == a) != (*hi == b)) as u64;
            own[10] += (*lo == a && *hi == b) as u64;
            let other = |x: f64| x == 0.0 && case.table.knots.iter().any(|k| *k == 0.0 && k.to_bits() != x.to_bits());
            own[11] += (other(*lo) || other(*hi)) as u64;
        }
        Edit::Elevate(e) => {
            own[12] += (*e > p && case.breaks().iter().any(|b| case.times(*b) > p)) as u64;
            own[13] += (*e == p) as u64;
        }
    }
}

/// Mostly the room that is needed, now and then one short, or some over.
fn room(r: &mut Rng, need: usize) -> usize {
    match r.below(48) {
        0 => need.saturating_sub(1),
        1..4 => need + r.below(8) as usize,
        _ => need,
    }
}
