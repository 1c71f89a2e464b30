//! The calls: what the Rust answers, and the exported functions.
use super::CARE;
use crate::face::*;
use crate::modules::answered::{Wanted, coordinates, words};
use crate::rng::Rng;
use crate::tables::at;
use crate::tables::{Curve, double_literal, literal, make};
use oracle::refusal;

pub enum Edit {
    Insert(Vec<f64>),
    Trim(f64, f64),
    Elevate(usize),
}

pub struct Case {
    pub table: Curve,
    pub edit: Edit,
}

/// The edit of a curve of the Rust, or of the Rust that notes points.
macro_rules! edited {
    ($curve:expr, $edit:expr) => {
        match $edit {
            Edit::Insert(ts) => $curve.insert_knots(ts),
            Edit::Trim(lo, hi) => $curve.trim([*lo, *hi]),
            Edit::Elevate(e) => $curve.elevate_degree(*e),
        }
    };
}
pub(super) use edited;

impl Case {
    /// Most tables are clamped. The edit is the one of the row.
    pub fn made(r: &mut Rng, row: usize) -> Self {
        if r.below(512) == 0 {
            return Self::faint(r, row);
        }
        let mut table = make::curve(r, &CARE[row]);
        let (p, n) = (table.degree, table.count());
        if r.below(8) > 0 && p < n && table.knots.len() == n + p + 1 {
            let (a, b) = (table.knots[p], table.knots[n]);
            table.knots[..p].fill(a);
            table.knots[n + 1..].fill(b);
        }
        let edit = match row {
            0 => Edit::Insert(inserted(r, &table)),
            1 => {
                let (lo, hi) = ends(r, &table);
                Edit::Trim(lo, hi)
            }
            _ => Edit::Elevate(raised(r, p)),
        };
        Self { table, edit }
    }

    /// A polyline with all weights but one so small that a half of two neighbours is 0.
    fn faint(r: &mut Rng, row: usize) -> Self {
        let count = 3 + r.below(4) as usize;
        let last = (count - 1) as f64;
        let mut weights = vec![f64::from_bits(1); count];
        weights[r.below(count as u64) as usize] = 1.0;
        let knots = (0..count + 2).map(|i| (i as f64 - 1.0).clamp(0.0, last)).collect();
        let points = (0..3 * count).map(|_| r.unit()).collect();
        let mut half = || r.below(count as u64 - 1) as f64 + 0.5;
        let (a, b) = (half(), half());
        let edit = match row {
            0 => Edit::Insert(vec![a]),
            1 if a < b => Edit::Trim(a, b),
            1 => Edit::Trim(0.0, b),
            _ => Edit::Elevate(2),
        };
        Self { table: Curve { degree: 1, knots, points, rational: true, weights }, edit }
    }

    /// A line whose last point, formed again, overflows: over its weight the distance from the first is a double more.
    pub fn brim(row: usize) -> Self {
        let points = vec![2f64.powi(1020), 0.0, 0.0, f64::MAX, 0.0, 0.0];
        let edit = match row {
            0 => Edit::Insert(vec![0.5]),
            1 => Edit::Trim(0.0, 0.5),
            _ => Edit::Elevate(2),
        };
        Self {
            table: Curve { degree: 1, knots: vec![0.0, 0.0, 1.0, 1.0], points, rational: true, weights: vec![5.0, 1.0] },
            edit,
        }
    }

    /// Document 01's degrees about the limit of 64, from a curve of one span.
    pub fn fixed(at: usize) -> Self {
        let (degree, raised) = [(65, 65), (65, 66), (65, 64), (64, 64), (64, 65), (63, 64)][at];
        let count = degree + 1;
        let knots = (0..2 * count).map(|i| if i < count { -0.0 } else { 1.0 }).collect();
        let points = (0..3 * count).map(|i| i as f64 * 0.37).collect();
        let weights = (0..count).map(|i| 1.0 + i as f64 * 0.01).collect();
        Self { table: Curve { degree, knots, points, rational: degree != 63, weights }, edit: Edit::Elevate(raised) }
    }

    /// The numbers that the call takes besides the table.
    pub fn doubles(&self) -> Vec<f64> {
        match &self.edit {
            Edit::Insert(ts) => ts.clone(),
            Edit::Trim(lo, hi) => vec![*lo, *hi],
            Edit::Elevate(_) => Vec::new(),
        }
    }

    pub fn rust(&self) -> Wanted {
        let c = match self.table.rust() {
            Err(r) => return Wanted::Refused(r),
            Ok(c) => c,
        };
        match edited!(c, &self.edit) {
            Ok(c) => Wanted::Runs(vec![words(c.knots()), coordinates(&c), words(c.weights().unwrap_or(&[])), Vec::new()]),
            Err(e) => match refusal(&e) {
                r if (15..=18).contains(&r.number) => Wanted::unplaced(r.number),
                r => Wanted::Formed(Curve::formed(r, || {
                    let _ = edited!(self.table.noting(), &self.edit);
                })),
            },
        }
    }

    /// Room for the answer, by the formulas of document 01. Of a table that is not valid nothing is formed.
    pub fn needs(&self) -> [usize; 4] {
        if self.table.rust().is_err() {
            return [0; 4];
        }
        let (p, n) = (self.table.degree, self.table.count());
        let (degree, count, most) = match &self.edit {
            Edit::Insert(ts) => (p, n + ts.len(), n + ts.len()),
            Edit::Trim(lo, hi) => {
                let [a, b] = [*lo, *hi].map(|x| (p + 1).saturating_sub(self.times(x)));
                let below = |x: f64| self.table.knots.iter().filter(|k| **k < x).count();
                (p, (below(*hi) + a).saturating_sub(below(*lo)), n + a + b)
            }
            Edit::Elevate(e) => {
                let breaks = self.breaks();
                let full = breaks.iter().filter(|b| self.times(**b) > p).count();
                let segments = breaks.len() + 1;
                match *e {
                    e if e == p => (p, n, (p + 1) * segments),
                    // Refused.
                    e if e > 64 => (p, 0, 0),
                    e => (e, (e + 1) * segments - breaks.len() + full, (p + 1) * segments),
                }
            }
        };
        [count + degree + 1, 3 * count, if self.table.rational { count } else { 0 }, 10 * most + 2 * (p + 1)]
    }

    pub fn times(&self, x: f64) -> usize {
        self.table.knots.iter().filter(|k| **k == x).count()
    }

    /// The distinct knots inside the domain.
    pub fn breaks(&self) -> Vec<f64> {
        let (lo, hi) = (self.table.knots[self.table.degree], self.table.knots[self.table.count()]);
        let mut breaks: Vec<f64> = self.table.knots.iter().copied().filter(|k| *k > lo && *k < hi).collect();
        breaks.dedup();
        breaks
    }

    /// The refusal in the low half; in the high one its place, or the count of points.
    pub fn ours(&self, out: &mut [&mut [f64]]) -> u64 {
        let [knots, points, weights, scratch] = out else { unreachable!("four runs are lent") };
        match &self.edit {
            Edit::Insert(ts) => tasulogi_insert_knots(&self.table, ts, knots, points, weights, scratch),
            Edit::Trim(lo, hi) => tasulogi_trim(&self.table, *lo, *hi, knots, points, weights, scratch),
            Edit::Elevate(e) => tasulogi_elevate_degree(&self.table, *e, knots, points, weights, scratch),
        }
    }

    pub fn literal(&self) -> String {
        let call = match &self.edit {
            Edit::Insert(ts) => format!("insert_knots(&{})", literal(ts)),
            Edit::Trim(lo, hi) => format!("trim([{}, {}])", double_literal(*lo), double_literal(*hi)),
            Edit::Elevate(e) => format!("elevate_degree({e})"),
        };
        format!("{}.unwrap().{call}", self.table.literal())
    }
}

/// A knot now and then again.
fn inserted(r: &mut Rng, table: &Curve) -> Vec<f64> {
    let mut ts: Vec<f64> = Vec::new();
    for _ in 0..r.below(6) {
        let again = ts.last().copied().filter(|_| r.below(3) == 0);
        let x = again.unwrap_or_else(|| knot(r, table));
        ts.push(x);
    }
    ts
}

/// Mostly strictly inside the domain: at a knot, next to one, or between two.
fn knot(r: &mut Rng, t: &Curve) -> f64 {
    for _ in 0..8 {
        let x = at::parameter(r, &t.knots);
        if t.degree < t.count() && t.count() < t.knots.len() && x > t.knots[t.degree] && x < t.knots[t.count()] {
            return x;
        }
    }
    at::parameter(r, &t.knots)
}

/// Mostly in order and inside the domain, often at its ends; now and then anything.
fn ends(r: &mut Rng, t: &Curve) -> (f64, f64) {
    let mut end = |at: usize| match r.below(16) {
        0..4 => t.knots.get(at).map_or(0.5, |k| if *k == 0.0 && r.below(2) == 0 { -*k } else { *k }),
        4 => at::parameter(r, &t.knots),
        _ => knot(r, t),
    };
    let (a, b) = (end(t.degree), end(t.count()));
    if a > b && r.below(24) > 0 { (b, a) } else { (a, b) }
}

/// Mostly one to three more; the same, fewer, and about or far above 64.
fn raised(r: &mut Rng, degree: usize) -> usize {
    match r.below(32) {
        0 => r.below(degree.min(70) as u64 + 1) as usize,
        1 => degree.saturating_sub(1),
        2..5 => degree,
        5 => r.pick(&[65, 66, usize::MAX, usize::MAX - 1, 1 << 63]),
        6 if r.below(4) == 0 => r.pick(&[63, 64]),
        6 | 7 => degree.saturating_add(4 + r.below(8) as usize),
        8..24 => degree.saturating_add(1),
        _ => degree.saturating_add(2 + r.below(2) as usize),
    }
}
