//! The calls of the module: what the Rust answers, or a rule of the comparison's own where the Rust has no such call.
use crate::face::*;
use crate::tables::domain::{Domain, Mode};
use crate::tables::{Curve, LIMIT, Refused};
use oracle::{BCurve, ParamRange, Point3, find_span, knot_spans, refusal};

/// A degree, a count of points and a knot run: what the calls on spans take.
pub struct Run<'a> {
    pub degree: usize,
    pub count: usize,
    pub knots: &'a [f64],
}

impl Run<'_> {
    /// Of knots that are valid.
    pub fn domain(&self) -> Domain {
        Domain::of(self.degree, self.count, self.knots)
    }
}

pub fn our_span(k: &Run, u: f64, mode: Mode) -> u64 {
    let call = match mode {
        Mode::Refusing => tasulogi_find_span,
        Mode::Clamping => tasulogi_find_span_clamped,
    };
    unsafe { call(k.degree, k.count, k.knots.as_ptr(), k.knots.len(), u) }
}

pub fn our_next(k: &Run, from: usize) -> usize {
    unsafe { tasulogi_next_span(k.degree, k.count, k.knots.as_ptr(), k.knots.len(), from) }
}

pub fn our_clamp(k: &Run, u: f64) -> f64 {
    unsafe { tasulogi_clamp(k.degree, k.count, u, k.knots.as_ptr(), k.knots.len()) }
}

/// 1 to 7 by a polynomial curve with all points at the origin. A count that no memory has is not that of the knots.
fn knot_refusal(k: &Run) -> Result<(), Refused> {
    if k.count > 2 * LIMIT {
        return Err(Refused::unplaced(if k.degree == 0 {
            1
        } else if k.count <= k.degree {
            2
        } else {
            3
        }));
    }
    match BCurve::new(k.degree, k.knots.to_vec(), vec![Point3::default(); k.count], None) {
        Ok(_) => Ok(()),
        Err(e) => Err(Curve { degree: k.degree, knots: k.knots.to_vec(), ..Curve::default() }.refused(refusal(&e))),
    }
}

/// The clamp is ours: u, or the nearer end; an end that the run does not have sets no limit.
pub fn clamp(k: &Run, u: f64) -> f64 {
    match (k.knots.get(k.degree), k.knots.get(k.count)) {
        (Some(&lo), _) if u < lo => lo,
        (_, Some(&hi)) if u > hi => hi,
        _ => u,
    }
}

/// The Rust's span, which is that of the nearer end where u lies outside; 30, 12 and 43 are ours.
pub fn span(k: &Run, u: f64, mode: Mode) -> Result<usize, Refused> {
    if k.knots.len() > LIMIT {
        return Err(Refused::unplaced(30));
    }
    knot_refusal(k)?;
    match mode.refusal(k.domain(), u) {
        Some(number) => Err(Refused::unplaced(number)),
        None => Ok(find_span(k.count - 1, k.degree, u, k.knots)),
    }
}

/// The first nonempty span from a place on, by the definition.
pub fn next(k: &Run, from: usize) -> Option<usize> {
    let end = k.count.min(k.knots.len().saturating_sub(1));
    (from.max(k.degree)..end).find(|&s| k.knots[s] < k.knots[s + 1])
}

/// Whether walking from one nonempty span to the next meets the Rust's spans, one for one.
pub fn walks(k: &Run) -> bool {
    let want: Vec<ParamRange> = knot_spans(k.knots, k.degree, k.count);
    let mut from = 0;
    for w in &want {
        let s = our_next(k, from);
        if s >= k.count || k.knots[s].to_bits() != w.lo.to_bits() || k.knots[s + 1].to_bits() != w.hi.to_bits() {
            return false;
        }
        from = s + 1;
    }
    our_next(k, from) == k.count
}
