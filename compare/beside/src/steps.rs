//! The steps as steps.h declares them: parts of calls, on tables validated before. A run crosses as a pointer and a length.
use crate::tables::Curve;

unsafe extern "C" {
    pub fn tasulogi_step_span_of(degree: usize, count: usize, u: f64, knots: *const f64, knots_n: usize) -> usize;
    pub fn tasulogi_step_basis_derivatives(
        span: usize,
        u: f64,
        degree: usize,
        n: usize,
        knots: *const f64,
        knots_n: usize,
        out: *mut f64,
        out_n: usize,
    );
    fn tasulogi_step_eval_at(
        degree: usize,
        knots: *const f64,
        knots_n: usize,
        points: *const f64,
        points_n: usize,
        rational: bool,
        weights: *const f64,
        weights_n: usize,
        t: f64,
        out: *mut f64,
        out_n: usize,
    ) -> u64;
}

/// Evaluation without validation.
#[inline]
pub fn eval_at(c: &Curve, t: f64, out: &mut [f64]) -> u64 {
    let (k, p, w) = (&c.knots, &c.points, &c.weights);
    // SAFETY: each pointer and length are those of a slice, and the lent one overlaps no other.
    unsafe {
        tasulogi_step_eval_at(
            c.degree,
            k.as_ptr(),
            k.len(),
            p.as_ptr(),
            p.len(),
            c.rational,
            w.as_ptr(),
            w.len(),
            t,
            out.as_mut_ptr(),
            out.len(),
        )
    }
}
