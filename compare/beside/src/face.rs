//! The exported functions as tasulogi.h declares them. A run crosses as a pointer and a length.
use crate::tables::{Curve, Surface};

unsafe extern "C" {
    pub safe fn tasulogi_is_nan(x: f64) -> bool;
    pub safe fn tasulogi_is_finite(x: f64) -> bool;
    pub safe fn tasulogi_next_up(x: f64) -> f64;
    pub safe fn tasulogi_next_down(x: f64) -> f64;
    pub safe fn tasulogi_min(a: f64, b: f64) -> f64;
    pub safe fn tasulogi_max(a: f64, b: f64) -> f64;
    pub safe fn tasulogi_place(x: f64) -> i64;
    pub safe fn tasulogi_steps(lo: f64, hi: f64) -> u64;
    pub safe fn tasulogi_interval_contains(lo: f64, hi: f64, x: f64) -> u32;
    pub safe fn tasulogi_interval_sign(lo: f64, hi: f64) -> u32;
    pub safe fn tasulogi_class_of(number: u32) -> u8;

    pub fn tasulogi_find_span(degree: usize, count: usize, knots: *const f64, knots_n: usize, u: f64) -> u64;
    pub fn tasulogi_find_span_clamped(degree: usize, count: usize, knots: *const f64, knots_n: usize, u: f64) -> u64;
    pub fn tasulogi_next_span(degree: usize, count: usize, knots: *const f64, knots_n: usize, from: usize) -> usize;
    pub fn tasulogi_clamp(degree: usize, count: usize, u: f64, knots: *const f64, knots_n: usize) -> f64;
}

/// Functions that take a table in the parts named, then numbers, a run that is read, a lent run of whole numbers, and
/// lent runs of doubles; callers hand over table and runs whole. All that take one kind of table return one type.
macro_rules! exported {
    ($table:tt -> $answer:ty; $(fn $name:ident $takes:tt $(reads $read:ident)? $(marks $mark:ident)? $(lends $($out:ident),+)?;)*) => {
        $(exported! { @one $table $name $takes ($($read)?) ($($mark)?) $answer; $($($out)+)? })*
    };
    (@one ($($t:ident: $table:ty => $($part:expr, $kind:ty;)*)?) $name:ident ($($x:ident: $number:ty),*) ($($read:ident)?)
        ($($mark:ident)?) $answer:ty; $($out:ident)*) => {
        #[inline]
        pub fn $name(
            $($t: $table,)? $($x: $number,)* $($read: &[f64],)? $($mark: &mut [u32],)? $($out: &mut [f64],)*
        ) -> $answer {
            unsafe extern "C" {
                fn $name(
                    $($(_: $kind,)*)? $($x: $number,)* $($read: *const f64, _: usize,)? $($mark: *mut u32, _: usize,)?
                    $($out: *mut f64, _: usize,)*
                ) -> $answer;
            }
            unsafe {
                $name(
                    $($($part,)*)? $($x,)* $($read.as_ptr(), $read.len(),)? $($mark.as_mut_ptr(), $mark.len(),)?
                    $($out.as_mut_ptr(), $out.len(),)*
                )
            }
        }
    };
}

exported! {
    () -> u32;
    fn tasulogi_interval_entire() lends out;
    fn tasulogi_interval_new(lo: f64, hi: f64) lends out;
    fn tasulogi_interval_point(x: f64) lends out;
    fn tasulogi_interval_width(lo: f64, hi: f64) lends out;
    fn tasulogi_interval_sqr(lo: f64, hi: f64) lends out;
    fn tasulogi_interval_neg(lo: f64, hi: f64) lends out;
    fn tasulogi_interval_hull(al: f64, ah: f64, bl: f64, bh: f64) lends out;
    fn tasulogi_interval_add(al: f64, ah: f64, bl: f64, bh: f64) lends out;
    fn tasulogi_interval_sub(al: f64, ah: f64, bl: f64, bh: f64) lends out;
    fn tasulogi_interval_mul(al: f64, ah: f64, bl: f64, bh: f64) lends out;
    fn tasulogi_interval_divide(al: f64, ah: f64, bl: f64, bh: f64) lends out;
}

exported! {
    (c: &Curve =>
        c.degree, usize;
        c.knots.as_ptr(), *const f64; c.knots.len(), usize;
        c.points.as_ptr(), *const f64; c.points.len(), usize;
        c.rational, bool;
        c.weights.as_ptr(), *const f64; c.weights.len(), usize;
    ) -> u64;
    fn tasulogi_curve_refusal();
    fn tasulogi_bound_curve(lo: f64, hi: f64) lends out;
    fn tasulogi_bound_point(lo: f64, hi: f64) lends out;
    fn tasulogi_eval(t: f64) lends out;
    fn tasulogi_eval_clamped(t: f64) lends out;
    fn tasulogi_eval2(t: f64) lends out;
    fn tasulogi_eval2_clamped(t: f64) lends out;
    fn tasulogi_eval_many() reads ts marks numbers lends rows;
    fn tasulogi_eval_many_clamped() reads ts marks numbers lends rows;
    fn tasulogi_eval2_many() reads ts marks numbers lends rows;
    fn tasulogi_eval2_many_clamped() reads ts marks numbers lends rows;
    fn tasulogi_bound_spans() marks spans lends boxes;
    fn tasulogi_bound_points() marks spans lends boxes;
    fn tasulogi_reversed() lends knots, points, weights;
    fn tasulogi_insert_knots() reads inserted lends knots, points, weights, scratch;
    fn tasulogi_trim(lo: f64, hi: f64) lends knots, points, weights, scratch;
    fn tasulogi_elevate_degree(raised: usize) lends knots, points, weights, scratch;
}

exported! {
    (s: &Surface =>
        s.degrees[0], usize; s.degrees[1], usize;
        s.knots[0].as_ptr(), *const f64; s.knots[0].len(), usize;
        s.knots[1].as_ptr(), *const f64; s.knots[1].len(), usize;
        s.counts[0], usize; s.counts[1], usize;
        s.points.as_ptr(), *const f64; s.points.len(), usize;
        s.rational, bool;
        s.weights.as_ptr(), *const f64; s.weights.len(), usize;
    ) -> u64;
    fn tasulogi_surface_refusal();
    fn tasulogi_bound_surface(u_lo: f64, u_hi: f64, v_lo: f64, v_hi: f64) lends out;
    fn tasulogi_eval_surface(u: f64, v: f64) lends out;
    fn tasulogi_eval_surface_clamped(u: f64, v: f64) lends out;
    fn tasulogi_iso_curve(constant_u: bool, t: f64) lends points, weights;
}
