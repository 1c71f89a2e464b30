//! The C functions as tasulogi.h declares them. A run crosses as a pointer and a length.
use crate::{Curve, Surface};

unsafe extern "C" {
    pub safe fn tasulogi_class_of(number: u32) -> u8;
    pub safe fn tasulogi_interval_contains(lo: f64, hi: f64, x: f64) -> u32;
    pub safe fn tasulogi_interval_sign(lo: f64, hi: f64) -> u32;
    fn tasulogi_next_span(degree: usize, count: usize, knots: *const f64, knots_n: usize, from: usize) -> usize;
}

/// The first nonempty span from a place on, or the count.
pub fn next_span(degree: usize, count: usize, knots: &[f64], from: usize) -> usize {
    // SAFETY: pointer and length are those of a slice.
    unsafe { tasulogi_next_span(degree, count, knots.as_ptr(), knots.len(), from) }
}

/// Functions that take a table in the parts named, or none, then numbers, a run that is read, a lent run of whole
/// numbers, and lent runs of doubles. All of one table return the same kind of number.
macro_rules! calls {
    ($table:tt -> $answer:ident; $(fn $name:ident = $symbol:literal $takes:tt $(reads $read:ident)? $(marks $mark:ident)?
        $(lends $($out:ident),+)?;)*) => {
        $(calls! { @one $table $answer $name $symbol $takes ($($read)?) ($($mark)?) $($($out)+)? })*
    };
    (@one ($($t:ident: $table:ty => $($part:expr, $kind:ty;)*)?) $answer:ident $name:ident $symbol:literal
        ($($x:ident: $number:ty),*) ($($read:ident)?) ($($mark:ident)?) $($out:ident)*) => {
        pub fn $name(
            $($t: &$table,)? $($x: $number,)* $($read: &[f64],)? $($mark: &mut [u32],)? $($out: &mut [f64],)*
        ) -> $answer {
            unsafe extern "C" {
                #[link_name = $symbol]
                fn call(
                    $($(_: $kind,)*)? $($x: $number,)* $($read: *const f64, _: usize,)? $($mark: *mut u32, _: usize,)?
                    $($out: *mut f64, _: usize,)*
                ) -> $answer;
            }
            // SAFETY: each pointer and length are those of a slice, and the lent ones overlap no other.
            unsafe {
                call(
                    $($($part,)*)? $($x,)* $($read.as_ptr(), $read.len(),)? $($mark.as_mut_ptr(), $mark.len(),)?
                    $($out.as_mut_ptr(), $out.len(),)*
                )
            }
        }
    };
}

calls! {
    () -> u32;
    fn interval_new = "tasulogi_interval_new"(lo: f64, hi: f64) lends out;
    fn interval_point = "tasulogi_interval_point"(x: f64) lends out;
    fn interval_width = "tasulogi_interval_width"(lo: f64, hi: f64) lends out;
    fn interval_sqr = "tasulogi_interval_sqr"(lo: f64, hi: f64) lends out;
    fn interval_neg = "tasulogi_interval_neg"(lo: f64, hi: f64) lends out;
    fn interval_hull = "tasulogi_interval_hull"(al: f64, ah: f64, bl: f64, bh: f64) lends out;
    fn interval_add = "tasulogi_interval_add"(al: f64, ah: f64, bl: f64, bh: f64) lends out;
    fn interval_sub = "tasulogi_interval_sub"(al: f64, ah: f64, bl: f64, bh: f64) lends out;
    fn interval_mul = "tasulogi_interval_mul"(al: f64, ah: f64, bl: f64, bh: f64) lends out;
    fn interval_divide = "tasulogi_interval_divide"(al: f64, ah: f64, bl: f64, bh: f64) lends out;
}

// Of a curve its knots and the count of its points: the span, or a refusal with its number in the high half.
calls! {
    (c: Curve<'_> => c.degree, usize; c.count(), usize; c.knots.as_ptr(), *const f64; c.knots.len(), usize;) -> u64;
    fn find_span = "tasulogi_find_span"(u: f64);
    fn find_span_clamped = "tasulogi_find_span_clamped"(u: f64);
}

calls! {
    (c: Curve<'_> =>
        c.degree, usize;
        c.knots.as_ptr(), *const f64; c.knots.len(), usize;
        c.points.as_ptr(), *const f64; c.points.len(), usize;
        c.weights.is_some(), bool;
        c.weights.unwrap_or(&[]).as_ptr(), *const f64; c.weights.unwrap_or(&[]).len(), usize;
    ) -> u64;
    fn curve_refusal = "tasulogi_curve_refusal"();
    fn bound_curve = "tasulogi_bound_curve"(lo: f64, hi: f64) lends out;
    fn bound_point = "tasulogi_bound_point"(lo: f64, hi: f64) lends out;
    fn eval = "tasulogi_eval"(t: f64) lends out;
    fn eval_clamped = "tasulogi_eval_clamped"(t: f64) lends out;
    fn eval2 = "tasulogi_eval2"(t: f64) lends out;
    fn eval2_clamped = "tasulogi_eval2_clamped"(t: f64) lends out;
    fn eval_many = "tasulogi_eval_many"() reads ts marks numbers lends rows;
    fn eval_many_clamped = "tasulogi_eval_many_clamped"() reads ts marks numbers lends rows;
    fn eval2_many = "tasulogi_eval2_many"() reads ts marks numbers lends rows;
    fn eval2_many_clamped = "tasulogi_eval2_many_clamped"() reads ts marks numbers lends rows;
    fn bound_spans = "tasulogi_bound_spans"() marks spans lends boxes;
    fn bound_points = "tasulogi_bound_points"() marks spans lends boxes;
    fn reversed = "tasulogi_reversed"() lends knots, points, weights;
    fn insert_knots = "tasulogi_insert_knots"() reads inserted lends knots, points, weights, scratch;
    fn trim = "tasulogi_trim"(lo: f64, hi: f64) lends knots, points, weights, scratch;
    fn elevate_degree = "tasulogi_elevate_degree"(raised: usize) lends knots, points, weights, scratch;
}

calls! {
    (s: Surface<'_> =>
        s.degrees[0], usize; s.degrees[1], usize;
        s.knots[0].as_ptr(), *const f64; s.knots[0].len(), usize;
        s.knots[1].as_ptr(), *const f64; s.knots[1].len(), usize;
        s.counts[0], usize; s.counts[1], usize;
        s.points.as_ptr(), *const f64; s.points.len(), usize;
        s.weights.is_some(), bool;
        s.weights.unwrap_or(&[]).as_ptr(), *const f64; s.weights.unwrap_or(&[]).len(), usize;
    ) -> u64;
    fn surface_refusal = "tasulogi_surface_refusal"();
    fn bound_surface = "tasulogi_bound_surface"(u_lo: f64, u_hi: f64, v_lo: f64, v_hi: f64) lends out;
    fn eval_surface = "tasulogi_eval_surface"(u: f64, v: f64) lends out;
    fn eval_surface_clamped = "tasulogi_eval_surface_clamped"(u: f64, v: f64) lends out;
    fn iso_curve = "tasulogi_iso_curve"(constant_u: bool, t: f64) lends points, weights;
}
