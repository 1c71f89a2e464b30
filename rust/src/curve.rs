use crate::boxes::{NUMBERS, POINT, three};
use crate::refusal::{answered, done};
use crate::{BoundBox, Interval, Refusal, Span, SpanBound, SpanBox, Spans, face, room, vectors};

/// A curve over borrowed runs: `points` has x, y, z of each point, `weights` one number for each.
///
/// Any numbers and lengths may be given; what makes no curve is refused by each call.
#[derive(Clone, Copy, Debug, PartialEq)]
pub struct Curve<'a> {
    pub degree: usize,
    pub knots: &'a [f64],
    pub points: &'a [f64],
    pub weights: Option<&'a [f64]>,
}

/// Document 01's table A: degree 2, x = 0 2 4 6 over the domain from 0 to 2.
pub const TABLE_A: Curve<'static> = Curve {
    degree: 2,
    knots: &[0.0, 0.0, 0.0, 1.0, 2.0, 2.0, 2.0],
    points: &[0.0, 0.0, 0.0, 2.0, 0.0, 0.0, 4.0, 0.0, 0.0, 6.0, 0.0, 0.0],
    weights: None,
};

/// A point and its first derivative, x, y, z of each.
pub type Point = [[f64; 3]; 2];

/// A point and two derivatives, x, y, z of each.
pub type Point2 = [[f64; 3]; 3];

/// A row of N vectors for each of n parameters, or its own refusal.
fn rows<const N: usize>(
    n: usize,
    call: impl FnOnce(&mut [u32], &mut [f64]) -> u64,
) -> Result<Vec<Result<[[f64; 3]; N], Refusal>>, Refusal> {
    let (mut numbers, mut rows) = (room(n)?, room(3 * N * n)?);
    done(call(&mut numbers, &mut rows))?;
    let of = |row: &[f64]| std::array::from_fn(|i| [0, 1, 2].map(|k| row[3 * i + k]));
    let row = |(number, row): (&u32, &[f64])| done(u64::from(*number)).map(|()| of(row));
    Ok(numbers.iter().zip(rows.chunks(3 * N)).map(row).collect())
}

impl<'a> Curve<'a> {
    /// Whether this is a curve: refusals 30, 32, 1 to 10, the first in this order.
    ///
    /// ```
    /// use tasulogi::{Class, Curve, TABLE_A};
    /// assert_eq!(TABLE_A.validate(), Ok(()));
    /// let refusal = Curve { knots: &[0.0, 0.0, 1.0, 1.0], ..TABLE_A }.validate().unwrap_err();
    /// assert_eq!((refusal.number, refusal.class()), (3, Class::Invalid));
    /// assert_eq!(refusal.text(), "knots are not count + degree + 1");
    /// let refusal = Curve { weights: Some(&[1.0, 1.0, 0.0, 1.0]), ..TABLE_A }.validate().unwrap_err();
    /// assert_eq!(refusal.to_string(), "refusal 10 at weight 2: a weight is not finite and above 0");
    /// ```
    pub fn validate(&self) -> Result<(), Refusal> {
        done(face::curve_refusal(self))
    }

    /// The span of `t`; 12 where it is not finite, 43 where it lies outside the domain. Only the knots and the count of
    /// points are looked at.
    ///
    /// ```
    /// use tasulogi::TABLE_A;
    /// assert_eq!([0.0, 0.5, 1.0, 2.0].map(|t| TABLE_A.span(t)), [Ok(2), Ok(2), Ok(3), Ok(3)]);
    /// assert_eq!([f64::INFINITY, -1.0, 3.0].map(|t| TABLE_A.span(t).unwrap_err().number), [12, 43, 43]);
    /// ```
    pub fn span(&self, t: f64) -> Result<usize, Refusal> {
        self.span_by(face::find_span, t)
    }

    /// The span of `t`; outside the domain that of the nearer end. Else as [`Curve::span`].
    ///
    /// ```
    /// use tasulogi::TABLE_A;
    /// assert_eq!([-1.0, 0.5, 3.0].map(|t| TABLE_A.span_clamped(t)), [Ok(2), Ok(2), Ok(3)]);
    /// assert_eq!(TABLE_A.span_clamped(f64::INFINITY).unwrap_err().number, 12);
    /// ```
    pub fn span_clamped(&self, t: f64) -> Result<usize, Refusal> {
        self.span_by(face::find_span_clamped, t)
    }

    fn span_by(&self, find: fn(&Curve, f64) -> u64, t: f64) -> Result<usize, Refusal> {
        if !self.points.len().is_multiple_of(3) {
            // There is no count; the curve is refused by 30 or 32.
            self.validate()?;
        }
        answered(find(self, t))
    }

    /// The nonempty spans in order, of a curve that is valid: a table that is none must not look like one without spans.
    ///
    /// ```
    /// use tasulogi::{Curve, TABLE_A};
    /// let spans: Vec<_> = TABLE_A.spans()?.map(|s| (s.index, s.lo, s.hi)).collect();
    /// assert_eq!(spans, [(2, 0.0, 1.0), (3, 1.0, 2.0)]);
    /// for span in TABLE_A.spans()? {
    ///     assert!(TABLE_A.bound(span.lo, span.hi).is_ok());
    /// }
    /// assert_eq!(Curve { degree: 0, ..TABLE_A }.spans().unwrap_err().text(), "degree 0");
    /// # Ok::<(), tasulogi::Refusal>(())
    /// ```
    pub fn spans(&self) -> Result<Spans<'a>, Refusal> {
        self.validate()?;
        Ok(Spans { degree: self.degree, count: self.count(), knots: self.knots, from: 0 })
    }

    /// The point and the first derivative at `t`; 12 where it is not finite, 43 where it lies outside the domain.
    ///
    /// ```
    /// use tasulogi::TABLE_A;
    /// assert_eq!(TABLE_A.eval(0.5), Ok([[1.75, 0.0, 0.0], [3.0, 0.0, 0.0]]));
    /// assert_eq!(TABLE_A.eval(f64::NAN).unwrap_err().to_string(), "refusal 12: evaluation parameter not finite");
    /// assert_eq!(TABLE_A.eval(3.0).unwrap_err().to_string(), "refusal 43: evaluation parameter outside the domain");
    /// // Both ends are inside; an end that is 0 has either sign.
    /// assert_eq!(TABLE_A.eval(2.0)?[0], [6.0, 0.0, 0.0]);
    /// assert_eq!(TABLE_A.eval(-0.0)?[0], [0.0, 0.0, 0.0]);
    /// # Ok::<(), tasulogi::Refusal>(())
    /// ```
    pub fn eval(&self, t: f64) -> Result<Point, Refusal> {
        vectors(|out| face::eval(self, t, out))
    }

    /// The point and the first derivative at `t`; outside the domain those of the nearer end. Else as [`Curve::eval`].
    ///
    /// ```
    /// use tasulogi::TABLE_A;
    /// assert_eq!(TABLE_A.eval_clamped(3.0), TABLE_A.eval(2.0));
    /// assert_eq!(TABLE_A.eval_clamped(-1.0), TABLE_A.eval(0.0));
    /// assert_eq!(TABLE_A.eval_clamped(0.5), TABLE_A.eval(0.5));
    /// assert_eq!(TABLE_A.eval_clamped(f64::INFINITY).unwrap_err().number, 12);
    /// ```
    pub fn eval_clamped(&self, t: f64) -> Result<Point, Refusal> {
        vectors(|out| face::eval_clamped(self, t, out))
    }

    /// The point and two derivatives at `t`; refused as [`Curve::eval`], then by 21 where one of them is not finite.
    ///
    /// ```
    /// use tasulogi::TABLE_A;
    /// assert_eq!(TABLE_A.eval2(0.5), Ok([[1.75, 0.0, 0.0], [3.0, 0.0, 0.0], [-2.0, 0.0, 0.0]]));
    /// assert_eq!([f64::NAN, 3.0].map(|t| TABLE_A.eval2(t).unwrap_err().number), [12, 43]);
    /// ```
    pub fn eval2(&self, t: f64) -> Result<Point2, Refusal> {
        vectors(|out| face::eval2(self, t, out))
    }

    /// The point and two derivatives at `t`; outside the domain those of the nearer end. Else as [`Curve::eval2`].
    ///
    /// ```
    /// use tasulogi::TABLE_A;
    /// assert_eq!(TABLE_A.eval2_clamped(3.0), TABLE_A.eval2(2.0));
    /// assert_eq!(TABLE_A.eval2_clamped(f64::NAN).unwrap_err().number, 12);
    /// ```
    pub fn eval2_clamped(&self, t: f64) -> Result<Point2, Refusal> {
        vectors(|out| face::eval2_clamped(self, t, out))
    }

    /// Intervals of x, y, z of the point from `lo` to `hi`: `point` of [`Curve::bound_box`], and refused as that.
    ///
    /// ```
    /// use tasulogi::{Class, TABLE_A};
    /// let [x, _, _] = TABLE_A.bound(0.5, 0.5)?;
    /// assert!(x.contains(1.75) && x.width() < 1e-12);
    /// let refusal = TABLE_A.bound(0.5, 1.5).unwrap_err();
    /// assert_eq!((refusal.number, refusal.class()), (25, Class::Invalid));
    /// assert_eq!(refusal.text(), "no nonempty span contains the bound range");
    /// # Ok::<(), tasulogi::Refusal>(())
    /// ```
    pub fn bound(&self, lo: f64, hi: f64) -> Result<[Interval; 3], Refusal> {
        let mut out = [0.0; POINT];
        done(face::bound_point(self, lo, hi, &mut out))?;
        Ok(three(&out))
    }

    /// The box of the curve from `lo` to `hi`, which lie in one span; [`BoundBox`] says what it holds. Refusals after those of
    /// the curve: 31, 24, 25, 27, 26.
    ///
    /// ```
    /// use tasulogi::TABLE_A;
    /// // From 0 to 1 it is x = 4t - t², whose derivative is 4 - 2t.
    /// let at_half = TABLE_A.bound_box(0.5, 0.5)?;
    /// assert!(at_half.du[0].contains(3.0) && at_half.du[0].width() < 1e-12);
    /// let whole = TABLE_A.bound_box(0.0, 1.0)?;
    /// assert!(whole.du[0].contains(4.0) && whole.du[0].contains(2.0) && whole.dv[0].contains(0.0));
    /// assert_eq!(whole.point, TABLE_A.bound(0.0, 1.0)?);
    /// # Ok::<(), tasulogi::Refusal>(())
    /// ```
    pub fn bound_box(&self, lo: f64, hi: f64) -> Result<BoundBox, Refusal> {
        BoundBox::by(|out| face::bound_curve(self, lo, hi, out))
    }

    /// The point and the first derivative at each parameter, with the curve checked once: what [`Curve::eval`] answers.
    ///
    /// ```
    /// use tasulogi::{Curve, TABLE_A};
    /// let ts = [0.5, f64::NAN, 2.0, 3.0];
    /// let points = TABLE_A.eval_many(&ts)?;
    /// assert_eq!(points, ts.map(|t| TABLE_A.eval(t)));
    /// assert_eq!([1, 3].map(|i| points[i].unwrap_err().number), [12, 43]);
    /// assert_eq!(Curve { degree: 65, ..TABLE_A }.eval_many(&ts).unwrap_err().number, 2);
    /// # Ok::<(), tasulogi::Refusal>(())
    /// ```
    pub fn eval_many(&self, ts: &[f64]) -> Result<Vec<Result<Point, Refusal>>, Refusal> {
        rows(ts.len(), |numbers, rows| face::eval_many(self, ts, numbers, rows))
    }

    /// The same with what [`Curve::eval_clamped`] answers.
    ///
    /// ```
    /// use tasulogi::TABLE_A;
    /// let ts = [-1.0, 0.5, 3.0];
    /// assert_eq!(TABLE_A.eval_many_clamped(&ts)?, [0.0, 0.5, 2.0].map(|t| TABLE_A.eval(t)));
    /// # Ok::<(), tasulogi::Refusal>(())
    /// ```
    pub fn eval_many_clamped(&self, ts: &[f64]) -> Result<Vec<Result<Point, Refusal>>, Refusal> {
        rows(ts.len(), |numbers, rows| face::eval_many_clamped(self, ts, numbers, rows))
    }

    /// The point and two derivatives at each parameter, with the curve checked once: what [`Curve::eval2`] answers.
    ///
    /// ```
    /// use tasulogi::TABLE_A;
    /// let ts = [0.5, f64::NAN, 2.0, 3.0];
    /// assert_eq!(TABLE_A.eval2_many(&ts)?, ts.map(|t| TABLE_A.eval2(t)));
    /// # Ok::<(), tasulogi::Refusal>(())
    /// ```
    pub fn eval2_many(&self, ts: &[f64]) -> Result<Vec<Result<Point2, Refusal>>, Refusal> {
        rows(ts.len(), |numbers, rows| face::eval2_many(self, ts, numbers, rows))
    }

    /// The same with what [`Curve::eval2_clamped`] answers.
    ///
    /// ```
    /// use tasulogi::TABLE_A;
    /// let ts = [-1.0, 0.5, 3.0];
    /// assert_eq!(TABLE_A.eval2_many_clamped(&ts)?, [0.0, 0.5, 2.0].map(|t| TABLE_A.eval2(t)));
    /// # Ok::<(), tasulogi::Refusal>(())
    /// ```
    pub fn eval2_many_clamped(&self, ts: &[f64]) -> Result<Vec<Result<Point2, Refusal>>, Refusal> {
        rows(ts.len(), |numbers, rows| face::eval2_many_clamped(self, ts, numbers, rows))
    }

    /// What [`Curve::bound`] answers on each nonempty span, in order, with the curve checked once. [`Curve::bound_boxes`]
    /// answers the derivatives too.
    ///
    /// ```
    /// use tasulogi::{Curve, TABLE_A};
    /// for b in TABLE_A.bound_spans()? {
    ///     assert_eq!(b.point, TABLE_A.bound(b.span.lo, b.span.hi));
    /// }
    /// assert_eq!(TABLE_A.bound_spans()?.len(), 2);
    /// assert_eq!(Curve { degree: 0, ..TABLE_A }.bound_spans().unwrap_err().text(), "degree 0");
    /// # Ok::<(), tasulogi::Refusal>(())
    /// ```
    pub fn bound_spans(&self) -> Result<Vec<SpanBound>, Refusal> {
        self.each_span(POINT, face::bound_points, |span, point| SpanBound { span, point: point.map(three) })
    }

    /// What [`Curve::bound_box`] answers on each nonempty span, in order, with the curve checked once: the limits of the speed
    /// are read from `du`.
    ///
    /// ```
    /// use tasulogi::TABLE_A;
    /// for row in TABLE_A.bound_boxes()? {
    ///     assert_eq!(row.bounds, TABLE_A.bound_box(row.span.lo, row.span.hi));
    /// }
    /// # Ok::<(), tasulogi::Refusal>(())
    /// ```
    pub fn bound_boxes(&self) -> Result<Vec<SpanBox>, Refusal> {
        self.each_span(NUMBERS, face::bound_spans, |span, numbers| SpanBox { span, bounds: numbers.map(BoundBox::of) })
    }

    /// The rows that a call writes for the nonempty spans, of `width` numbers each.
    fn each_span<T>(
        &self,
        width: usize,
        call: fn(&Self, &mut [u32], &mut [f64]) -> u64,
        made: impl Fn(Span, Result<&[f64], Refusal>) -> T,
    ) -> Result<Vec<T>, Refusal> {
        let most = self.count().saturating_sub(self.degree);
        let (mut marks, mut boxes) = (room(2 * most)?, room(width * most)?);
        let count = answered(call(self, &mut marks, &mut boxes))?;
        let row = |(mark, numbers): (&[u32], &[f64])| {
            let index = mark[0] as usize;
            let span = Span { index, lo: self.knots[index], hi: self.knots[index + 1] };
            made(span, done(u64::from(mark[1])).map(|()| numbers))
        };
        Ok(marks.chunks(2).zip(boxes.chunks(width)).take(count).map(row).collect())
    }

    pub(crate) fn count(&self) -> usize {
        self.points.len() / 3
    }
}
