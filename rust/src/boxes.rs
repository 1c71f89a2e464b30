use crate::{Interval, Refusal, Span, refusal};

/// What is known of a curve over a range, or of a surface over two: intervals of x, y and z.
///
/// At every fraction of the range, the ends and all doubles among them, and of a surface at every pair of fractions of its
/// two ranges, the exact point lies in `point`, its exact first derivative along u in `du` and that along v in `dv`. A
/// curve's one parameter is u, and its `dv` encloses 0. All are worked out on the first nonempty span, of each direction, that
/// contains the range. An infinite end sets no limit. Refusals 28 and 29 are never given.
#[derive(Clone, Copy, Debug, PartialEq)]
pub struct BoundBox {
    pub point: [Interval; 3],
    pub du: [Interval; 3],
    pub dv: [Interval; 3],
}

/// A nonempty span and what is known of the curve on it, or why nothing is.
#[derive(Clone, Copy, Debug, PartialEq)]
pub struct SpanBox {
    pub span: Span,
    pub bounds: Result<BoundBox, Refusal>,
}

/// A nonempty span and the intervals of the curve's point on it, or why there are none.
#[derive(Clone, Copy, Debug, PartialEq)]
pub struct SpanBound {
    pub span: Span,
    pub point: Result<[Interval; 3], Refusal>,
}

/// How many numbers a box has, and the point of one.
pub(crate) const NUMBERS: usize = 18;
pub(crate) const POINT: usize = 6;

/// Three intervals of six numbers: x, y, z, each low before high.
pub(crate) fn three(numbers: &[f64]) -> [Interval; 3] {
    [0, 2, 4].map(|i| Interval::of([numbers[i], numbers[i + 1]]))
}

impl BoundBox {
    /// Of the numbers that a bound writes: point, du, dv, each x, y, z, each low before high.
    pub(crate) fn of(numbers: &[f64]) -> Self {
        Self { point: three(numbers), du: three(&numbers[6..]), dv: three(&numbers[12..]) }
    }

    /// The box that a call writes.
    pub(crate) fn by(call: impl FnOnce(&mut [f64]) -> u64) -> Result<Self, Refusal> {
        let mut out = [0.0; NUMBERS];
        refusal::done(call(&mut out))?;
        Ok(Self::of(&out))
    }
}
