use crate::face;
use std::iter::FusedIterator;

/// A nonempty span: its index, and the knots on both sides of it.
#[derive(Clone, Copy, Debug, PartialEq)]
pub struct Span {
    pub index: usize,
    pub lo: f64,
    pub hi: f64,
}

/// The nonempty spans of a curve, by [`Curve::spans`](crate::Curve::spans).
#[derive(Clone, Debug)]
pub struct Spans<'a> {
    pub(crate) degree: usize,
    pub(crate) count: usize,
    pub(crate) knots: &'a [f64],
    /// Where the next one is looked for.
    pub(crate) from: usize,
}

impl Iterator for Spans<'_> {
    type Item = Span;

    fn next(&mut self) -> Option<Span> {
        let index = face::next_span(self.degree, self.count, self.knots, self.from);
        if index >= self.count {
            self.from = self.count;
            return None;
        }
        self.from = index + 1;
        Some(Span { index, lo: *self.knots.get(index)?, hi: *self.knots.get(index + 1)? })
    }
}

impl FusedIterator for Spans<'_> {}
