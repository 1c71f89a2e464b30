//! B-spline curves and surfaces: the proved functions of Tasulogi, called from Rust.
//!
//! A table borrows its runs of numbers, and each method answers or gives one numbered [`Refusal`]; no input makes it
//! panic. What a call needs to write to is allocated inside. Points are flat, x, y, z of each one after the other:
//! of `&[[f64; 3]]` that is `.as_flattened()`.
//!
//! ```
//! use tasulogi::{Curve, Refusal};
//! fn main() -> Result<(), Refusal> {
//!     let x = [[0.0, 0.0, 0.0], [2.0, 0.0, 0.0], [4.0, 0.0, 0.0], [6.0, 0.0, 0.0]];
//!     let knots = [0.0, 0.0, 0.0, 1.0, 2.0, 2.0, 2.0];
//!     let a = Curve { degree: 2, knots: &knots, points: x.as_flattened(), weights: None };
//!     let [point, first] = a.eval(0.5)?;
//!     assert_eq!((point[0], first[0]), (1.75, 3.0));
//!     let cut = a.trim(0.0, 1.0)?;
//!     assert_eq!(cut.as_curve().eval(0.5)?, a.eval(0.5)?);
//!     Ok(())
//! }
//! ```
//!
//! A loop that runs past the end of a table gets the points inside it, then refusal 43. Methods whose names end in
//! `_clamped` take the nearer end for a finite parameter outside the domain.
//!
//! ```
//! use tasulogi::TABLE_A;
//! // Its domain is from 0 to 2.
//! let (mut t, mut x) = (0.0, vec![]);
//! while let Ok([point, _]) = TABLE_A.eval(t) {
//!     x.push(point[0]);
//!     t += 0.5;
//! }
//! assert_eq!(x, [0.0, 1.75, 3.0, 4.25, 6.0]);
//! assert_eq!(TABLE_A.eval(t).unwrap_err().to_string(), "refusal 43: evaluation parameter outside the domain");
//! // Clamped, the same loop would not end: it would get the last point again and again.
//! assert_eq!([2.5, 3.0, 1e9].map(|t| TABLE_A.eval_clamped(t)), [TABLE_A.eval(2.0); 3]);
//! ```
mod boxes;
mod curve;
mod edits;
mod face;
mod interval;
mod refusal;
mod spans;
mod surface;

pub use boxes::{BoundBox, SpanBound, SpanBox};
pub use curve::{Curve, Point, Point2, TABLE_A};
pub use edits::CurveBuf;
pub use interval::{Interval, Sign};
pub use refusal::{Class, Direction, Refusal};
pub use spans::{Span, Spans};
pub use surface::Surface;

/// The N vectors that a call writes.
fn vectors<const N: usize>(call: impl FnOnce(&mut [f64]) -> u64) -> Result<[[f64; 3]; N], Refusal> {
    let mut out = [[0.0; 3]; N];
    refusal::done(call(out.as_flattened_mut()))?;
    Ok(out)
}

/// A run of `n` numbers to lend; 30 where there is no memory for it.
fn room<T: Clone + Default>(n: usize) -> Result<Vec<T>, Refusal> {
    let mut run = Vec::new();
    run.try_reserve_exact(n).or_else(|_| refusal::done(30))?;
    run.resize(n, T::default());
    Ok(run)
}
