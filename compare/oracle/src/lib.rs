//! The published Rust as the comparison calls it, and document 01's refusal numbers, read off its error texts.
pub mod seen;
pub mod worked;

pub use gensolid_core::Precision;
use gensolid_core::{Error, ErrorCode, Result};
pub use gensolid_geom::nurbs_bounds::{NurbsBounds, bound_curve, bound_surface};
pub use gensolid_geom::window::{basis_derivatives, divide, find_span, knot_spans};
pub use gensolid_geom::{BCurve, BSurface, CurveDerivs, ParamRange, SurfaceDerivs};
pub use gensolid_math::{Interval, Point3, Sign, Vec3};
pub use noting;

/// A number of document 01, and 0 (u), 1 (v) or 2 (none).
#[derive(Clone, Copy, Debug, PartialEq, Eq)]
pub struct Refusal {
    pub number: u32,
    pub direction: u32,
}

/// How a text begins, and its number. The texts of 1 to 7 stand behind the direction.
const TEXTS: [(&str, u32); 30] = [
    ("degree must be at least 1", 1),
    ("need at least degree + 1", 2),
    ("knot count must equal", 3),
    ("knots must be finite and non-decreasing", 4),
    ("parameter domain is empty", 5),
    ("domain width must be finite", 6),
    ("knot multiplicity exceeds", 7),
    ("control points must be finite", 8),
    ("weight count must", 9),
    ("weights must be finite", 10),
    ("control net size", 11),
    ("curve parameter must be finite", 12),
    ("inserted knots must be inside", 13),
    ("inserted knot exceeds", 14),
    ("trim interval", 15),
    ("elevated degree", 16),
    ("spline edits currently", 17),
    ("degree elevation is limited", 18),
    ("homogeneous curve coordinates", 19),
    ("edited homogeneous", 20),
    ("curve derivatives are not representable", 21),
    ("isoparameter outside", 22),
    ("invalid homogeneous isocurve", 23),
    ("invalid interval parameter domain", 24),
    ("bound domain must", 25),
    ("interval denominator", 26),
    ("weight dynamic range", 27),
    ("unbounded quotient", 28),
    ("invalid weight range", 28),
    ("homogeneous weight enclosure", 29),
];

/// The refusal of an error. An error with no number, or of another class than 01's, is a panic: the table is wrong.
pub fn refusal(e: &Error) -> Refusal {
    let text = e.text.as_str();
    let whole = TEXTS.iter().find(|t| t.1 > 7 && text.starts_with(t.0));
    let behind = TEXTS.iter().find(|t| (1..=7).contains(&t.1) && text.contains(t.0));
    let number = whole.or(behind).map_or(0, |t| t.1);
    assert!(number != 0, "no number of document 01: {text}");
    assert_eq!(class_of(number), class(e.code), "the class of {number}: {text}");
    let direction = match text.as_bytes() {
        [b'u', b':' | b' ', ..] if number <= 7 => 0,
        [b'v', b':' | b' ', ..] if number <= 7 => 1,
        _ => 2,
    };
    Refusal { number, direction }
}

/// The number of a result, 0 where it is an answer.
pub fn number<T>(r: &Result<T>) -> u32 {
    r.as_ref().map_or_else(|e| refusal(e).number, |_| 0)
}

/// Document 01's class of a number: invalid, degenerate, unimplemented, capacity, internal.
pub fn class_of(number: u32) -> char {
    match number {
        5 | 19 | 20 | 21 | 23 | 28 => 'D',
        17 | 26 | 27 => 'U',
        18 | 30 | 31 => 'C',
        29 => 'N',
        _ => 'I',
    }
}

fn class(code: ErrorCode) -> char {
    match code {
        ErrorCode::InvalidArgument => 'I',
        ErrorCode::Degenerate => 'D',
        ErrorCode::Unimplemented => 'U',
        ErrorCode::CapacityExceeded => 'C',
        ErrorCode::Internal => 'N',
        ErrorCode::Unsupported => '?',
    }
}
