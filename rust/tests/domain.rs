//! Parameters at, inside and outside the domain: 12, then 43, and what a clamped method takes for the nearer end.
use std::fmt::Debug;
use tasulogi::{Curve, Refusal, Surface, TABLE_A};

/// A parameter, the number that refuses it, and the one that a clamped method looks at.
type Asked = (f64, Option<u8>, f64);

fn asked(lo: f64, hi: f64) -> Vec<Asked> {
    let inside = [lo, lo.next_up(), lo / 2.0 + hi / 2.0, hi.next_down(), hi].map(|t| (t, None, t));
    let below = [lo.next_down(), lo - 1.0, -f64::MAX].map(|t| (t, Some(43), lo));
    let above = [hi.next_up(), hi + 1.0, f64::MAX].map(|t| (t, Some(43), hi));
    let none = [f64::NAN, f64::INFINITY, -f64::INFINITY].map(|t| (t, Some(12), t));
    [inside.as_slice(), &below, &above, &none].concat()
}

/// The plain call is refused by the number, and the clamped one is the plain one at what it looks at; as text, where each
/// double has its own.
fn told<T: Debug>(number: Option<u8>, plain: Result<T, Refusal>, clamped: Result<T, Refusal>, at_end: Result<T, Refusal>) {
    assert_eq!(plain.as_ref().err().map(|r| (r.number, r.direction, r.place)), number.map(|n| (n, None, None)));
    assert_eq!(format!("{clamped:?}"), format!("{at_end:?}"));
}

fn curve(c: Curve, asked: &[Asked]) {
    for &(t, number, looked) in asked {
        told(number, c.span(t), c.span_clamped(t), c.span(looked));
        told(number, c.eval(t), c.eval_clamped(t), c.eval(looked));
        told(number, c.eval2(t), c.eval2_clamped(t), c.eval2(looked));
    }
    let ts: Vec<_> = asked.iter().map(|a| a.0).collect();
    assert_eq!(c.eval_many(&ts), Ok(ts.iter().map(|t| c.eval(*t)).collect()));
    assert_eq!(c.eval_many_clamped(&ts), Ok(ts.iter().map(|t| c.eval_clamped(*t)).collect()));
    assert_eq!(c.eval2_many(&ts), Ok(ts.iter().map(|t| c.eval2(*t)).collect()));
    assert_eq!(c.eval2_many_clamped(&ts), Ok(ts.iter().map(|t| c.eval2_clamped(*t)).collect()));
}

#[test]
fn of_curves() {
    curve(TABLE_A, &asked(0.0, 2.0));
    curve(Curve { weights: Some(&[1.0, 3.0, 0.5, 2.0]), ..TABLE_A }, &asked(0.0, 2.0));
    // Here there are knots outside the domain.
    curve(Curve { knots: &[-2.0, -1.0, 0.5, 1.0, 2.0, 3.0, 4.0], ..TABLE_A }, &asked(0.5, 2.0));
}

/// -0.0 and 0.0 are one number.
#[test]
fn of_both_zeros() {
    curve(TABLE_A, &[(-0.0, None, -0.0)]);
    curve(Curve { knots: &[-0.0, -0.0, -0.0, 1.0, 2.0, 2.0, 2.0], ..TABLE_A }, &[(0.0, None, 0.0), (-1.0, Some(43), -0.0)]);
    curve(Curve { knots: &[-2.0, -2.0, -2.0, -1.0, -0.0, -0.0, -0.0], ..TABLE_A }, &[(0.0, None, 0.0), (1.0, Some(43), -0.0)]);
}

/// Of two parameters that are refused it is u's number.
#[test]
fn of_surfaces() {
    let knots: [&[f64]; 2] = [TABLE_A.knots, &[3.0, 3.0, 5.0, 5.0]];
    let points = [TABLE_A.points, TABLE_A.points].concat();
    let s = Surface { degrees: [2, 1], knots, counts: [4, 2], points: &points, weights: None };
    for (u, first, looked_u) in asked(0.0, 2.0) {
        for (v, second, looked_v) in asked(3.0, 5.0) {
            told(first.or(second), s.eval(u, v), s.eval_clamped(u, v), s.eval(looked_u, looked_v));
        }
    }
}
