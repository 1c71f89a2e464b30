//! How parameters and ranges of a table are made: inside, often at an edge, now and then outside.
use crate::doubles::double;
use crate::rng::Rng;

pub const NOT_FINITE: [f64; 3] = [f64::NAN, f64::INFINITY, f64::NEG_INFINITY];

/// A parameter: at a knot or next to one, inside a span, outside the domain, not finite, or anything.
pub fn parameter(r: &mut Rng, knots: &[f64]) -> f64 {
    if knots.is_empty() {
        return double(r);
    }
    let at = r.below(knots.len() as u64) as usize;
    let (a, b) = (knots[at], knots[(at + 1).min(knots.len() - 1)]);
    match r.below(16) {
        0..5 => a,
        5 => -a,
        6 => a.next_up(),
        7 => a.next_down(),
        8..12 => inside(r, a, b),
        12 => a - 1.0,
        13 => a + 1.0,
        14 => r.pick(&NOT_FINITE),
        _ => double(r),
    }
}

/// A parameter of a call that looks at the domain: one in four is an end of it, its negative (the other zero
/// where the end is 0), or next to an end.
pub fn of_domain(r: &mut Rng, degree: usize, count: usize, knots: &[f64]) -> f64 {
    match knots.get(r.pick(&[degree, count])) {
        Some(&end) if r.below(4) == 0 => r.pick(&[end, -end, end.next_up(), end.next_down()]),
        _ => parameter(r, knots),
    }
}

/// A double between two, or one of them.
pub fn inside(r: &mut Rng, a: f64, b: f64) -> f64 {
    let x = a + (b - a) * r.unit();
    if x >= a && x <= b { x } else { a }
}

/// A closed range: of one span, inside it, one point, across spans, reversed, outside, not finite.
pub fn range(r: &mut Rng, degree: usize, count: usize, knots: &[f64]) -> (f64, f64) {
    if degree >= count || count >= knots.len() || r.below(32) == 0 {
        return (parameter(r, knots), parameter(r, knots));
    }
    let mut s = degree + r.below((count - degree) as u64) as usize;
    // An empty span is kept now and then.
    if r.below(8) > 0 {
        s = (s..count).chain(degree..s).find(|&i| knots[i] < knots[i + 1]).unwrap_or(s);
    }
    let (a, b) = (knots[s], knots[s + 1]);
    match r.below(32) {
        0..6 => (a, b),
        6..14 => {
            let (x, y) = (inside(r, a, b), inside(r, a, b));
            (x.min(y), x.max(y))
        }
        14..20 => {
            let x = inside(r, a, b);
            let width = (b - a) * 2f64.powi(-(r.below(50) as i32));
            let y = x + width;
            if y <= b { (x, y) } else { (x, b) }
        }
        20 | 21 => (a, a),
        22 => (b, b),
        23 | 24 => {
            let x = inside(r, a, b);
            (x, x)
        }
        25 => (a, b.next_up()),
        26 => (a.next_down(), b),
        27 => (a, knots[count]),
        28 => (knots[degree], knots[count]),
        29 => (b, a),
        30 => (-a, b),
        _ => (r.pick(&NOT_FINITE), b),
    }
}
