//! The worked numbers of document 01, asked of the published Rust.
use crate::{BCurve, Interval, ParamRange, Point3, basis_derivatives, bound_curve, find_span, number};

/// Each worked number by name, and whether the Rust gives it.
pub fn worked() -> Vec<(&'static str, bool)> {
    let mut rows = intervals();
    rows.extend(splines());
    rows
}

fn is(i: Interval, lo: f64, hi: f64) -> bool {
    i.lo().to_bits() == lo.to_bits() && i.hi().to_bits() == hi.to_bits()
}

fn intervals() -> Vec<(&'static str, bool)> {
    let point = Interval::point;
    let t = f64::from_bits(1);
    let ulp = 2f64.powi(-51);
    vec![
        ("[1,1] + [2,2]", is(point(1.0) + point(2.0), 3.0 - ulp, 3.0 + ulp)),
        ("[0,0] * [5,5]", is(point(0.0) * point(5.0), -t, t)),
        ("sqr of [-1,2]", Interval::new(-1.0, 2.0).is_some_and(|i| is(i.sqr(), 0.0, 4.0 + 2.0 * ulp))),
        ("next_up of -2^-1074", (-t).next_up().to_bits() == (-0f64).to_bits()),
        ("next_up of both zeros", 0f64.next_up() == t && (-0f64).next_up() == t),
    ]
}

fn on_x(x: &[f64]) -> Vec<Point3> {
    x.iter().map(|&x| Point3::new(x, 0.0, 0.0)).collect()
}

fn curve(degree: usize, knots: &[f64], x: &[f64]) -> gensolid_core::Result<BCurve> {
    BCurve::new(degree, knots.to_vec(), on_x(x), None)
}

fn has(c: &BCurve, x: &[f64], knots: &[f64]) -> bool {
    c.points() == on_x(x) && c.knots() == knots
}

fn splines() -> Vec<(&'static str, bool)> {
    let knots = [0.0, 0.0, 0.0, 1.0, 2.0, 2.0, 2.0];
    let a = curve(2, &knots, &[0.0, 2.0, 4.0, 6.0]).expect("table A");
    let line = curve(1, &[0.0, 0.0, 1.0, 1.0], &[0.0, 2.0]).expect("a line");
    let t = f64::from_bits(1);
    let short = curve(1, &[0.0, 0.0, t, t], &[0.0, 1.0]).expect("accepted");
    let basis = basis_derivatives(2, 0.5, 2, 1, &knots);
    let range = ParamRange::bounded;
    let mut ends = vec![0.0; 66];
    ends.extend([1.0; 66]);
    let high = curve(65, &ends, &[1.0; 66]).expect("degree 65");
    let x_at_1 = |x: &[f64]| curve(2, &knots, x).and_then(|c| bound_curve(&c, range(1.0, 1.0))).map(|b| b.point[0]).ok();
    vec![
        ("spans of A", [0.0, 0.5, 1.0, 2.0].map(|u| find_span(3, 2, u, &knots)) == [2, 2, 3, 3]),
        ("basis of A at 0.5", basis == [[0.25, 0.625, 0.125], [-1.0, 0.5, 0.5]]),
        (
            "A with 1 inserted",
            a.insert_knots(&[1.0]).is_ok_and(|c| has(&c, &[0.0, 2.0, 3.0, 4.0, 6.0], &[0.0, 0.0, 0.0, 1.0, 1.0, 2.0, 2.0, 2.0])),
        ),
        ("A trimmed to [0, 1]", a.trim([0.0, 1.0]).is_ok_and(|c| has(&c, &[0.0, 2.0, 3.0], &[0.0, 0.0, 0.0, 1.0, 1.0, 1.0]))),
        ("a line raised to 2", line.elevate_degree(2).is_ok_and(|c| c.points() == on_x(&[0.0, 1.0, 2.0]))),
        ("A raised to 3", a.elevate_degree(3).is_ok_and(|c| c.points().len() == 7)),
        ("bounds of A on [1, 1]: point 3 is not read", x_at_1(&[0.0, 2.0, 4.0, 6.0]) == x_at_1(&[0.0, 2.0, 4.0, 60.0])),
        ("bounds of A on [1, 1]: point 0 is read", x_at_1(&[0.0, 2.0, 4.0, 6.0]) != x_at_1(&[-60.0, 2.0, 4.0, 6.0])),
        ("bounds of A on [0.5, 1.5]", number(&bound_curve(&a, range(0.5, 1.5))) == 25),
        ("knots one subnormal apart", number(&bound_curve(&short, range(0.0, t))) == 26),
        ("0 0 1 1 2 2", curve(1, &[0.0, 0.0, 1.0, 1.0, 2.0, 2.0], &[0.0; 4]).is_ok()),
        ("0 0 1 1 1 2", number(&curve(1, &[0.0, 0.0, 1.0, 1.0, 1.0, 2.0], &[0.0; 4])) == 7),
        ("0 0 0 0", number(&curve(1, &[0.0; 4], &[0.0; 2])) == 5),
        ("degree 65 raised to 65", high.elevate_degree(65).is_ok_and(|c| c == high)),
        ("degree 65 raised to 66", number(&high.elevate_degree(66)) == 18),
    ]
}
