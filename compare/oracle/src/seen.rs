//! What docs/DIFFERENCES.md says that the published Rust was seen to do, asked of it again.
use crate::{BCurve, BSurface, ParamRange, Point3, basis_derivatives, bound_curve, number};

const T: f64 = f64::from_bits(1);
const MAX: f64 = f64::MAX;

fn curve(degree: usize, knots: &[f64], x: &[f64], weights: Option<&[f64]>) -> BCurve {
    let points = x.iter().map(|&x| Point3::new(x, 0.0, 0.0)).collect();
    BCurve::new(degree, knots.to_vec(), points, weights.map(<[f64]>::to_vec)).expect("a valid curve")
}

fn line(knots: &[f64]) -> BCurve {
    let x: Vec<f64> = (0..knots.len() - 2).map(|i| i as f64).collect();
    curve(1, knots, &x, None)
}

/// A bilinear surface with the same knots in both directions.
fn surface(knots: &[f64], x: f64, weight: f64) -> BSurface {
    let points = (0..4).map(|i| Point3::new(x * i as f64, 0.0, 0.0)).collect();
    BSurface::new(1, 1, knots.to_vec(), knots.to_vec(), 2, 2, points, Some(vec![weight; 4])).expect("a valid surface")
}

fn entire(c: &BCurve, lo: f64, hi: f64) -> bool {
    bound_curve(c, ParamRange::bounded(lo, hi))
        .is_ok_and(|b| b.point[0].lo() == f64::NEG_INFINITY && b.point[0].hi() == f64::INFINITY)
}

/// Each row by name, and whether the Rust still does it.
pub fn seen() -> Vec<(&'static str, bool)> {
    let merged = line(&[0.0, 0.0, 2f64.powi(-60), 1.0, 1.0]);
    let moved = line(&[-MAX, MAX / 2.0, 0.75 * MAX, MAX]);
    let shifted = line(&[-1.0, -1.0, 1e-20, 1e-20]).reversed().expect("reversed");
    let close = |gap: f64| line(&[0.0, 0.0, gap, gap]);
    let short = close(2f64.powi(-1024));
    let far = curve(1, &[0.0, 0.0, 1.0, 1.0], &[0.0, 1.0], Some(&[T, 4.0]));
    let light = curve(1, &[0.0, 0.0, 1.0, 1.0], &[0.0, 1.0], Some(&[T, T]));
    let broken = curve(1, &[0.0, 0.0, 1.0, 1.0, 2.0, 2.0], &[0.0, 1.0, 5.0, 6.0], None);
    let unit = [0.0, 0.0, 1.0, 1.0];
    let at = |lo: f64, hi: f64| ParamRange::bounded(lo, hi);
    let overflow = BSurface::new(1, 1, vec![], vec![], usize::MAX, 0, vec![], None);
    vec![
        ("reversal merges knots: 7", number(&merged.reversed()) == 7),
        ("reversal of an unclamped curve: 4", number(&moved.reversed()) == 4),
        ("reversal changes a domain", shifted.range().hi == 0.0),
        ("a gap of 2^-1024: eval is NaN", short.eval(0.0).point.x.is_nan() && number(&short.eval2(0.0)) == 21),
        ("a gap of 2^-1023 is fine", close(2f64.powi(-1023)).eval(0.0).point.x == 0.0),
        ("a gap of T: 26", number(&bound_curve(&close(T), at(0.0, T))) == 26),
        ("a gap of 2T: the whole line", entire(&close(2.0 * T), 0.0, 2.0 * T)),
        ("weights T and 4: NaN, 21, 27", {
            far.eval(0.0).point.x.is_nan() && number(&far.eval2(0.0)) == 21 && number(&bound_curve(&far, at(0.0, 1.0))) == 27
        }),
        ("all weights T: the whole line", entire(&light, 0.0, 1.0) && light.eval(0.5).point.x == 0.5),
        ("weights 1e200 with x 1e200: isocurve 8", number(&surface(&unit, 1e200, 1e200).iso_curve(true, 0.5)) == 8),
        ("all weights T: isocurve 23", number(&surface(&unit, 1.0, T).iso_curve(true, 0.5)) == 23),
        ("a full break: eval on the right, bounds on the left", {
            broken.eval(1.0).point.x == 5.0 && bound_curve(&broken, at(1.0, 1.0)).is_ok_and(|b| b.point[0].hi() < 1.1)
        }),
        ("usize::MAX by 0 points: u 3", number(&overflow) == 3),
        ("the basis at a span of degree - 1", basis_derivatives(0, 0.5, 1, 0, &[0.0, 1.0]) == [[0.5, 0.5]]),
        ("the basis and orders to 3", {
            basis_derivatives(1, 0.5, 1, 3, &unit) == [[0.5, 0.5], [-1.0, 1.0], [0.0, 0.0], [0.0, 0.0]]
        }),
        ("eval of NaN and of infinity", far.eval(f64::NAN).point.x.is_nan() && broken.eval(f64::INFINITY).point.x == 6.0),
    ]
}
