//! Tables whose refusals are told: those of the request, and some that have two places to choose from.
use super::{Curve, Refused, Surface};
use oracle::{noting, refusal};
use std::sync::LazyLock;

/// A polynomial curve with x = 0, 2, 4 and so on.
fn on_x(degree: usize, knots: &[f64]) -> Curve {
    let count = knots.len() - degree - 1;
    let points = (0..count).flat_map(|i| [2.0 * i as f64, 0.0, 0.0]).collect();
    Curve { degree, knots: knots.to_vec(), points, rational: false, weights: vec![] }
}

const TABLE_A: [f64; 7] = [0.0, 0.0, 0.0, 1.0, 2.0, 2.0, 2.0];

/// Knots 0, 1, 2 and so on, but for runs of five equal ones.
fn long(runs: &[usize]) -> Curve {
    let mut knots: Vec<f64> = (0..900).map(f64::from).collect();
    for &at in runs {
        knots[at..at + 5].fill(at as f64);
    }
    on_x(3, &knots)
}

/// Tables that are refused.
pub static REFUSED: LazyLock<Vec<(Curve, Refused)>> = LazyLock::new(|| {
    let a = on_x(2, &TABLE_A);
    let knot = |at: usize, x: f64| {
        let mut c = a.clone();
        c.knots[at] = x;
        c
    };
    let weights = |w: [f64; 4]| Curve { rational: true, weights: w.to_vec(), ..a.clone() };
    let mut astray = a.clone();
    astray.points[4] = f64::INFINITY;
    astray.points[9] = f64::NAN;
    let told = [
        (knot(3, 2.5), 4, 3),
        (on_x(2, &[0.0, 3.0, 1.0, f64::NAN, 2.0, 2.0, 2.0]), 4, 3),
        (knot(6, f64::NEG_INFINITY), 4, 6),
        (on_x(1, &[-0.0, 0.0, -0.0, 1.0, 1.0]), 7, 0),
        (long(&[500, 700]), 7, 500),
        (astray, 8, 1),
        (weights([1.0, 1.0, 0.0, 1.0]), 10, 2),
        (weights([1.0, f64::NAN, -1.0, f64::INFINITY]), 10, 1),
    ];
    told.map(|(c, number, place)| (c, Refused { number, place })).into()
});

/// Valid tables whose reversed curves are refused.
pub static REVERSED: LazyLock<Vec<(Curve, Refused)>> = LazyLock::new(|| {
    let merged = on_x(1, &[0.0, 0.0, 2f64.powi(-60), 1.0, 1.0]);
    let moved = on_x(1, &[-f64::MAX, f64::MAX / 2.0, 0.75 * f64::MAX, f64::MAX]);
    vec![(merged, Refused { number: 7, place: 2 }), (moved, Refused { number: 4, place: 3 })]
});

/// Degrees 1 and 2 over two and four points.
fn net() -> Surface {
    let points = (0..24).map(|i| f64::from(i * i)).collect();
    Surface {
        degrees: [1, 2],
        knots: [vec![0.0, 0.0, 1.0, 1.0], TABLE_A.to_vec()],
        counts: [2, 4],
        points,
        rational: false,
        weights: vec![],
    }
}

/// Whether the Rust that notes points forms the Rust's: the last of two insertions, an elevation, with weights too, both
/// isocurves. A trim forms no points but those of its insertions.
fn notes() -> bool {
    macro_rules! same {
        ($table:expr, $call:ident($($argument:expr),*)) => {{
            let formed = $table.rust().ok().and_then(|c| c.$call($($argument),*).ok());
            let _ = $table.noting().$call($($argument),*);
            formed.is_some_and(|c| c.points().iter().flat_map(|p| [p.x, p.y, p.z]).eq(noting::formed()))
        }};
    }
    let (a, net) = (on_x(2, &TABLE_A), net());
    let weighted = Curve { rational: true, weights: vec![1.0, 3.0, 0.5, 2.0], ..a.clone() };
    [a, weighted].iter().all(|c| same!(c, insert_knots(&[0.5, 1.0])) && same!(c, elevate_degree(4)))
        && same!(net, iso_curve(true, 0.25))
        && same!(net, iso_curve(false, 0.5))
}

/// Whether the Rust's numbers and the comparison's places are those told.
pub fn self_test() -> bool {
    let backwards = |c: &Curve| c.rust().ok()?.reversed().err().map(|e| c.backwards().refused(refusal(&e)));
    notes() && REFUSED.iter().all(|(c, r)| c.rust().err() == Some(*r)) && REVERSED.iter().all(|(c, r)| backwards(c) == Some(*r))
}
