//! What a box holds of the first derivatives, on tables whose derivatives are worked by hand.
use tasulogi::{BoundBox, Curve, Interval, Surface, TABLE_A};

/// Whether the interval has both ends in it, and is at most `slack` wider than they are apart.
fn fits(i: Interval, lo: f64, hi: f64, slack: f64) -> bool {
    i.contains(lo) && i.contains(hi) && i.width() <= hi - lo + slack
}

/// Table A is x = 4t - t² from 0 to 1 and x = 2 + t² from 1 to 2: its derivatives are 4 - 2t and 2t.
#[test]
fn of_a_polynomial_curve() {
    let du = |lo, hi| TABLE_A.bound_box(lo, hi).unwrap().du;
    for (t, slope) in [(0.0, 4.0), (0.25, 3.5), (0.5, 3.0), (1.25, 2.5), (2.0, 4.0)] {
        assert!(fits(du(t, t)[0], slope, slope, 1e-12), "at {t}");
    }
    // A short range has narrow intervals; on a whole span they are much wider than what they hold.
    assert!(fits(du(0.5, 0.5 + 1e-6)[0], 3.0 - 2e-6, 3.0, 1e-4));
    for whole in [du(0.0, 1.0)[0], du(1.0, 2.0)[0]] {
        assert!(whole.contains(2.0) && whole.contains(3.0) && whole.contains(4.0));
    }
    let BoundBox { point, dv, .. } = TABLE_A.bound_box(0.0, 1.0).unwrap();
    assert_eq!(point, TABLE_A.bound(0.0, 1.0).unwrap());
    assert!(dv.iter().all(|i| fits(*i, 0.0, 0.0, 1e-300)));
}

/// With the weights 1 and 3 a line from 0 to 3 is x = 9t / (1 + 2t), its derivative 9 / (1 + 2t)²: 9, 9/4 and 1.
#[test]
fn of_a_rational_curve() {
    let knots = [0.0, 0.0, 1.0, 1.0];
    let c = Curve { degree: 1, knots: &knots, points: &[0.0, 0.0, 0.0, 3.0, 0.0, 0.0], weights: Some(&[1.0, 3.0]) };
    for (t, slope) in [(0.0, 9.0), (0.5, 2.25), (1.0, 1.0)] {
        assert!(fits(c.bound_box(t, t).unwrap().du[0], slope, slope, 1e-12), "at {t}");
    }
    let whole = c.bound_box(0.0, 1.0).unwrap().du[0];
    assert!(whole.contains(9.0) && whole.contains(1.0));
}

/// x = 4u + 2v, y = 8uv: du is 4 and 8v, dv is 2 and 8u.
#[test]
fn of_a_surface() {
    let ends: &[f64] = &[0.0, 0.0, 1.0, 1.0];
    let points = [[0.0, 0.0, 0.0], [2.0, 0.0, 0.0], [4.0, 0.0, 0.0], [6.0, 8.0, 0.0]];
    let s = Surface { degrees: [1, 1], knots: [ends; 2], counts: [2, 2], points: points.as_flattened(), weights: None };
    let b = s.bound_box([0.25, 0.25], [0.5, 0.5]).unwrap();
    assert!(fits(b.point[0], 2.0, 2.0, 1e-12) && fits(b.point[1], 1.0, 1.0, 1e-12));
    assert!(fits(b.du[0], 4.0, 4.0, 1e-12) && fits(b.du[1], 4.0, 4.0, 1e-12));
    assert!(fits(b.dv[0], 2.0, 2.0, 1e-12) && fits(b.dv[1], 2.0, 2.0, 1e-12));
    let b = s.bound_box([0.0, 1.0], [0.0, 0.5]).unwrap();
    assert_eq!(b.point, s.bound([0.0, 1.0], [0.0, 0.5]).unwrap());
    assert!(b.du[1].contains(0.0) && b.du[1].contains(4.0) && b.dv[1].contains(0.0) && b.dv[1].contains(8.0));
}
