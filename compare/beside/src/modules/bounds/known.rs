//! Tables whose least boxes are known, so that a judge that holds too much cannot judge.
use super::calls::{BOX, CurveCase, SurfaceCase};
use super::exact::{self, KINDS};
use crate::rng::Rng;
use crate::tables::{Curve, Surface};
use crate::tally::Tally;

type Ends = [f64; BOX];

const LINE: [f64; 4] = [0.0, 0.0, 1.0, 1.0];

/// x = 3t, y = 1 - 2t, z = 5 from 0 to 1.
fn line() -> (CurveCase, Ends) {
    let table = Curve { degree: 1, knots: LINE.into(), points: vec![0., 1., 5., 3., -1., 5.], ..Curve::default() };
    (CurveCase { table, range: (0.0, 1.0) }, [0., 3., -1., 1., 5., 5., 3., 3., -2., -2., 0., 0., 0., 0., 0., 0., 0., 0.])
}

/// x = t², y = -t², z = 5 - t².
fn parabola() -> (CurveCase, Ends) {
    let points = vec![0., 0., 5., 0., 0., 5., 1., -1., 4.];
    let table = Curve { degree: 2, knots: vec![0., 0., 0., 1., 1., 1.], points, ..Curve::default() };
    (CurveCase { table, range: (0.0, 1.0) }, [0., 1., -1., 0., 4., 5., 0., 2., -2., 0., -2., 0., 0., 0., 0., 0., 0., 0.])
}

/// With the weights 1 and 3: x = 9t / (1 + 2t), whose derivative is 9 / (1 + 2t)², y = -x, z = 5.
fn weighted_line() -> (CurveCase, Ends) {
    let points = vec![0., 0., 5., 3., -3., 5.];
    let table = Curve { degree: 1, knots: LINE.into(), points, rational: true, weights: vec![1., 3.] };
    (CurveCase { table, range: (0.0, 1.0) }, [0., 3., -3., 0., 5., 5., 1., 9., -9., -1., 0., 0., 0., 0., 0., 0., 0., 0.])
}

fn patch(points: [f64; 12], weights: &[f64]) -> SurfaceCase {
    let table = Surface {
        degrees: [1, 1],
        knots: [LINE.into(), LINE.into()],
        counts: [2, 2],
        points: points.into(),
        rational: !weights.is_empty(),
        weights: weights.into(),
    };
    SurfaceCase { table, u: (0.0, 1.0), v: (0.0, 1.0) }
}

/// x = 4u + 2v, y = 8uv, z = u.
fn plain_patch() -> (SurfaceCase, Ends) {
    let case = patch([0., 0., 0., 2., 0., 0., 4., 0., 1., 6., 8., 1.], &[]);
    (case, [0., 6., 0., 8., 0., 1., 4., 4., 0., 8., 1., 1., 2., 2., 0., 8., 0., 0.])
}

/// With the weights 1 and 3 along u: x = 9u / (1 + 2u), y = 2v, z = xv.
fn weighted_patch() -> (SurfaceCase, Ends) {
    let case = patch([0., 0., 0., 0., 2., 0., 3., 0., 0., 3., 2., 3.], &[1., 1., 3., 3.]);
    (case, [0., 3., 0., 2., 0., 3., 1., 9., 0., 0., 0., 9., 0., 0., 2., 2., 0., 3.])
}

/// The least box holds, and with any one of its ends a double further in it does not; nor does one with du and dv exchanged.
fn is_judged(least: Ends, holds: impl Fn(&Ends) -> bool) -> bool {
    let narrower = |at: usize| {
        let mut ends = least;
        ends[at] = if at % 2 == 0 { ends[at].next_up() } else { ends[at].next_down() };
        ends
    };
    let mut exchanged = least;
    exchanged[6..].rotate_left(6);
    holds(&least) && !(0..BOX).any(|at| holds(&narrower(at))) && !holds(&exchanged)
}

pub fn self_test() -> bool {
    let tally = || Tally::new(2, 0, KINDS.len());
    let curve = |(case, least)| is_judged(least, |b| exact::curve(&mut Rng::new(1, 0), &case, b, &mut tally()).is_none());
    let surface = |(case, least)| is_judged(least, |b| exact::surface(&mut Rng::new(1, 0), &case, b, &mut tally()).is_none());
    let curves = curve(line()) && curve(parabola()) && curve(weighted_line());
    curves && surface(plain_patch()) && surface(weighted_patch())
}
