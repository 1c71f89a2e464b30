//! Any numbers and lengths: each method answers or refuses by a number of document 01.
use std::fmt::Debug;
use tasulogi::{Class, Curve, CurveBuf, Direction, Interval, Refusal, Sign, Span, SpanBound, SpanBox, Surface, TABLE_A};

/// A step of Knuth's generator; the high bits are used.
struct Rng(u64);

impl Rng {
    fn below(&mut self, n: usize) -> usize {
        self.0 = self.0.wrapping_mul(6_364_136_223_846_793_005).wrapping_add(1_442_695_040_888_963_407);
        (self.0 >> 33) as usize % n
    }

    fn double(&mut self) -> f64 {
        const ODD: [f64; 9] = [f64::NAN, f64::INFINITY, -f64::INFINITY, -0.0, 5e-324, 1e308, -1e308, 0.5, 1.0];
        let i = self.below(ODD.len() * 4);
        ODD.get(i).copied().unwrap_or(i as f64 / 8.0)
    }

    fn run(&mut self, n: usize) -> Vec<f64> {
        (0..n).map(|_| self.double()).collect()
    }

    /// Near a curve: most are clamped and of the right lengths, each part is now and then anything.
    fn curve(&mut self) -> CurveBuf {
        let p = 1 + self.below(4);
        let n = p + 1 + self.below(5);
        let inner = (0..n - p - 1).map(|i| (1 + i - i * self.below(2)) as f64);
        let mut knots = [vec![0.0; p + 1], inner.collect(), vec![n as f64; p + 1]].concat();
        let mut points: Vec<f64> = (0..3 * n).map(|_| self.below(100) as f64).collect();
        let mut weights = (self.below(2) == 0).then(|| (0..n).map(|_| 1.0 + self.below(9) as f64).collect::<Vec<_>>());
        if self.below(3) > 0 {
            knots.sort_by(f64::total_cmp);
        }
        let mut degree = p;
        let n = self.below(20);
        match self.below(16) {
            0 => degree = [0, 5, 64, 65, usize::MAX][self.below(5)],
            1 => knots = self.run(n),
            2 => points = self.run(n),
            3 => weights = Some(self.run(n)),
            4 => knots[0] = -1.0,
            _ => (),
        }
        CurveBuf { degree, knots, points, weights }
    }
}

/// A refusal has a number of document 01, its text and, where it has one, its place; what `table` is refused by, each
/// call on it says.
fn told<T>(result: Result<T, Refusal>, table: Option<Refusal>, seen: &mut [usize]) -> Option<T> {
    assert!(table.is_none() || table == result.as_ref().err().copied());
    if let Err(r) = &result {
        assert_ne!(r.text(), "no refusal of document 01", "{r:?}");
        assert_eq!(r.place.is_some(), [4, 7, 8, 10].contains(&r.number), "{r:?}");
        seen[r.number as usize] += 1;
    } else {
        seen[0] += 1;
    }
    result.ok()
}

/// What a curve is refused by, with the place that the rule of its number has.
fn refused(c: &Curve, result: Result<(), Refusal>) -> Option<Refusal> {
    let refusal = result.err()?;
    let place = match refusal.number {
        4 => c.knots.iter().position(|k| !k.is_finite()).or_else(|| c.knots.windows(2).position(|k| k[0] > k[1])),
        7 => c.knots.windows(c.degree + 2).position(|k| k[0] == k[c.degree + 1]),
        8 => c.points.chunks(3).position(|p| p.iter().any(|x| !x.is_finite())),
        10 => c.weights.and_then(|w| w.iter().position(|x| !x.is_finite() || *x <= 0.0)),
        _ => None,
    };
    assert_eq!(refusal.place, place, "{c:?}");
    Some(refusal)
}

/// The nonempty spans by document 01's words.
fn nonempty(c: &Curve) -> Vec<Span> {
    let spans = (c.degree..c.points.len() / 3).map(|index| Span { index, lo: c.knots[index], hi: c.knots[index + 1] });
    spans.filter(|s| s.lo < s.hi).collect()
}

/// As text, where each double has its own and every NaN the same.
fn same(a: impl Debug, b: impl Debug) {
    assert_eq!(format!("{a:?}"), format!("{b:?}"));
}

/// Many at once are the single calls.
fn many(c: &Curve, ts: [f64; 3], table: Option<Refusal>, seen: &mut [usize]) {
    told(c.eval_many(&ts), table, seen).inspect(|rows| same(rows, ts.map(|t| c.eval(t))));
    told(c.eval_many_clamped(&ts), table, seen).inspect(|rows| same(rows, ts.map(|t| c.eval_clamped(t))));
    told(c.eval2_many(&ts), table, seen).inspect(|rows| same(rows, ts.map(|t| c.eval2(t))));
    told(c.eval2_many_clamped(&ts), table, seen).inspect(|rows| same(rows, ts.map(|t| c.eval2_clamped(t))));
    if let Some(bounds) = told(c.bound_spans(), table, seen) {
        let alone = nonempty(c).into_iter().map(|span| SpanBound { span, point: c.bound(span.lo, span.hi) });
        same(bounds, alone.collect::<Vec<_>>());
    }
    if let Some(boxes) = told(c.bound_boxes(), table, seen) {
        let alone = nonempty(c).into_iter().map(|span| SpanBox { span, bounds: c.bound_box(span.lo, span.hi) });
        same(boxes, alone.collect::<Vec<_>>());
    }
}

/// Two rows of a curve's points, now and then of another count.
fn surface(r: &mut Rng, c: &Curve, [t, lo, hi]: [f64; 3], seen: &mut [usize]) {
    let counts = [c.points.len() / 3, [2, 3, usize::MAX][r.below(16).saturating_sub(13)]];
    let points = [c.points, c.points].concat();
    let weights = c.weights.map(|w| [w, w].concat());
    let knots: [&[f64]; 2] = [c.knots, &[0.0, 0.0, 1.0, 1.0]];
    let s = Surface { degrees: [c.degree, 1], knots, counts, points: &points, weights: weights.as_deref() };
    let table = refused(&Curve { points: s.points, weights: s.weights, ..*c }, s.validate());
    told(s.validate(), table, seen);
    told(s.eval(t, lo), table, seen);
    told(s.eval_clamped(t, lo), table, seen);
    told(s.bound([lo, hi], [0.25, 0.5]), table, seen);
    same(told(s.bound_box([lo, hi], [0.25, 0.5]), table, seen).map(|b| b.point), s.bound([lo, hi], [0.25, 0.5]).ok());
    told(s.iso_curve([Direction::U, Direction::V][r.below(2)], t), table, seen);
}

#[test]
fn every_call_answers_or_refuses() {
    let mut r = Rng(1);
    let mut seen = [0; 55];
    for _ in 0..20_000 {
        let table = r.curve();
        let c = table.as_curve();
        let (t, lo, hi) = (r.double(), r.double(), r.double());
        let table = refused(&c, c.validate());
        told(c.validate(), table, &mut seen);
        // Of the table's 1 to 10 only 1 to 7 are a span's too.
        told(c.span(t), table.filter(|r| r.number < 8), &mut seen);
        told(c.span_clamped(t), table.filter(|r| r.number < 8), &mut seen);
        assert_eq!(told(c.spans(), table, &mut seen).map(Iterator::collect), c.validate().ok().map(|()| nonempty(&c)));
        told(c.eval(t), table, &mut seen);
        told(c.eval_clamped(t), table, &mut seen);
        told(c.eval2(t), table, &mut seen);
        told(c.eval2_clamped(t), table, &mut seen);
        told(c.bound(lo, hi), table, &mut seen);
        same(told(c.bound_box(lo, hi), table, &mut seen).map(|b| b.point), c.bound(lo, hi).ok());
        many(&c, [t, lo, hi], table, &mut seen);
        let more = r.below(4);
        let more = r.run(more);
        let raised = [c.degree, c.degree.wrapping_add(1), 3, 64, 65, usize::MAX][r.below(6)];
        for made in [c.reversed(), c.insert_knots(&more), c.trim(lo, hi), c.elevate_degree(raised)] {
            // The room was right: 30 is given for too long an input alone, and none is.
            assert!(!made.as_ref().is_err_and(|r| r.number == 30));
            if let Some(made) = told(made, table, &mut seen) {
                assert_eq!(made.as_curve().validate(), Ok(()));
            }
        }
        surface(&mut r, &c, [t, lo, hi], &mut seen);
    }
    for number in [0, 1, 2, 3, 4, 7, 8, 9, 10, 11, 12, 13, 15, 16, 17, 18, 22, 24, 25, 32, 43] {
        assert!(seen[number] > 0, "{number} was never given: {seen:?}");
    }
    assert_eq!((seen[28], seen[29]), (0, 0));
}

/// From the least to the greatest, each end a double outward; the whole line where a NaN is met.
fn outward(ends: &[f64]) -> Interval {
    let (lo, hi) = ends.iter().fold((f64::INFINITY, -f64::INFINITY), |(lo, hi), x| (lo.min(*x), hi.max(*x)));
    let nan = ends.iter().any(|x| x.is_nan());
    if nan { Interval::ENTIRE } else { Interval::new(lo.next_down(), hi.next_up()).unwrap() }
}

fn products(a: Interval, b: Interval) -> Interval {
    outward(&[a.lo() * b.lo(), a.lo() * b.hi(), a.hi() * b.lo(), a.hi() * b.hi()])
}

/// Each call on any two intervals is document 01's; ends that are none make no interval.
#[test]
fn intervals_are_the_rules() {
    let mut r = Rng(2);
    let (mut made, mut divided) = (0, 0);
    for _ in 0..100_000 {
        let [al, ah, bl, bh, x] = [(); 5].map(|()| r.double() * [1.0, -1.0][r.below(2)]);
        assert_eq!(Interval::new(al, ah).is_some(), al <= ah);
        assert_eq!(Interval::point(x), Interval::new(x, x).unwrap_or(Interval::ENTIRE));
        let (Some(a), Some(b)) = (Interval::new(al, ah), Interval::new(bl, bh)) else { continue };
        made += 1;
        assert_eq!((a.lo(), a.hi(), a.contains(x)), (al, ah, al <= x && x <= ah));
        assert_eq!(a + b, outward(&[al + bl, ah + bh]));
        assert_eq!(a - b, outward(&[al - bh, ah - bl]));
        assert_eq!(a * b, products(a, b));
        assert_eq!(Some(-a), Interval::new(-ah, -al));
        assert_eq!(Some(a.hull(b)), Interval::new(al.min(bl), ah.max(bh)));
        let square = outward(&[al * al, ah * ah]);
        let low = if a.contains(0.0) { 0.0 } else { square.lo().max(0.0) };
        assert_eq!(Some(a.sqr()), Interval::new(low, square.hi()));
        assert!(a.width() == (ah - al).next_up() || (ah - al).is_nan() && a.width().is_nan());
        let sign = if al > 0.0 {
            Sign::Positive
        } else if ah < 0.0 {
            Sign::Negative
        } else {
            Sign::Unknown
        };
        assert_eq!(a.sign(), if al == 0.0 && ah == 0.0 { Sign::Zero } else { sign });
        match a / b {
            Ok(q) => assert_eq!(q, products(a, outward(&[1.0 / bl, 1.0 / bh]))),
            Err(refusal) => assert_eq!(refusal.number, 26),
        }
        assert_eq!((a / b).is_err(), b.contains(0.0));
        divided += (a / b).is_ok() as u32;
    }
    assert!(made > 10_000 && divided > 1_000);
}

/// The number, the direction and the place.
fn said<T>(result: Result<T, Refusal>) -> (u8, Option<Direction>, Option<usize>) {
    let Err(r) = result else { return (0, None, None) };
    (r.number, r.direction, r.place)
}

#[test]
fn a_place_is_the_first() {
    let on = |knots| said(Curve { knots, ..TABLE_A }.validate());
    assert_eq!(on(&[0.0, 0.0, 0.0, 2.5, 2.0, 2.0, 2.0]), (4, None, Some(3)));
    assert_eq!(on(&[0.0, 3.0, 1.0, f64::NAN, 2.0, 2.0, 2.0]), (4, None, Some(3)));
    assert_eq!(on(&[0.0; 7]), (5, None, None));
    let knots = Curve { knots: &[0.0, 0.0, 0.0, 2.5, 2.0, 2.0, 2.0], ..TABLE_A };
    assert_eq!(said(knots.span(0.5)), (4, None, Some(3)));
    assert_eq!(said(knots.bound_spans()), (4, None, Some(3)));
    assert_eq!(said(knots.insert_knots(&[1.0])), (4, None, Some(3)));
    let weights = Curve { weights: Some(&[1.0, 1.0, 0.0, 1.0]), ..TABLE_A };
    assert_eq!((said(weights.validate()), said(weights.span(0.5))), ((10, None, Some(2)), (0, None, None)));
}

/// Where the given table has nothing to refuse.
#[test]
fn a_place_is_in_the_curve_just_formed() {
    let near = Curve { degree: 1, knots: &[0.0, 0.0, 2f64.powi(-60), 1.0, 1.0], points: &[0.0; 9], weights: None };
    assert_eq!((near.validate(), said(near.reversed())), (Ok(()), (7, None, Some(2))));
    let knots = [-1.0, 0.5, 0.75, 1.0].map(|x| x * f64::MAX);
    let far = Curve { knots: &knots, points: &[0.0; 6], ..near };
    assert_eq!((far.validate(), said(far.reversed())), (Ok(()), (4, None, Some(3))));
    // Between the last two points rounding makes a quotient that is greater than both of them.
    let points = [[0.0; 3], [f64::MAX, 0.0, 0.0], [f64::MAX, 0.0, 0.0]];
    let steep =
        Curve { knots: &[0.0, 0.0, 1.0, 2.0, 2.0], points: points.as_flattened(), weights: Some(&[1.0, 0.1, 0.5]), ..near };
    assert_eq!((steep.validate(), said(steep.insert_knots(&[1.5]))), (Ok(()), (8, None, Some(2))));
    assert_eq!((said(steep.trim(0.0, 1.5)), said(steep.elevate_degree(2))), ((8, None, Some(2)), (8, None, Some(3))));
}

#[test]
fn a_place_of_a_surface() {
    let (u, v): (&[f64], &[f64]) = (&[0.0, 0.0, 1.0, 1.0], &[0.0, 0.0, 1.0, 2.0, 2.0]);
    let s = Surface { degrees: [1, 1], knots: [u, v], counts: [2, 3], points: &[0.0; 18], weights: None };
    assert_eq!(said(s.validate()), (0, None, None));
    assert_eq!(said(Surface { knots: [&[0.0, 0.0, 1.0, f64::NAN], v], ..s }.validate()), (4, Some(Direction::U), Some(3)));
    assert_eq!(said(Surface { knots: [u, &[0.0, 0.0, 1.0, 1.0, 1.0]], ..s }.eval(0.5, 0.5)), (7, Some(Direction::V), Some(2)));
    assert_eq!(said(Surface { weights: Some(&[1.0, 1.0, 1.0, 1.0, -1.0, 1.0]), ..s }.validate()), (10, None, Some(4)));
    // The point 1, 0.
    let torn = [[0.0; 10].as_slice(), &[f64::INFINITY], &[0.0; 7]].concat();
    assert_eq!(said(Surface { points: &torn, ..s }.iso_curve(Direction::U, 0.5)), (8, None, Some(3)));
}

#[test]
fn too_long_a_run_is_refused() {
    let long = vec![0.5; 1_048_577];
    assert_eq!(Curve { knots: &long, ..TABLE_A }.validate().unwrap_err().number, 30);
    assert_eq!(Curve { knots: &long, points: &[0.0], ..TABLE_A }.span(0.5).unwrap_err().number, 30);
    let refusal = TABLE_A.insert_knots(&long).unwrap_err();
    assert_eq!((refusal.number, refusal.class()), (30, Class::Capacity));
}

#[test]
fn weights_go_along() {
    let points = [1.0, 0.0, 0.0, 1.0, 1.0, 0.0, 0.0, 1.0, 0.0];
    let arc =
        Curve { degree: 2, knots: &[0.0, 0.0, 0.0, 1.0, 1.0, 1.0], points: &points, weights: Some(&[1.0, 0.5f64.sqrt(), 2.0]) };
    let [x, y, _] = arc.eval(0.25).unwrap()[0];
    let same = |c: CurveBuf, t: f64| {
        let p = c.as_curve().eval(t).unwrap()[0];
        assert_eq!(c.weights.map(|w| 3 * w.len()), Some(c.points.len()));
        assert!((p[0] - x).abs() < 1e-14 && (p[1] - y).abs() < 1e-14);
    };
    same(arc.reversed().unwrap(), 0.75);
    same(arc.insert_knots(&[0.5, 0.5, 0.75]).unwrap(), 0.25);
    same(arc.trim(0.125, 0.5).unwrap(), 0.25);
    same(arc.elevate_degree(5).unwrap(), 0.25);
    let [bx, by, _] = arc.bound(0.25, 0.25).unwrap();
    assert!(bx.contains(x) && by.contains(y));
}

#[test]
fn a_full_break_and_the_limit_of_elevation() {
    let broken = Curve { degree: 1, knots: &[0.0, 0.0, 1.0, 1.0, 2.0, 2.0], ..TABLE_A };
    assert_eq!(broken.validate(), Ok(()));
    assert_eq!(broken.elevate_degree(2).unwrap().points.len(), 3 * 6);
    assert_eq!(Curve { knots: &[0.0, 0.0, 1.0, 1.0, 1.0, 2.0], ..broken }.validate().unwrap_err().number, 7);
    let knots = [[0.0; 66], [1.0; 66]];
    let steep = Curve { degree: 65, knots: knots.as_flattened(), points: &[1.0; 198], weights: None };
    assert_eq!(steep.elevate_degree(65).unwrap().as_curve(), steep);
    assert_eq!(steep.elevate_degree(66).unwrap_err().number, 18);
    assert_eq!([0.5, 2.0, f64::NAN].map(|t| steep.eval(t).unwrap_err().number), [31; 3]);
    assert_eq!(steep.elevate_degree(64).unwrap_err().number, 16);
}
