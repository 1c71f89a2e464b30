//! Exact containment: points and first derivatives over fractions, in the box that we answered. Derivatives are those of the
//! basis, then the quotient rule.
use super::basis::{Basis, Parameter, Recursion, sum};
use super::calls::{CurveCase, SurfaceCase};
use crate::fraction::Fraction;
use crate::held::{Kind, Spot};
use crate::rng::Rng;
use crate::tally::Tally;

/// A table whose exact numbers are estimated to have more bits is left out, but for a curve's dv.
const MOST_BITS: i64 = 4000;

const SPOTS: &[Spot] = &[Spot::Alone, Spot::End, Spot::Double, Spot::Long];

/// Point, du and dv of a curve, then of a surface. A curve's dv is 0 at every parameter, so of each box it counts once.
pub const KINDS: [Kind; 6] = [
    Kind { name: "curve point", spots: SPOTS, least: 120_000 },
    Kind { name: "curve du", spots: SPOTS, least: 120_000 },
    Kind { name: "curve dv = 0", spots: &[Spot::Alone, Spot::Whole], least: 40_000 },
    Kind { name: "surface point", spots: SPOTS, least: 60_000 },
    Kind { name: "surface du", spots: SPOTS, least: 60_000 },
    Kind { name: "surface dv", spots: SPOTS, least: 60_000 },
];

/// x, y, z and the weight, times a common number.
type Weighted = [Fraction; 4];

/// A vector as top / bottom, with bottom above 0.
struct Vector {
    top: [Fraction; 3],
    bottom: Fraction,
}

impl Vector {
    fn point(h: &Weighted) -> Self {
        let [x, y, z, w] = h.clone();
        Self { top: [x, y, z], bottom: w }
    }

    /// The derivative of the quotient, from the weighted sums and their derivatives.
    fn slope(h: &Weighted, d: &Weighted) -> Self {
        Self { top: std::array::from_fn(|k| d[k].mul(&h[3]).sub(&h[k].mul(&d[3]))), bottom: h[3].mul(&h[3]) }
    }

    fn is_in(&self, ends: &[f64]) -> bool {
        self.top.iter().zip(ends.chunks_exact(2)).all(|(x, e)| x.is_inside_over(&self.bottom, e[0], e[1]))
    }
}

/// A box, what it is of, and where vectors that are looked for in it are counted.
struct Looked<'a> {
    tally: &'a mut Tally,
    row: usize,
    rational: bool,
    ends: &'a [f64],
    literal: &'a dyn Fn() -> String,
}

impl Looked<'_> {
    fn count(&mut self, vector: usize, spot: Spot, inside: bool) -> Option<String> {
        let (kind, ends) = (3 * self.row + vector, &self.ends[6 * vector..][..6]);
        self.tally.held[kind].count(spot, self.rational, ends, inside);
        self.tally.rows[self.row].exact += 1;
        self.tally.rows[self.row].outside += !inside as u64;
        let told = || format!("{}: an exact one lies outside {ends:?}\n  Rust literal:  {}", KINDS[kind].name, (self.literal)());
        (!inside).then(told)
    }

    /// Point, du and dv, those that are given.
    fn all(&mut self, spot: Spot, vectors: &[Vector]) -> Option<String> {
        let mut first = None;
        for (i, v) in vectors.iter().enumerate() {
            let text = self.count(i, spot, v.is_in(&self.ends[6 * i..]));
            first = first.or(text);
        }
        first
    }

    /// Counts the box, and whether it is left out by its estimate.
    fn is_left_out(&mut self, bits: i64) -> bool {
        let row = &mut self.tally.rows[self.row];
        row.boxes += 1;
        row.left_out += (bits > MOST_BITS) as u64;
        bits > MOST_BITS
    }

    /// A basis that does not add up.
    fn wrong(&mut self) -> Option<String> {
        self.tally.rows[self.row].outside += 1;
        Some(format!("the basis does not add up to 1: {}", (self.literal)()))
    }
}

/// The first nonempty span that contains the closed range, by the definition.
fn span(knots: &[f64], degree: usize, count: usize, range: (f64, f64)) -> usize {
    let holds = |i: &usize| knots[*i] < knots[i + 1] && knots[*i] <= range.0 && range.1 <= knots[i + 1];
    (degree..count).find(holds).expect("a box has a span")
}

/// How far apart the exponents of the numbers are, with a double's digits: what a sum of them takes in bits.
fn exponents_apart<'a>(run: impl Iterator<Item = &'a f64>) -> i64 {
    let (mut least, mut most) = (i64::MAX, i64::MIN);
    for x in run.filter(|x| **x != 0.0) {
        let e = (x.to_bits() >> 52 & 0x7ff) as i64;
        (least, most) = (least.min(e), most.max(e));
    }
    if least > most { 53 } else { most - least + 53 }
}

/// About how many bits the basis on these knots has: a function of it is a sum of products of p(p + 1)/2 differences.
fn bits(knots: &[f64], range: (f64, f64)) -> i64 {
    let p = knots.len() as i64 / 2;
    exponents_apart(knots.iter().chain([&range.0, &range.1])) * p * (p + 1) / 2
}

/// A control point times its weight, and the weight.
fn weighted(points: &[f64], weights: Option<&[f64]>, i: usize) -> Weighted {
    let w = Fraction::of(weights.map_or(1.0, |w| w[i]));
    let [x, y, z] = std::array::from_fn(|k| w.mul(&Fraction::of(points[3 * i + k])));
    [x, y, z, w]
}

fn combined<'a>(by: &[Fraction], of: impl Iterator<Item = &'a Weighted> + Clone) -> Weighted {
    std::array::from_fn(|k| sum(by.iter().zip(of.clone()).map(|(b, h)| b.mul(&h[k]))))
}

/// Looks for exact vectors of a curve in its box; the text of the first that lies outside.
pub fn curve(r: &mut Rng, case: &CurveCase, ends: &[f64], tally: &mut Tally) -> Option<String> {
    let (c, p) = (&case.table, case.table.degree);
    let mut looked = Looked { tally, row: 0, rational: c.rational, ends, literal: &|| case.literal() };
    let is_point = case.range.0 == case.range.1;
    let zero = ends[12..].chunks_exact(2).all(|e| Fraction::of(0.0).is_inside(e[0], e[1]));
    let mut first = looked.count(2, if is_point { Spot::Alone } else { Spot::Whole }, zero);
    let s = span(&c.knots, p, c.count(), case.range);
    let knots = &c.knots[s + 1 - p..=s + p];
    if looked.is_left_out(bits(knots, case.range) + exponents_apart(c.points.iter())) {
        return first;
    }
    let recursion = Recursion::new(knots);
    let weights = c.rational.then_some(&c.weights[..]);
    let net: Vec<Weighted> = (s - p..=s).map(|i| weighted(&c.points, weights, i)).collect();
    for t in Parameter::some(r, case.range) {
        let text = match recursion.at(&t) {
            Some(n) => {
                let (h, d) = (combined(&n.values, net.iter()), combined(&n.slopes, net.iter()));
                looked.all(t.spot, &[Vector::point(&h), Vector::slope(&h, &d)])
            }
            None => looked.wrong(),
        };
        first = first.or(text);
    }
    first
}

/// One in so many pairs of parameters of different spots is taken, and each of the same spot.
const UNLIKE_EVERY: u64 = 4;

/// The same of a surface.
pub fn surface(r: &mut Rng, case: &SurfaceCase, ends: &[f64], tally: &mut Tally) -> Option<String> {
    let (c, [p, q]) = (&case.table, case.table.degrees);
    let mut looked = Looked { tally, row: 1, rational: c.rational, ends, literal: &|| case.literal() };
    let (us, vs) = (span(&c.knots[0], p, c.counts[0], case.u), span(&c.knots[1], q, c.counts[1], case.v));
    let (uk, vk) = (&c.knots[0][us + 1 - p..=us + p], &c.knots[1][vs + 1 - q..=vs + q]);
    // Twice, for the quotient rule: there are about eight pairs. A curve's four parameters may have derivatives twice as long.
    if looked.is_left_out(2 * (bits(uk, case.u) + bits(vk, case.v)) + exponents_apart(c.points.iter())) {
        return None;
    }
    let weights = c.rational.then_some(&c.weights[..]);
    let place = |i: usize, j: usize| (us - p + i) * c.counts[1] + vs - q + j;
    let net: Vec<Weighted> =
        (0..=p).flat_map(|i| (0..=q).map(move |j| (i, j))).map(|(i, j)| weighted(&c.points, weights, place(i, j))).collect();
    let mut bases = |knots: &[f64], range| -> Option<Vec<Basis>> {
        let recursion = Recursion::new(knots);
        Parameter::some(r, range).iter().map(|t| recursion.at(t)).collect()
    };
    let (Some(ms), Some(ns)) = (bases(uk, case.u), bases(vk, case.v)) else { return looked.wrong() };
    let mut first = None;
    for n in &ns {
        // The curves along u at this v: a control point of each row, and its derivative along v.
        let across = |by: &[Fraction]| net.chunks_exact(q + 1).map(|row| combined(by, row.iter())).collect::<Vec<Weighted>>();
        let (values, slopes) = (across(&n.values), across(&n.slopes));
        for m in &ms {
            let alike = m.spot == n.spot || m.spot.min(n.spot) == Spot::Alone;
            if !alike && r.below(UNLIKE_EVERY) > 0 {
                continue;
            }
            let h = combined(&m.values, values.iter());
            let (du, dv) = (combined(&m.slopes, values.iter()), combined(&m.values, slopes.iter()));
            let text = looked.all(m.spot.max(n.spot), &[Vector::point(&h), Vector::slope(&h, &du), Vector::slope(&h, &dv)]);
            first = first.or(text);
        }
    }
    first
}
