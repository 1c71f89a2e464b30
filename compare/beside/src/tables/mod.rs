//! Curves and surfaces as the exported calls take them, what the Rust makes of them, and how a case is told.
pub mod at;
pub mod domain;
pub mod fixed;
pub mod make;
mod place;
mod spoil;

use domain::Domain;
use oracle::{BCurve, BSurface, Point3, Refusal, noting, refusal};
use place::Looked;
pub use place::{PLACES, Refused};

/// The most numbers that an input run may have.
pub const LIMIT: usize = 1_048_576;

/// The highest degree that an evaluation or a bound takes; the Rust has no such limit.
const HIGHEST: usize = 64;

/// Weights that are not given are passed all the same, and must not be looked at.
#[derive(Clone, Default)]
pub struct Curve {
    pub degree: usize,
    pub knots: Vec<f64>,
    pub points: Vec<f64>,
    pub rational: bool,
    pub weights: Vec<f64>,
}

#[derive(Clone, Default)]
pub struct Surface {
    pub degrees: [usize; 2],
    pub knots: [Vec<f64>; 2],
    pub counts: [usize; 2],
    pub points: Vec<f64>,
    pub rational: bool,
    pub weights: Vec<f64>,
}

fn triples<P>(points: &[f64], point: impl Fn(f64, f64, f64) -> P) -> Vec<P> {
    points.chunks_exact(3).map(|p| point(p[0], p[1], p[2])).collect()
}

/// 30 and 32, which are not the Rust's, come first.
fn before_all(runs: &[&[f64]], points: &[f64]) -> Result<(), Refused> {
    if runs.iter().any(|run| run.len() > LIMIT) {
        Err(Refused::unplaced(30))
    } else if points.len() % 3 != 0 {
        Err(Refused::unplaced(32))
    } else {
        Ok(())
    }
}

impl Curve {
    pub fn count(&self) -> usize {
        self.points.len() / 3
    }

    /// Of a valid table.
    pub fn domain(&self) -> Domain {
        Domain::of(self.degree, self.count(), &self.knots)
    }

    pub fn is_steep(&self) -> bool {
        self.degree > HIGHEST
    }

    fn given(&self) -> &[f64] {
        if self.rational { &self.weights } else { &[] }
    }

    pub fn rust(&self) -> Result<BCurve, Refused> {
        before_all(&[&self.knots, &self.points, self.given()], &self.points)?;
        let weights = self.rational.then(|| self.weights.clone());
        BCurve::new(self.degree, self.knots.clone(), triples(&self.points, Point3::new), weights)
            .map_err(|e| self.refused(refusal(&e)))
    }

    /// A valid table as the Rust that notes points has it.
    pub fn noting(&self) -> noting::BCurve {
        let weights = self.rational.then(|| self.weights.clone());
        noting::BCurve::new(self.degree, self.knots.clone(), triples(&self.points, noting::Point3::new), weights).expect("valid")
    }

    fn looked(&self) -> Looked<'_> {
        Looked { degree: self.degree, knots: &self.knots, points: &self.points, weights: &self.weights }
    }

    /// The Rust's refusal of these numbers with its place.
    pub fn refused(&self, r: Refusal) -> Refused {
        self.looked().refused(r)
    }

    /// A valid table with the knots of the reversed curve, in the source's operations; nothing else of it can be wrong.
    pub fn backwards(&self) -> Self {
        let (lo, hi) = (self.knots[self.degree], self.knots[self.count()]);
        Self { knots: self.knots.iter().rev().map(|t| lo + (hi - t)).collect(), ..self.clone() }
    }

    /// The refusal of a formed curve whose knots and weights are fine; `again` forms it in the Rust that notes points.
    pub fn formed(r: Refusal, again: impl FnOnce()) -> Refused {
        assert!(![4, 7, 10].contains(&r.number), "a formed curve's knots and weights are fine, and {} is given", r.number);
        if r.number != 8 {
            return Refused::unplaced(r.number);
        }
        again();
        Self { points: noting::formed(), ..Self::default() }.refused(r)
    }

    pub fn doubles(&self) -> impl Iterator<Item = &f64> {
        self.knots.iter().chain(&self.points).chain(self.given())
    }

    pub fn literal(&self) -> String {
        format!(
            "BCurve::new({}, {}, {}, {})",
            self.degree,
            literal(&self.knots),
            points_literal(&self.points),
            weights_literal(self.rational, &self.weights)
        )
    }
}

impl Surface {
    /// Of a valid table, along u and along v.
    pub fn domains(&self) -> [Domain; 2] {
        [0, 1].map(|k| Domain::of(self.degrees[k], self.counts[k], &self.knots[k]))
    }

    pub fn is_steep(&self) -> bool {
        self.degrees.iter().any(|d| *d > HIGHEST)
    }

    fn given(&self) -> &[f64] {
        if self.rational { &self.weights } else { &[] }
    }

    pub fn rust(&self) -> Result<BSurface, Refused> {
        let [u, v] = &self.knots;
        before_all(&[u, v, &self.points, self.given()], &self.points)?;
        let weights = self.rational.then(|| self.weights.clone());
        let ([p, q], [m, n]) = (self.degrees, self.counts);
        BSurface::new(p, q, u.clone(), v.clone(), m, n, triples(&self.points, Point3::new), weights).map_err(|e| {
            let r = refusal(&e);
            self.looked(r.direction as usize).refused(r)
        })
    }

    /// A valid table as the Rust that notes points has it.
    pub fn noting(&self) -> noting::BSurface {
        let weights = self.rational.then(|| self.weights.clone());
        let ([u, v], [p, q], [m, n]) = (&self.knots, self.degrees, self.counts);
        let points = triples(&self.points, noting::Point3::new);
        noting::BSurface::new(p, q, u.clone(), v.clone(), m, n, points, weights).expect("valid")
    }

    /// What a refusal in a direction looks at; one in none looks at no knots.
    fn looked(&self, direction: usize) -> Looked<'_> {
        let k = direction.min(1);
        Looked { degree: self.degrees[k], knots: &self.knots[k], points: &self.points, weights: &self.weights }
    }

    pub fn doubles(&self) -> impl Iterator<Item = &f64> {
        self.knots[0].iter().chain(&self.knots[1]).chain(&self.points).chain(self.given())
    }

    pub fn literal(&self) -> String {
        format!(
            "BSurface::new({}, {}, {}, {}, {}, {}, {}, {})",
            self.degrees[0],
            self.degrees[1],
            literal(&self.knots[0]),
            literal(&self.knots[1]),
            self.counts[0],
            self.counts[1],
            points_literal(&self.points),
            weights_literal(self.rational, &self.weights)
        )
    }
}

const MOST_TOLD: usize = 300;

/// A run as Rust text; a long one is cut, and the seed gives it again.
pub fn literal(run: &[f64]) -> String {
    let words: Vec<String> = run.iter().take(MOST_TOLD).map(|x| double_literal(*x)).collect();
    let more = if run.len() > MOST_TOLD { format!(" /* {} in all */", run.len()) } else { String::new() };
    format!("vec![{}{more}]", words.join(", "))
}

/// A short decimal where it has the same bits.
pub fn double_literal(x: f64) -> String {
    let text = format!("{x:?}");
    if x.is_finite() && text.len() < 22 { text } else { format!("f64::from_bits(0x{:016x})", x.to_bits()) }
}

fn points_literal(points: &[f64]) -> String {
    format!("{}.chunks_exact(3).map(|p| Point3::new(p[0], p[1], p[2])).collect()", literal(points))
}

fn weights_literal(rational: bool, weights: &[f64]) -> String {
    if rational { format!("Some({})", literal(weights)) } else { "None".to_string() }
}

pub fn hex(words: impl IntoIterator<Item = u64>) -> String {
    words.into_iter().take(MOST_TOLD).map(|w| format!(" {w:016x}")).collect()
}

/// What a run has to have met, measured on the tables themselves.
pub const FEATURES: [&str; 16] = [
    "rational",
    "unclamped",
    "full break",
    "knots one subnormal apart",
    "both zeros among equal knots",
    "weights 2^900 apart",
    "degree above 20",
    "degree above 64",
    "one point too few",
    "a run too long",
    "an empty run",
    "knots not finite",
    "points not finite",
    "weights not finite",
    "points not in threes",
    "counts whose product overflows",
];

/// Adds what a table's one direction has.
fn count_knots(degree: usize, count: usize, knots: &[f64], seen: &mut [u64]) {
    let valid = degree >= 1 && count > degree && count.checked_add(degree).is_some_and(|n| n + 1 == knots.len());
    seen[6] += (20 < degree && degree <= 64) as u64;
    seen[7] += (64 < degree) as u64;
    seen[8] += (count == degree) as u64;
    seen[11] += knots.iter().take(400).any(|k| !k.is_finite()) as u64;
    if !valid || knots.len() > 4096 {
        return;
    }
    seen[1] += (knots[0] < knots[degree] || knots[count] < knots[knots.len() - 1]) as u64;
    seen[2] += (1..count - degree).any(|i| {
        knots[i + degree - 1] < knots[i + degree]
            && knots[i + degree] == knots[(i + 2 * degree).min(knots.len() - 1)]
            && knots[i + degree] < knots[count]
    }) as u64;
    seen[3] += knots.windows(2).any(|w| w[0].next_up() == w[1] && w[1].abs() < f64::MIN_POSITIVE) as u64;
    seen[4] += knots.windows(2).any(|w| w[0] == w[1] && w[0].to_bits() != w[1].to_bits()) as u64;
}

fn count_rest(points: &[f64], rational: bool, weights: &[f64], seen: &mut [u64]) {
    seen[12] += points.iter().take(4000).any(|k| !k.is_finite()) as u64;
    seen[14] += (points.len() % 3 != 0) as u64;
    if rational {
        let given = &weights[..weights.len().min(4000)];
        let (least, most) = given.iter().fold((f64::INFINITY, 0.0f64), |(a, b), w| (a.min(*w), b.max(*w)));
        seen[0] += 1;
        seen[5] += (least > 0.0 && most / least > 2f64.powi(900)) as u64;
        seen[13] += given.iter().any(|w| !w.is_finite()) as u64;
    }
}

impl Curve {
    /// Adds to what PLACES names.
    pub fn placed(&self, r: Refused, seen: &mut [u64]) {
        self.looked().seen(r, false, seen);
    }

    pub fn features(&self, seen: &mut [u64]) {
        count_knots(self.degree, self.count(), &self.knots, seen);
        count_rest(&self.points, self.rational, &self.weights, seen);
        seen[9] += [&self.knots, &self.points, &self.weights].iter().any(|r| r.len() > LIMIT) as u64;
        seen[10] += (self.knots.is_empty() || self.points.is_empty() || self.rational && self.weights.is_empty()) as u64;
    }
}

impl Surface {
    /// Adds to what PLACES names.
    pub fn placed(&self, r: Refused, seen: &mut [u64]) {
        self.looked((r.number / 100).saturating_sub(1) as usize).seen(r, true, seen);
    }

    pub fn features(&self, seen: &mut [u64]) {
        for k in 0..2 {
            count_knots(self.degrees[k], self.counts[k], &self.knots[k], seen);
        }
        count_rest(&self.points, self.rational, &self.weights, seen);
        let [u, v] = &self.knots;
        seen[9] += [u, v, &self.points, &self.weights].iter().any(|r| r.len() > LIMIT) as u64;
        seen[10] += (u.is_empty() || v.is_empty() || self.points.is_empty() || self.rational && self.weights.is_empty()) as u64;
        seen[15] += self.counts[0].checked_mul(self.counts[1]).is_none() as u64;
    }
}
