//! Cox-de Boor over fractions on one span, with nothing divided.
use crate::fraction::{Fraction, long_share};
use crate::held::Spot;
use crate::rng::Rng;
use crate::tables::at::inside;

/// A parameter as top / bottom, neither of which has a denominator, and where in its range it stands.
pub struct Parameter {
    top: Fraction,
    bottom: Fraction,
    pub spot: Spot,
}

impl Parameter {
    fn of(x: f64, spot: Spot) -> Self {
        Self { top: Fraction::of(x), bottom: Fraction::of(1.0), spot }
    }

    /// The one point of a range; else both ends, a double between them where one is met, and a fraction.
    pub fn some(r: &mut Rng, (lo, hi): (f64, f64)) -> Vec<Self> {
        if lo == hi {
            return vec![Self::of(lo, Spot::Alone)];
        }
        let mut all = vec![Self::of(lo, Spot::End), Self::of(hi, Spot::End)];
        let x = inside(r, lo, hi);
        if lo < x && x < hi {
            all.push(Self::of(x, Spot::Double));
        }
        let (top, bottom) = long_share(r);
        let (top, bottom) = (Fraction::whole(top), Fraction::whole(bottom));
        let (lo, hi) = (Fraction::of(lo), Fraction::of(hi));
        all.push(Self { top: lo.mul(&bottom).add(&hi.sub(&lo).mul(&top)), bottom, spot: Spot::Long });
        all
    }
}

/// What the recursion has of the knots alone.
pub struct Recursion {
    /// Those on which the basis of the span rests: as many as the degree on either side of it.
    knots: Vec<Fraction>,
    /// Of each level and each function of the level below, the product of the others' denominators.
    others: Vec<Vec<Fraction>>,
    /// The product of all denominators.
    whole: Fraction,
}

/// The basis functions that are not 0 on the span and their derivatives, all times the same positive number.
pub struct Basis {
    pub values: Vec<Fraction>,
    pub slopes: Vec<Fraction>,
    pub spot: Spot,
}

fn product<'a>(of: impl Iterator<Item = &'a Fraction>) -> Fraction {
    of.fold(Fraction::of(1.0), |a, b| a.mul(b))
}

pub fn sum(of: impl Iterator<Item = Fraction>) -> Fraction {
    of.reduce(|a, b| a.add(&b)).expect("a sum of something")
}

/// The k + 1 functions of level k: function j of the k below has a part in j + 1, where it rises, and in j, where it falls.
fn spread(k: usize, rise: impl Fn(usize) -> Fraction, fall: impl Fn(usize) -> Fraction) -> Vec<Fraction> {
    let parts = |j: usize| (j > 0).then(|| rise(j - 1)).into_iter().chain((j < k).then(|| fall(j)));
    (0..=k).map(|j| sum(parts(j))).collect()
}

impl Recursion {
    pub fn new(knots: &[f64]) -> Self {
        let p = knots.len() / 2;
        let knots: Vec<Fraction> = knots.iter().map(|x| Fraction::of(*x)).collect();
        let mut whole = Fraction::of(1.0);
        let level = |k: usize| {
            let widths: Vec<Fraction> = (p - k..p).map(|i| knots[i + k].sub(&knots[i])).collect();
            whole = whole.mul(&product(widths.iter()));
            (0..k).map(|j| product(widths.iter().enumerate().filter(|w| w.0 != j).map(|w| w.1))).collect()
        };
        let others = (1..=p).map(level).collect();
        Self { knots, others, whole }
    }

    /// Degree 0: the span's own function is 1 and the others 0; then each degree from the one below. None where the values
    /// do not add up to their common factor, which would say that this judge is wrong.
    pub fn at(&self, t: &Parameter) -> Option<Basis> {
        let p = self.others.len();
        let from: Vec<Fraction> = self.knots.iter().map(|k| t.top.sub(&t.bottom.mul(k))).collect();
        let (mut values, mut slopes) = (vec![Fraction::of(1.0)], vec![]);
        let mut whole = self.whole.clone();
        for (k, others) in (1..).zip(&self.others) {
            let shares: Vec<Fraction> = values.iter().zip(others).map(|(v, o)| v.mul(o)).collect();
            values = spread(k, |j| from[p - k + j].mul(&shares[j]), |j| from[p + j].neg().mul(&shares[j]));
            if k == p {
                let scale = t.bottom.mul(&Fraction::of(p as f64));
                slopes = spread(k, |j| scale.mul(&shares[j]), |j| scale.neg().mul(&shares[j]));
            }
            whole = whole.mul(&t.bottom);
        }
        sum(values.iter().cloned()).cmp(&whole).is_eq().then_some(Basis { values, slopes, spot: t.spot })
    }
}
