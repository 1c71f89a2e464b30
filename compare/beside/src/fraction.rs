//! Whole numbers of any size, and fractions of them: what a double is exactly, and exact sums, products and quotients.
use crate::rng::Rng;
use std::cmp::Ordering;

/// A whole number at least 0, in words of 64 bits, the least first, with no zero word at the end.
#[derive(Clone, Debug, PartialEq, Eq)]
pub struct Nat(Vec<u64>);

impl Nat {
    pub fn of(x: u128) -> Self {
        Self(vec![x as u64, (x >> 64) as u64]).trimmed()
    }

    fn trimmed(mut self) -> Self {
        while self.0.last() == Some(&0) {
            self.0.pop();
        }
        self
    }

    pub fn is_zero(&self) -> bool {
        self.0.is_empty()
    }

    pub fn add(&self, o: &Self) -> Self {
        let mut words = Vec::with_capacity(self.0.len().max(o.0.len()) + 1);
        let mut carry = 0u128;
        for i in 0..self.0.len().max(o.0.len()) {
            carry += *self.0.get(i).unwrap_or(&0) as u128 + *o.0.get(i).unwrap_or(&0) as u128;
            words.push(carry as u64);
            carry >>= 64;
        }
        words.push(carry as u64);
        Self(words).trimmed()
    }

    /// The difference, where o is not above self.
    fn less(&self, o: &Self) -> Self {
        let mut words = Vec::with_capacity(self.0.len());
        let mut borrow = false;
        for i in 0..self.0.len() {
            let (d, first) = self.0[i].overflowing_sub(*o.0.get(i).unwrap_or(&0));
            let (d, second) = d.overflowing_sub(borrow as u64);
            words.push(d);
            borrow = first | second;
        }
        assert!(!borrow, "a difference below 0");
        Self(words).trimmed()
    }

    pub fn mul(&self, o: &Self) -> Self {
        let mut words = vec![0u64; self.0.len() + o.0.len()];
        for (i, &a) in self.0.iter().enumerate() {
            let mut carry = 0u128;
            for (j, &b) in o.0.iter().enumerate() {
                carry += a as u128 * b as u128 + words[i + j] as u128;
                words[i + j] = carry as u64;
                carry >>= 64;
            }
            words[i + o.0.len()] = carry as u64;
        }
        Self(words).trimmed()
    }

    fn doubled(&self, times: u32) -> Self {
        let (whole, part) = ((times / 64) as usize, times % 64);
        let mut words = vec![0; whole];
        let mut carry = 0u64;
        for &w in &self.0 {
            words.push(w << part | carry);
            carry = if part == 0 { 0 } else { w >> (64 - part) };
        }
        words.push(carry);
        Self(words).trimmed()
    }
}

impl Ord for Nat {
    fn cmp(&self, o: &Self) -> Ordering {
        self.0.len().cmp(&o.0.len()).then_with(|| self.0.iter().rev().cmp(o.0.iter().rev()))
    }
}

impl PartialOrd for Nat {
    fn partial_cmp(&self, o: &Self) -> Option<Ordering> {
        Some(self.cmp(o))
    }
}

/// The number (-1)^negative · top / bottom · 2^power, with bottom above 0; no bottom is 1, as a double has it. It is not
/// reduced.
#[derive(Clone, Debug)]
pub struct Fraction {
    negative: bool,
    top: Nat,
    bottom: Option<Nat>,
    power: i32,
}

/// A product of bottoms.
fn times(a: &Option<Nat>, b: &Option<Nat>) -> Option<Nat> {
    match (a, b) {
        (Some(a), Some(b)) => Some(a.mul(b)),
        (other, None) | (None, other) => other.clone(),
    }
}

impl Fraction {
    pub fn ratio(top: u128, bottom: u128) -> Self {
        assert!(bottom > 0);
        Self { negative: false, top: Nat::of(top), bottom: Some(Nat::of(bottom)), power: 0 }
    }

    pub fn whole(top: Nat) -> Self {
        Self { negative: false, top, bottom: None, power: 0 }
    }

    /// The exact value of a finite double.
    pub fn of(x: f64) -> Self {
        assert!(x.is_finite());
        let bits = x.to_bits();
        let exponent = (bits >> 52 & 0x7ff) as i32;
        let digits = bits & 0x000f_ffff_ffff_ffff;
        let top = if exponent == 0 { digits } else { digits | 1 << 52 };
        // Short digits keep products short.
        let zeros = if top == 0 { 0 } else { top.trailing_zeros() };
        let power = exponent.max(1) - 1075 + zeros as i32;
        Self { negative: bits >> 63 == 1, top: Nat::of((top >> zeros) as u128), bottom: None, power }
    }

    pub fn is_zero(&self) -> bool {
        self.top.is_zero()
    }

    pub fn neg(&self) -> Self {
        Self { negative: !self.negative, ..self.clone() }
    }

    pub fn add(&self, o: &Self) -> Self {
        if self.is_zero() || o.is_zero() {
            return if self.is_zero() { o.clone() } else { self.clone() };
        }
        // A common denominator is kept, so that long sums do not grow.
        if self.bottom != o.bottom {
            return self.over(&o.bottom).add(&o.over(&self.bottom));
        }
        let power = self.power.min(o.power);
        let longer;
        let (a, b) = if self.power > power {
            longer = self.top.doubled((self.power - power) as u32);
            (&longer, &o.top)
        } else {
            longer = o.top.doubled((o.power - power) as u32);
            (&self.top, &longer)
        };
        let (negative, top) = if self.negative == o.negative {
            (self.negative, a.add(b))
        } else if a >= b {
            (self.negative, a.less(b))
        } else {
            (o.negative, b.less(a))
        };
        Self { negative, top, bottom: self.bottom.clone(), power }
    }

    /// The same number with another factor in its top and its bottom.
    fn over(&self, factor: &Option<Nat>) -> Self {
        let top = factor.as_ref().map_or_else(|| self.top.clone(), |f| self.top.mul(f));
        Self { top, bottom: times(&self.bottom, factor), ..*self }
    }

    pub fn sub(&self, o: &Self) -> Self {
        self.add(&o.neg())
    }

    pub fn mul(&self, o: &Self) -> Self {
        Self {
            negative: self.negative != o.negative,
            top: self.top.mul(&o.top),
            bottom: times(&self.bottom, &o.bottom),
            power: self.power + o.power,
        }
    }

    pub fn div(&self, o: &Self) -> Self {
        assert!(!o.is_zero(), "a quotient by 0");
        Self {
            negative: self.negative != o.negative,
            top: o.bottom.as_ref().map_or_else(|| self.top.clone(), |b| self.top.mul(b)),
            bottom: Some(self.bottom.as_ref().map_or_else(|| o.top.clone(), |b| b.mul(&o.top))),
            power: self.power - o.power,
        }
    }

    fn is_negative(&self) -> bool {
        self.negative && !self.is_zero()
    }

    pub fn cmp(&self, o: &Self) -> Ordering {
        let d = self.sub(o);
        match (d.is_zero(), d.negative) {
            (true, _) => Ordering::Equal,
            (_, true) => Ordering::Less,
            (_, false) => Ordering::Greater,
        }
    }

    /// Whether the number lies between two doubles.
    pub fn is_inside(&self, lo: f64, hi: f64) -> bool {
        self.is_inside_over(&Self::of(1.0), lo, hi)
    }

    /// Whether the number over a bottom above 0 lies between two doubles; an infinite end sets no limit, a NaN holds nothing.
    pub fn is_inside_over(&self, bottom: &Self, lo: f64, hi: f64) -> bool {
        let over = lo == f64::NEG_INFINITY || lo.is_finite() && !self.sub(&bottom.mul(&Self::of(lo))).is_negative();
        let under = hi == f64::INFINITY || hi.is_finite() && !bottom.mul(&Self::of(hi)).sub(self).is_negative();
        over && under
    }
}

/// A fraction from 0 to 1, often an end, often with a long denominator.
pub fn share(r: &mut Rng) -> Fraction {
    let bottom = match r.below(4) {
        0 => 1,
        1 => 1 + r.below(10) as u128,
        2 => r.next() as u128 | 1,
        _ => (r.next() as u128) << 64 | r.next() as u128 | 1,
    };
    let top = match r.below(4) {
        0 => 0,
        1 => bottom,
        _ => ((r.next() as u128) << 64 | r.next() as u128) % bottom,
    };
    Fraction::ratio(top, bottom)
}

/// A fraction above 0 and below 1 by its top and its bottom, which is odd and has 128, 192, .. or 512 bits. It is not reduced.
pub fn long_share(r: &mut Rng) -> (Nat, Nat) {
    let n = 2 + r.below(7) as usize;
    let odd = |r: &mut Rng, high: u64| {
        let mut words: Vec<u64> = (0..n).map(|_| r.next()).collect();
        words[0] |= 1;
        words[n - 1] = words[n - 1] >> 1 | high;
        Nat(words).trimmed()
    };
    (odd(r, 0), odd(r, 1 << 63))
}

/// A fraction between two ends, or none where the only number between them is an infinity.
pub fn between(r: &mut Rng, lo: f64, hi: f64) -> Option<Fraction> {
    let far = |r: &mut Rng| share(r).mul(&Fraction::of(f64::from_bits(r.below(0x7ff0_0000_0000_0000))));
    match (lo.is_finite(), hi.is_finite()) {
        (true, true) => {
            let (lo, hi) = (Fraction::of(lo), Fraction::of(hi));
            Some(lo.add(&hi.sub(&lo).mul(&share(r))))
        }
        (true, false) => Some(Fraction::of(lo).add(&far(r))),
        (false, true) => Some(Fraction::of(hi).sub(&far(r))),
        (false, false) if lo < hi => Some(if r.below(2) == 0 { far(r) } else { far(r).neg() }),
        (false, false) => None,
    }
}

/// Sums and products whose values are known, so that a wrong fraction cannot judge.
pub fn self_test() -> bool {
    let third = Fraction::ratio(1, 3);
    let max = u64::MAX as u128;
    let big = Nat::of(u128::MAX).mul(&Nat::of(u128::MAX));
    let same = |a: &Fraction, b: &Fraction| a.cmp(b).is_eq();
    big.add(&Nat::of(u128::MAX)).add(&Nat::of(u128::MAX)).add(&Nat::of(1)) == Nat::of(1).doubled(256)
        && Nat::of(1).doubled(256).less(&Nat::of(1)) > big
        && Nat::of(max).mul(&Nat::of(max)) == Nat::of(max * max)
        && same(&third.add(&third).add(&third), &Fraction::of(1.0))
        && same(&Fraction::of(0.1).mul(&Fraction::of(f64::powi(2.0, 55))), &Fraction::ratio(3_602_879_701_896_397, 1))
        && same(&Fraction::of(-0.75).div(&Fraction::of(1.5)), &Fraction::ratio(1, 2).neg())
        && same(&Fraction::of(f64::MAX).sub(&Fraction::of(f64::MAX)), &Fraction::of(-0.0))
        && Fraction::of(f64::from_bits(1)).cmp(&Fraction::of(0.0)).is_gt()
        && third.is_inside(1.0f64 / 3.0, (1.0f64 / 3.0).next_up())
        && !third.is_inside((1.0f64 / 3.0).next_up(), 1.0)
        && third.neg().is_inside(f64::NEG_INFINITY, -1.0f64 / 3.0)
}
