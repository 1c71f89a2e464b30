use crate::refusal::done;
use crate::{Refusal, face};
use std::ops::{Add, Div, Mul, Neg, Sub};

/// All numbers from `lo` to `hi`, both included; an end may be infinite.
///
/// Sums, differences, products and quotients are rounded outward: the exact result for any two numbers inside lies in
/// the answered interval. Where an operation meets NaN, that is the whole line.
///
/// ```
/// use tasulogi::Interval;
/// let third = (Interval::point(1.0) / Interval::point(3.0))?;
/// let one = third + third + third;
/// assert!(one.contains(1.0) && one.width() < 1e-14);
/// # Ok::<(), tasulogi::Refusal>(())
/// ```
#[derive(Clone, Copy, Debug, PartialEq)]
pub struct Interval {
    lo: f64,
    hi: f64,
}

/// What is known of the sign of every number in an interval.
#[derive(Clone, Copy, Debug, PartialEq, Eq, Hash)]
pub enum Sign {
    Positive,
    Negative,
    Zero,
    Unknown,
}

impl Interval {
    /// The whole line.
    pub const ENTIRE: Self = Self { lo: f64::NEG_INFINITY, hi: f64::INFINITY };

    /// The interval from `lo` to `hi`; none where `lo` is above `hi` or an end is NaN.
    ///
    /// ```
    /// use tasulogi::Interval;
    /// let a = Interval::new(1.0, 2.0).unwrap();
    /// assert_eq!((a.lo(), a.hi()), (1.0, 2.0));
    /// assert_eq!([(2.0, 1.0), (f64::NAN, 1.0)].map(|(lo, hi)| Interval::new(lo, hi)), [None, None]);
    /// ```
    pub fn new(lo: f64, hi: f64) -> Option<Self> {
        let mut out = [0.0; 2];
        (face::interval_new(lo, hi, &mut out) == 0).then(|| Self::of(out))
    }

    /// The interval of `x` alone; of NaN the whole line.
    ///
    /// ```
    /// use tasulogi::Interval;
    /// assert_eq!(Some(Interval::point(0.1)), Interval::new(0.1, 0.1));
    /// assert_eq!(Interval::point(f64::NAN), Interval::ENTIRE);
    /// ```
    pub fn point(x: f64) -> Self {
        Self::formed(|out| face::interval_point(x, out))
    }

    /// The low end.
    pub fn lo(self) -> f64 {
        self.lo
    }

    /// The high end.
    pub fn hi(self) -> f64 {
        self.hi
    }

    /// The square, which unlike a product with itself is never negative.
    ///
    /// ```
    /// use tasulogi::Interval;
    /// let a = Interval::new(-1.0, 2.0).unwrap();
    /// assert_eq!(Some(a.sqr()), Interval::new(0.0, 4.0f64.next_up()));
    /// assert!((a * a).lo() < -2.0);
    /// ```
    pub fn sqr(self) -> Self {
        Self::formed(|out| face::interval_sqr(self.lo, self.hi, out))
    }

    /// The least interval with both in it.
    ///
    /// ```
    /// use tasulogi::Interval;
    /// assert_eq!(Some(Interval::point(3.0).hull(Interval::point(1.0))), Interval::new(1.0, 3.0));
    /// ```
    pub fn hull(self, other: Self) -> Self {
        Self::formed(|out| face::interval_hull(self.lo, self.hi, other.lo, other.hi, out))
    }

    /// Whether `x` lies inside, an end included; NaN does not.
    ///
    /// ```
    /// use tasulogi::Interval;
    /// let a = Interval::new(1.0, 2.0).unwrap();
    /// assert_eq!([1.0, 2.0, 2.5, f64::NAN].map(|x| a.contains(x)), [true, true, false, false]);
    /// ```
    pub fn contains(self, x: f64) -> bool {
        face::tasulogi_interval_contains(self.lo, self.hi, x) == 1
    }

    /// The width, rounded up; NaN where both ends are the same infinity.
    ///
    /// ```
    /// use tasulogi::Interval;
    /// assert_eq!(Interval::new(1.0, 3.0).unwrap().width(), 2.0f64.next_up());
    /// assert_eq!(Interval::ENTIRE.width(), f64::INFINITY);
    /// ```
    pub fn width(self) -> f64 {
        let mut out = [0.0];
        if face::interval_width(self.lo, self.hi, &mut out) == 0 { out[0] } else { f64::INFINITY }
    }

    /// The sign that every number in it has.
    ///
    /// ```
    /// use tasulogi::{Interval, Sign};
    /// let of = |lo, hi| Interval::new(lo, hi).unwrap().sign();
    /// assert_eq!([of(1.0, 2.0), of(-2.0, -1.0)], [Sign::Positive, Sign::Negative]);
    /// assert_eq!([of(0.0, 0.0), of(0.0, 1.0)], [Sign::Zero, Sign::Unknown]);
    /// ```
    pub fn sign(self) -> Sign {
        match face::tasulogi_interval_sign(self.lo, self.hi) {
            1 => Sign::Positive,
            2 => Sign::Negative,
            3 => Sign::Zero,
            _ => Sign::Unknown,
        }
    }

    /// Two answered ends.
    pub(crate) fn of([lo, hi]: [f64; 2]) -> Self {
        Self { lo, hi }
    }

    /// What a call answers. No interval makes such a call refuse; the whole line would hold any result.
    fn formed(call: impl FnOnce(&mut [f64]) -> u32) -> Self {
        let mut out = [0.0; 2];
        if call(&mut out) == 0 { Self::of(out) } else { Self::ENTIRE }
    }
}

/// Each end rounded to nearest, then a double outward.
///
/// ```
/// use tasulogi::Interval;
/// let step = 2f64.powi(-51);
/// assert_eq!(Some(Interval::point(1.0) + Interval::point(2.0)), Interval::new(3.0 - step, 3.0 + step));
/// ```
impl Add for Interval {
    type Output = Self;
    fn add(self, other: Self) -> Self {
        Self::formed(|out| face::interval_add(self.lo, self.hi, other.lo, other.hi, out))
    }
}

/// Each end rounded to nearest, then a double outward.
///
/// ```
/// use tasulogi::Interval;
/// let a = Interval::new(1.0, 2.0).unwrap();
/// assert_eq!(Some(a - a), Interval::new((-1.0f64).next_down(), 1.0f64.next_up()));
/// ```
impl Sub for Interval {
    type Output = Self;
    fn sub(self, other: Self) -> Self {
        Self::formed(|out| face::interval_sub(self.lo, self.hi, other.lo, other.hi, out))
    }
}

/// The least and the greatest product of two ends, each a double outward.
///
/// ```
/// use tasulogi::Interval;
/// assert_eq!(Some(Interval::point(0.0) * Interval::point(5.0)), Interval::new(-5e-324, 5e-324));
/// ```
impl Mul for Interval {
    type Output = Self;
    fn mul(self, other: Self) -> Self {
        Self::formed(|out| face::interval_mul(self.lo, self.hi, other.lo, other.hi, out))
    }
}

/// The first times the outward interval of both reciprocals of the second; refusal 26 where that contains 0.
///
/// ```
/// use tasulogi::{Class, Interval};
/// let six = Interval::point(6.0);
/// assert!((six / Interval::point(3.0))?.contains(2.0));
/// let refusal = (six / Interval::new(-1.0, 1.0).unwrap()).unwrap_err();
/// assert_eq!((refusal.number, refusal.class()), (26, Class::Unimplemented));
/// # Ok::<(), tasulogi::Refusal>(())
/// ```
impl Div for Interval {
    type Output = Result<Self, Refusal>;
    fn div(self, other: Self) -> Result<Self, Refusal> {
        let mut out = [0.0; 2];
        done(u64::from(face::interval_divide(self.lo, self.hi, other.lo, other.hi, &mut out)))?;
        Ok(Self::of(out))
    }
}

/// The interval of the opposite numbers.
///
/// ```
/// use tasulogi::Interval;
/// assert_eq!(Some(-Interval::new(1.0, 2.0).unwrap()), Interval::new(-2.0, -1.0));
/// ```
impl Neg for Interval {
    type Output = Self;
    fn neg(self) -> Self {
        Self::formed(|out| face::interval_neg(self.lo, self.hi, out))
    }
}
