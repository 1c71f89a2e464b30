//! A parameter and its domain: what a call of either mode makes of one outside, and the spots at and about the ends that a
//! run has to meet.
use crate::rng::Rng;

/// The ends, knots[degree] and knots[count].
#[derive(Clone, Copy)]
pub struct Domain {
    lo: f64,
    hi: f64,
}

impl Domain {
    /// Of knots that are valid.
    pub fn of(degree: usize, count: usize, knots: &[f64]) -> Self {
        Self { lo: knots[degree], hi: knots[count] }
    }

    /// Whether a finite parameter lies outside, as a number: the other zero of an end is inside.
    pub fn is_outside(self, t: f64) -> bool {
        t.is_finite() && (t < self.lo || t > self.hi)
    }

    /// Which of the spots that `around!` names a parameter is at; one that is not finite is at none.
    pub fn spots(self, t: f64) -> [bool; AROUND] {
        let Self { lo, hi } = self;
        // Equal numbers of different bits are the two zeros.
        let is_other_zero = |end: f64| t == end && t.to_bits() != end.to_bits();
        [
            t < lo.next_down(),
            t == lo.next_down(),
            t == lo,
            is_other_zero(lo),
            t == lo.next_up(),
            t == hi.next_down(),
            t == hi,
            is_other_zero(hi),
            t == hi.next_up(),
            t > hi.next_up(),
        ]
        .map(|is_at| is_at && t.is_finite())
    }
}

/// Adds to the counts of a call's spots.
pub fn met(spots: [bool; AROUND], seen: &mut [u64]) {
    for (n, is_at) in seen.iter_mut().zip(spots) {
        *n += is_at as u64;
    }
}

/// How many spots a call's parameter has.
pub const AROUND: usize = 10;

/// The spots of each call's parameter, in the order of `Domain::spots`.
macro_rules! around {
    ($($of:literal)*) => {
        [$(
            concat!($of, " further below the domain"),
            concat!($of, " one double below the domain"),
            concat!($of, " at the lower end"),
            concat!($of, " at the other zero of the lower end"),
            concat!($of, " one double above the lower end"),
            concat!($of, " one double below the upper end"),
            concat!($of, " at the upper end"),
            concat!($of, " at the other zero of the upper end"),
            concat!($of, " one double above the domain"),
            concat!($of, " further above the domain"),
        )*]
    };
}
pub(crate) use around;

/// What a call makes of a finite parameter outside the domain.
#[derive(Clone, Copy, PartialEq, Eq)]
pub enum Mode {
    /// By its plain name it refuses: 43.
    Refusing,
    /// Named `_clamped` it takes the nearer end.
    Clamping,
}

impl Mode {
    pub fn either(r: &mut Rng) -> Self {
        r.pick(&[Self::Refusing, Self::Clamping])
    }

    /// The parameter's own refusal, by a rule of the comparison's: 12, then 43.
    pub fn refusal(self, domain: Domain, t: f64) -> Option<u32> {
        match self {
            _ if !t.is_finite() => Some(12),
            Self::Refusing if domain.is_outside(t) => Some(43),
            _ => None,
        }
    }
}

/// Whether a call that answers this number has looked at its parameter.
pub fn is_looked_at(number: u32) -> bool {
    matches!(number, 0 | 12 | 21 | 43)
}
