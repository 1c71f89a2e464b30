//! Refusals with their places. The Rust says the number alone; the place is by a rule of the comparison's own, written
//! from the request over the numbers of the table.
use oracle::Refusal;

/// A refusal as the exported calls tell it, 0 for none: 1 to 7 of a surface with 100 more along u, 200 more along v, and
/// the place.
#[derive(Clone, Copy, Debug, Default, PartialEq, Eq)]
pub struct Refused {
    pub number: u32,
    pub place: u32,
}

impl Refused {
    /// All refusals but 4, 7, 8 and 10 have the place 0.
    pub fn unplaced(number: u32) -> Self {
        Self { number, place: 0 }
    }

    /// As most calls return it: the place in the high half.
    pub fn word(self) -> u64 {
        u64::from(self.place) << 32 | u64::from(self.number)
    }

    pub fn of_word(word: u64) -> Self {
        Self { number: word as u32, place: (word >> 32) as u32 }
    }

    /// As a call returns it whose answer is a number: the place in the low half, where the answer would be.
    pub fn turned(self) -> u64 {
        self.word().rotate_left(32)
    }
}

/// What a refusal with a place is about: of a surface, 4 and 7 look at one direction's degree and knots.
pub struct Looked<'a> {
    pub degree: usize,
    pub knots: &'a [f64],
    pub points: &'a [f64],
    pub weights: &'a [f64],
}

fn places(n: usize, is_wrong: impl Fn(usize) -> bool) -> Vec<usize> {
    (0..n).filter(|&i| is_wrong(i)).collect()
}

fn not_finite(knots: &[f64]) -> Vec<usize> {
    places(knots.len(), |i| !knots[i].is_finite())
}

/// The knots that exceed their successors.
fn descents(knots: &[f64]) -> Vec<usize> {
    places(knots.len().saturating_sub(1), |i| knots[i] > knots[i + 1])
}

/// The first knot of each run of degree + 2 equal knots or more.
fn repeats(degree: usize, knots: &[f64]) -> Vec<usize> {
    let starts = |i: usize| i == 0 || knots[i - 1] != knots[i];
    places(knots.len() - degree - 1, |i| starts(i) && knots[i..i + degree + 2].iter().all(|k| *k == knots[i]))
}

impl Looked<'_> {
    /// The places where the table is wrong as a refusal says. A knot that is not finite comes before any descent.
    fn wrong(&self, number: u32) -> Vec<usize> {
        match number {
            4 if self.is_finite() => descents(self.knots),
            4 => not_finite(self.knots),
            7 => repeats(self.degree, self.knots),
            8 => places(self.points.len() / 3, |i| self.points[3 * i..3 * i + 3].iter().any(|x| !x.is_finite())),
            10 => places(self.weights.len(), |i| !(self.weights[i].is_finite() && self.weights[i] > 0.0)),
            _ => vec![0],
        }
    }

    fn is_finite(&self) -> bool {
        self.knots.iter().all(|k| k.is_finite())
    }

    pub fn refused(&self, r: Refusal) -> Refused {
        let number = r.number + [100, 200, 0][r.direction as usize];
        let first = *self.wrong(r.number).first().expect("the Rust refuses nothing that is not wrong");
        Refused { number, place: first as u32 }
    }

    /// What is wrong, in the order of PLACES, and the last place that can be.
    fn kind(&self, number: u32) -> Option<(usize, usize)> {
        match number {
            4 if !self.is_finite() => Some((0, self.knots.len() - 1)),
            4 => Some((1, self.knots.len() - 2)),
            7 => Some((2, self.knots.len() - self.degree - 2)),
            8 => Some((3, self.points.len() / 3 - 1)),
            10 => Some((4, self.weights.len() - 1)),
            _ => None,
        }
    }

    /// Adds to what PLACES names.
    pub fn seen(&self, r: Refused, of_surface: bool, seen: &mut [u64]) {
        let number = r.number % 100;
        let Some((kind, last)) = self.kind(number) else { return };
        let row = kind + if of_surface { [8, 5, 8][r.number as usize / 100] } else { 0 };
        let place = r.place as usize;
        let wrong = self.wrong(number).len();
        let spots = [place == 0, 0 < place && place < last, place == last, wrong > 1];
        for (n, is_so) in seen[SPOTS * row..].iter_mut().zip(spots) {
            *n += is_so as u64;
        }
        let own = &mut seen[PLACES.len() - 2..];
        own[0] += (kind == 0 && !descents(&self.knots[..place]).is_empty()) as u64;
        own[1] += (kind == 2 && wrong > 1 && self.knots.len() >= 900) as u64;
    }
}

const SPOTS: usize = 4;

macro_rules! spots {
    ($($of:literal)* ; $($own:literal)*) => {
        [$(
            concat!($of, " at the front"),
            concat!($of, " in the middle"),
            concat!($of, " at the end"),
            concat!($of, " twice or more"),
        )* $($own),*]
    };
}

/// The places that a run has to have met, by what is wrong there.
pub const PLACES: [&str; 13 * SPOTS + 2] = spots! {
    "a curve's knot not finite"
    "a curve's descent"
    "a curve's equal knots"
    "a curve's point not finite"
    "a curve's bad weight"
    "a u knot not finite"
    "a u descent"
    "equal u knots"
    "a v knot not finite"
    "a v descent"
    "equal v knots"
    "a surface's point not finite"
    "a surface's bad weight"
    ;
    "a knot not finite behind a descent"
    "900 knots with two equal runs"
};
