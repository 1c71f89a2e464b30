//! How the operands of a case are made.
use crate::doubles::{double, partner};
use crate::rng::Rng;

/// The operands of a case; a call reads the first few.
pub type X = [f64; 4];

#[derive(Clone, Copy, PartialEq)]
pub enum Operands {
    None,
    Double,
    Doubles,
    Interval,
    IntervalDouble,
    Intervals,
}

impl Operands {
    /// How many doubles they are.
    pub fn doubles(self) -> usize {
        match self {
            Operands::None => 0,
            Operands::Double => 1,
            Operands::Doubles | Operands::Interval => 2,
            Operands::IntervalDouble => 3,
            Operands::Intervals => 4,
        }
    }
}

/// Two ends, low before high save in one case of sixteen.
fn ordered(r: &mut Rng, a: f64, b: f64) -> (f64, f64) {
    if a > b && r.below(16) > 0 { (b, a) } else { (a, b) }
}

fn interval(r: &mut Rng, near: Option<f64>) -> (f64, f64) {
    let a = match near {
        Some(x) => partner(r, x),
        None => double(r),
    };
    let b = partner(r, a);
    ordered(r, a, b)
}

pub fn operands(r: &mut Rng, shape: Operands) -> X {
    let mut x = [0.0; 4];
    match shape {
        Operands::None => {}
        Operands::Double => x[0] = double(r),
        Operands::Doubles => {
            x[0] = double(r);
            x[1] = partner(r, x[0]);
        }
        Operands::Interval => (x[0], x[1]) = interval(r, None),
        Operands::IntervalDouble => {
            (x[0], x[1]) = interval(r, None);
            let end = r.pick(&[x[0], x[1]]);
            x[2] = partner(r, end);
        }
        Operands::Intervals => {
            (x[0], x[1]) = interval(r, None);
            let end = r.pick(&[x[0], x[1]]);
            (x[2], x[3]) = interval(r, Some(end));
        }
    }
    x
}
