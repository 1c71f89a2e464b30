//! A run that is lent to an exported call, with marked numbers around it, and what has to stand in it afterwards.
use crate::rng::Rng;

/// How an answered word compares with the Rust's.
#[derive(Clone, Copy, PartialEq, Eq, PartialOrd, Ord)]
pub enum Match {
    Same,
    /// Two zeros of different signs where the Rust leaves the sign open.
    ZeroSign,
    Differs,
}

impl From<bool> for Match {
    fn from(same: bool) -> Self {
        if same { Match::Same } else { Match::Differs }
    }
}

/// Bit for bit, a NaN with any NaN.
pub fn matched(want: u64, got: u64, open_zero: bool) -> Match {
    let (w, g) = (f64::from_bits(want), f64::from_bits(got));
    if open_zero && want != got && w == 0.0 && g == 0.0 {
        return Match::ZeroSign;
    }
    Match::from(want == got || w.is_nan() && g.is_nan())
}

const GUARD: usize = 2;

#[derive(Default)]
pub struct Lent {
    numbers: Vec<f64>,
    room: usize,
    mark: u64,
}

impl Lent {
    /// A run of `room` numbers, each with the same mark: finite, and so rare that no call answers it.
    pub fn lend(&mut self, r: &mut Rng, room: usize) -> &mut [f64] {
        self.mark = 0x4330_0000_0000_0000 | r.next() >> 16;
        self.room = room;
        self.numbers.clear();
        self.numbers.resize(room + 2 * GUARD, f64::from_bits(self.mark));
        &mut self.numbers[GUARD..GUARD + room]
    }

    pub fn words(&self) -> Vec<u64> {
        self.numbers[GUARD..GUARD + self.room].iter().map(|x| x.to_bits()).collect()
    }

    /// The front holds `want`, every number behind it is +0.0, and nothing around the run was written.
    pub fn holds(&self, want: &[u64], open_zero: bool) -> Match {
        let place = |(i, x): (usize, &f64)| {
            let got = x.to_bits();
            let at = i.wrapping_sub(GUARD);
            if at >= self.room {
                Match::from(got == self.mark)
            } else if at < want.len() {
                matched(want[at], got, open_zero)
            } else {
                Match::from(got == 0)
            }
        };
        self.numbers.iter().enumerate().map(place).max().unwrap_or(Match::Same)
    }
}
