//! What boxes were found to hold: exact vectors, counted by kind and by where their parameters stand in the range.
use crate::tally::grouped;
use std::fmt::Write;

/// Where a parameter stands: a range of one point, an end, a double between the ends, a fraction with a long denominator.
/// Of a surface's two parameters the later in this order counts. The last is of what has no parameter.
#[derive(Clone, Copy, PartialEq, Eq, PartialOrd, Ord)]
pub enum Spot {
    Alone,
    End,
    Double,
    Long,
    Whole,
}

const SPOTS: [&str; 5] = ["one point", "ends", "doubles", "fractions", "whole"];

/// A kind of vector: x, y and z of a point or of a derivative, which count as one.
pub struct Kind {
    pub name: &'static str,
    /// Where vectors of the kind are looked for.
    pub spots: &'static [Spot],
    /// How many with six finite ends a full run has to look for. A shorter one has no floors: it may be as short as one case.
    pub least: u64,
}

/// A part of a kind, a spot or tables with or without weights, has to have one in so many of the kind's least.
const PART: u64 = 40;

/// The vectors of one kind that were looked for in three intervals.
#[derive(Clone, Default)]
pub struct Held {
    /// Where all six ends are finite.
    at: [u64; SPOTS.len()],
    rational: u64,
    /// Where an end is infinite, which sets no limit.
    open: u64,
    outside: u64,
}

impl Held {
    pub fn count(&mut self, spot: Spot, rational: bool, ends: &[f64], inside: bool) {
        self.outside += !inside as u64;
        if ends.iter().all(|x| x.is_finite()) {
            self.at[spot as usize] += 1;
            self.rational += rational as u64;
        } else {
            self.open += 1;
        }
    }

    pub fn merge(&mut self, o: &Self) {
        for (x, y) in self.at.iter_mut().zip(o.at) {
            *x += y;
        }
        self.rational += o.rational;
        self.open += o.open;
        self.outside += o.outside;
    }

    fn all(&self) -> u64 {
        self.at.iter().sum()
    }

    /// What lies outside and, of a full run, of what there was too little.
    pub fn unmet(&self, kind: &Kind, is_full_run: bool) -> Vec<String> {
        let part = kind.least / PART;
        let all = [("in all", self.all(), kind.least)];
        let spots = kind.spots.iter().map(|s| (SPOTS[*s as usize], self.at[*s as usize], part));
        let weights = [("rational", self.rational, part), ("polynomial", self.all() - self.rational, part)];
        let few = all.into_iter().chain(spots).chain(weights).filter(|(_, seen, least)| is_full_run && seen < least);
        let few = few.map(|(of, seen, least)| format!("{}, {of}: {seen} exact ones, fewer than {least}", kind.name));
        let outside = (self.outside > 0).then(|| format!("{}: {} exact ones lie outside", kind.name, self.outside));
        outside.into_iter().chain(few).collect()
    }
}

/// A row of each kind.
pub fn table(kinds: &[Kind], held: &[Held]) -> String {
    let mut s = format!("{:<20}", "exact in boxes");
    for name in SPOTS.iter().chain(&["rational", "in all", "open", "outside"]) {
        let _ = write!(s, " {name:>10}");
    }
    for (kind, h) in kinds.iter().zip(held) {
        let _ = write!(s, "\n{:<20}", kind.name);
        for n in h.at.into_iter().chain([h.rational, h.all(), h.open, h.outside]) {
            let _ = write!(s, " {:>10}", grouped(n));
        }
    }
    s
}
