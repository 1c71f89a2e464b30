//! What a call with lent runs has to answer, and our answer beside it.
use super::Desk;
use crate::face::tasulogi_class_of;
use crate::lent::Match;
use crate::rng::Rng;
use crate::tables::{Refused, hex};
use oracle::{BCurve, Point3, class_of};
use std::sync::LazyLock;

/// A line for each number of document 01's table: the number, the letter of its class, the text.
const TABLE: &str = include_str!("../../../../docs/refusals.txt");

/// The classes of the table, invalid 0 to internal 4, and 5 where it has no line; those of the Rust's own are the oracle's.
static CLASSES: LazyLock<[u32; 55]> = LazyLock::new(|| {
    let mut classes = [5; 55];
    for line in TABLE.lines() {
        let (number, rest) = line.split_once(' ').expect("a number");
        let number: u32 = number.parse().expect("a number");
        assert!(number > 33 || rest.starts_with(class_of(number)), "{line}");
        classes[number as usize] = "IDUCN".find(&rest[..1]).expect("a class") as u32;
    }
    classes
});

/// The class of a number, and 5 of one that the table does not have.
pub fn class_number(number: u32) -> u32 {
    CLASSES.get(number as usize).copied().unwrap_or(5)
}

/// Whether our class of a returned number is that.
pub fn class_agrees(number: u32) -> bool {
    let number = number % 100;
    u32::from(tasulogi_class_of(number)) == class_number(number)
}

pub fn point(p: Point3) -> [u64; 3] {
    [p.x, p.y, p.z].map(f64::to_bits)
}

pub fn words(run: &[f64]) -> Vec<u64> {
    run.iter().map(|x| x.to_bits()).collect()
}

pub fn coordinates(c: &BCurve) -> Vec<u64> {
    c.points().iter().flat_map(|p| point(*p)).collect()
}

/// Mostly the room that is needed, now and then one short, one over, some over, or none.
pub fn room(r: &mut Rng, need: usize) -> usize {
    match r.below(24) {
        0 => need.saturating_sub(1),
        1 => need + 1,
        2 => need + r.below(8) as usize,
        3 if r.below(4) == 0 => 0,
        _ => need,
    }
}

pub enum Wanted {
    /// What each lent run has to start with.
    Runs(Vec<Vec<u64>>),
    /// A refusal that comes before the rooms are looked at.
    Refused(Refused),
    /// A refusal of what was formed: the rooms were looked at before.
    Formed(Refused),
}

impl Wanted {
    /// A refusal that has no place.
    pub fn unplaced(number: u32) -> Self {
        Self::Refused(Refused::unplaced(number))
    }

    /// 0 where the runs are answered.
    pub fn number(&self) -> u32 {
        match self {
            Self::Runs(_) => 0,
            Self::Refused(r) | Self::Formed(r) => r.number,
        }
    }
}

/// A call of a table's row: how many numbers each run needs, what stands in the high half of the word that is returned
/// where the runs are answered, and how the room for so many is chosen.
pub struct Asked<'a> {
    pub row: usize,
    pub needs: &'a [usize],
    pub high: usize,
    pub room: fn(&mut Rng, usize) -> usize,
}

/// Our answer in lent runs beside the wanted runs; the text of the answers where they differ.
pub fn compared(desk: &mut Desk, asked: Asked, want: &Wanted, ours: impl FnOnce(&mut [&mut [f64]]) -> u64) -> Option<String> {
    let Desk { r, lent, tally } = desk;
    let rooms: Vec<usize> = asked.needs.iter().map(|n| (asked.room)(r, *n)).collect();
    let lent = &mut lent[..rooms.len()];
    let short = rooms.iter().zip(asked.needs).any(|(a, b)| a < b);
    let none = vec![Vec::new(); rooms.len()];
    let (word, runs) = match want {
        Wanted::Refused(r) => (r.word(), &none),
        Wanted::Formed(_) | Wanted::Runs(_) if short => (30, &none),
        Wanted::Formed(r) => (r.word(), &none),
        Wanted::Runs(runs) => ((asked.high as u64) << 32, runs),
    };
    let mut given: Vec<&mut [f64]> = lent.iter_mut().zip(&rooms).map(|(l, n)| l.lend(r, *n)).collect();
    let got = ours(&mut given);
    let same = runs.iter().zip(lent.iter()).all(|(w, l)| l.holds(w, false) == Match::Same);
    tally.judged(asked.row, word as u32, got == word && same && class_agrees(got as u32), || {
        let told = |words: &[u64]| format!("\n                {}", hex(words.iter().copied()));
        let want: String = runs.iter().map(|w| told(w)).collect();
        let ours: String = lent.iter().map(|l| told(&l.words())).collect();
        format!("  lent:          {rooms:?} numbers\n  wanted:        {word:#x}{want}\n  ours:          {got:#x}{ours}")
    })
}
