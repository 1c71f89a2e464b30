//! The modules that are compared. A later one is one file here and one word in `ALL`.
use crate::held::Kind;
use crate::lent::Lent;
use crate::rng::Rng;
use crate::tally::{Call, Place, Tally};
use std::io::{Result, Write};

mod answered;
mod bounds;
mod edits;
mod evaluate;
mod interval;
mod knots;
mod listed;
mod many;
mod timed;

pub use bounds::self_test as boxes_judged;
pub use timed::Times;

/// What a thread makes and compares its cases with.
pub struct Desk {
    pub r: Rng,
    pub lent: [Lent; 4],
    pub tally: Tally,
}

/// Writes a part of the replayed list and what its reader prints.
pub type List = fn(&mut dyn Write, &mut dyn Write) -> Result<()>;

pub struct Module {
    pub name: &'static str,
    /// The rows of the table, in order.
    pub calls: fn() -> Vec<Call>,
    /// What a run has to meet in its tables and parameters.
    pub features: &'static [&'static str],
    /// The kinds of exact vectors that are looked for in its boxes.
    pub exact: &'static [Kind],
    /// How many cases a run has where the command does not say.
    pub default_cases: u64,
    /// Makes a case and compares it; its text where it differs.
    pub case: fn(Place, &mut Desk) -> Option<String>,
    /// Writes the module's part of the list that `crates/replay` reads, where there is one, and the lines that it then has to print.
    pub list: Option<List>,
    /// Times against the Rust, the best of so many rounds.
    pub bench: fn(u32) -> Vec<Times>,
}

/// The features of all tables, then a module's own.
const fn joined<const N: usize>(common: &[&'static str], own: &[&'static str]) -> [&'static str; N] {
    let mut all = [""; N];
    let (a, b) = all.split_at_mut(common.len());
    a.copy_from_slice(common);
    b.copy_from_slice(own);
    all
}

pub const ALL: [Module; 6] = [interval::MODULE, knots::MODULE, evaluate::MODULE, bounds::MODULE, edits::MODULE, many::MODULE];
