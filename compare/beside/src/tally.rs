//! What a run has seen: a row per call, the kinds of doubles, and the first case that differs.
use crate::doubles::{KINDS, kind};
use crate::held::{self, Held, Kind};
use std::fmt::Write;

/// How many cases a block has; all have the block's random numbers.
pub const BLOCK: u64 = 16_384;

/// Where a case stands in a run.
#[derive(Clone, Copy, PartialEq, Eq, PartialOrd, Ord)]
pub struct Place {
    pub block: u64,
    pub case: u64,
}

/// A call of a module, as a row of the table.
pub struct Call {
    pub name: &'static str,
    /// The answered cases and refusal numbers that a run has to see.
    pub numbers: &'static [u32],
    /// Numbers in the source that no input gives: a run that sees one fails.
    pub idle: &'static [u32],
}

#[derive(Clone)]
pub struct Row {
    pub cases: u64,
    pub differ: u64,
    /// Cases that differ in the sign of a zero that the Rust leaves open, and in nothing else.
    pub zero_signs: u64,
    /// Exact results, of a box vectors, looked for in what was answered, and how many lay outside.
    pub exact: u64,
    pub outside: u64,
    /// Boxes in which exact vectors are looked for, and how many of them are left out, since their fractions are too long.
    pub boxes: u64,
    pub left_out: u64,
    /// Refusals of a surface reach 207.
    pub numbers: [u64; 208],
}

impl Row {
    const EMPTY: Self =
        Self { cases: 0, differ: 0, zero_signs: 0, exact: 0, outside: 0, boxes: 0, left_out: 0, numbers: [0; 208] };
}

/// A case that differs, and where it stands in the run.
pub struct Difference {
    pub place: Place,
    pub text: String,
}

pub struct Tally {
    pub rows: Vec<Row>,
    pub kinds: [u64; KINDS.len()],
    /// How often each of the module's features was met.
    pub features: Vec<u64>,
    /// The exact vectors of each of the module's kinds.
    pub held: Vec<Held>,
    pub first: Option<Difference>,
}

impl Tally {
    pub fn new(calls: usize, features: usize, exact: usize) -> Self {
        Self {
            rows: vec![Row::EMPTY; calls],
            kinds: [0; KINDS.len()],
            features: vec![0; features],
            held: vec![Held::default(); exact],
            first: None,
        }
    }

    /// Counts the kinds of the doubles that are passed to a call.
    pub fn count<'a>(&mut self, doubles: impl IntoIterator<Item = &'a f64>) {
        doubles.into_iter().for_each(|&d| self.kinds[kind(d)] += 1);
    }

    /// Counts a compared case by what it answers; its text where it differs.
    pub fn judged(&mut self, row: usize, number: u32, agrees: bool, text: impl FnOnce() -> String) -> Option<String> {
        let row = &mut self.rows[row];
        row.cases += 1;
        if agrees {
            row.numbers[number as usize] += 1;
            return None;
        }
        row.differ += 1;
        Some(text())
    }

    /// Keeps the difference that stands first in the run.
    pub fn keep(&mut self, d: Difference) {
        if self.first.as_ref().is_none_or(|f| d.place < f.place) {
            self.first = Some(d);
        }
    }

    pub fn merge(&mut self, o: Self) {
        for (a, b) in self.rows.iter_mut().zip(&o.rows) {
            a.cases += b.cases;
            a.differ += b.differ;
            a.zero_signs += b.zero_signs;
            a.exact += b.exact;
            a.outside += b.outside;
            a.boxes += b.boxes;
            a.left_out += b.left_out;
            for (x, y) in a.numbers.iter_mut().zip(b.numbers) {
                *x += y;
            }
        }
        for (x, y) in self.kinds.iter_mut().zip(o.kinds) {
            *x += y;
        }
        for (x, y) in self.features.iter_mut().zip(o.features) {
            *x += y;
        }
        for (x, y) in self.held.iter_mut().zip(&o.held) {
            x.merge(y);
        }
        if let Some(d) = o.first {
            self.keep(d);
        }
    }

    /// What was to be seen and was not, and what no input was to give and one gave; of a full run, of which exact vectors
    /// there were too few.
    pub fn unmet(&self, calls: &[Call], features: &[&str], exact: &[Kind], is_full_run: bool) -> Vec<String> {
        let mut lines = Vec::new();
        for (call, row) in calls.iter().zip(&self.rows) {
            for &n in call.numbers.iter().filter(|&&n| row.numbers[n as usize] == 0) {
                lines.push(format!("{}: {n} was never seen", call.name));
            }
            for &n in call.idle.iter().filter(|&&n| row.numbers[n as usize] != 0) {
                lines.push(format!("{}: {n} was seen, and no input was to give it", call.name));
            }
        }
        for (name, _) in KINDS.iter().zip(self.kinds).filter(|k| k.1 == 0) {
            lines.push(format!("no double of the kind {name} was passed"));
        }
        for (name, _) in features.iter().zip(&self.features).filter(|f| *f.1 == 0) {
            lines.push(format!("this was never met: {name}"));
        }
        lines.extend(exact.iter().zip(&self.held).flat_map(|(kind, held)| held.unmet(kind, is_full_run)));
        lines
    }

    pub fn passed(&self) -> u64 {
        self.rows.iter().map(|r| r.cases - r.differ + r.exact - r.outside).sum()
    }

    pub fn failed(&self) -> u64 {
        self.rows.iter().map(|r| r.differ + r.outside).sum()
    }

    pub fn table(&self, module: &str, calls: &[Call], features: &[&str], exact: &[Kind]) -> String {
        let mut s = format!(
            "{:<20} {:>12} {:>8} {:>10} {:>9} {:>8}  answers and refusals seen\n",
            module, "cases", "differ", "zero signs", "exact", "outside"
        );
        for (call, row) in calls.iter().zip(&self.rows) {
            let _ = write!(
                s,
                "{:<20} {:>12} {:>8} {:>10} {:>9} {:>8} ",
                call.name,
                grouped(row.cases),
                row.differ,
                row.zero_signs,
                grouped(row.exact),
                row.outside
            );
            let seen = row.numbers.iter().enumerate().filter(|x| *x.1 > 0 && !call.idle.contains(&(x.0 as u32)));
            for (n, &count) in seen {
                let _ = write!(s, " {n}:{}", grouped(count));
            }
            for (i, &n) in call.idle.iter().enumerate() {
                let told = if i == 0 { ", never given:" } else { "" };
                let _ = write!(s, "{told} {n}:{}", grouped(row.numbers[n as usize]));
            }
            s.push('\n');
        }
        if !exact.is_empty() {
            s.push_str(&held::table(exact, &self.held));
            let left_out = |(call, row): (&Call, &Row)| {
                format!("{} of {} boxes of {}", grouped(row.left_out), grouped(row.boxes), call.name)
            };
            let left_out: Vec<String> = calls.iter().zip(&self.rows).filter(|(_, row)| row.boxes > 0).map(left_out).collect();
            let _ = writeln!(s, "\nleft out, too long: {}", left_out.join(", "));
        }
        s.push_str("doubles passed:");
        for (name, count) in KINDS.iter().zip(self.kinds) {
            let _ = write!(s, " {name} {}", grouped(count));
        }
        if !features.is_empty() {
            let seen: Vec<String> = features.iter().zip(&self.features).map(|(f, n)| format!("{f} {}", grouped(*n))).collect();
            let _ = write!(s, "\nmet: {}", seen.join(", "));
        }
        s
    }
}

/// 1234567 as 1,234,567.
pub fn grouped(n: u64) -> String {
    let digits = n.to_string();
    let mut s = String::new();
    for (i, c) in digits.chars().enumerate() {
        if i > 0 && (digits.len() - i).is_multiple_of(3) {
            s.push(',');
        }
        s.push(c);
    }
    s
}
