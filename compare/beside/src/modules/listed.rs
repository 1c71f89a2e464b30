//! Lists of tables and answers as words: what crates/replay reads.
use super::answered::Wanted;
use crate::rng::Rng;
use crate::tables::{Curve, Refused, Surface};
use std::collections::BTreeMap;
use std::io::{Result, Write};

/// The most numbers of a run that crates/replay has room for.
const ROOM: usize = 512;

/// One pattern for every NaN, so that every machine writes one list.
pub fn word(x: f64) -> u64 {
    if x.is_nan() { 0x7ff8_0000_0000_0000 } else { x.to_bits() }
}

/// A case in words, of which the first is a degree, and what it answers.
pub struct Listed {
    pub words: Vec<u64>,
    pub answer: Refused,
}

impl Listed {
    /// Behind a case the number, the direction and the place, then the runs; where `lengths` counts them, each behind its
    /// length.
    pub fn answered(mut words: Vec<u64>, want: Wanted, lengths: usize) -> Self {
        let (answer, runs) = match want {
            Wanted::Refused(r) | Wanted::Formed(r) => (r, vec![Vec::new(); lengths]),
            Wanted::Runs(runs) => (Refused::default(), runs),
        };
        words.extend([answer.number % 100, (answer.number / 100 + 2) % 3, answer.place].map(u64::from));
        for run in runs {
            if lengths > 0 {
                words.push(run.len() as u64);
            }
            words.extend(run.iter().map(|w| word(f64::from_bits(*w))));
        }
        Self { words, answer }
    }
}

pub fn run(words: &mut Vec<u64>, run: &[f64]) {
    words.push(run.len() as u64);
    words.extend(run.iter().map(|x| word(*x)));
}

pub fn curve(c: &Curve) -> Option<Vec<u64>> {
    if [&c.knots, &c.points, &c.weights].iter().any(|r| r.len() > ROOM) {
        return None;
    }
    let mut words = vec![c.degree as u64];
    run(&mut words, &c.knots);
    run(&mut words, &c.points);
    words.push(c.rational as u64);
    run(&mut words, if c.rational { &c.weights } else { &[] });
    Some(words)
}

pub fn surface(s: &Surface) -> Option<Vec<u64>> {
    if [&s.knots[0], &s.knots[1], &s.points, &s.weights].iter().any(|r| r.len() > ROOM) {
        return None;
    }
    let mut words: Vec<u64> = s.degrees.iter().map(|d| *d as u64).collect();
    run(&mut words, &s.knots[0]);
    run(&mut words, &s.knots[1]);
    words.extend(s.counts.iter().map(|n| *n as u64));
    run(&mut words, &s.points);
    words.push(s.rational as u64);
    run(&mut words, if s.rational { &s.weights } else { &[] });
    Some(words)
}

/// How many cases are made, from which stream of random numbers, how many are kept, and how many of each refusal.
pub struct Choice {
    pub stream: u64,
    pub tried: u64,
    pub cases: usize,
    pub each: usize,
}

impl Choice {
    pub fn of(&self, mut case: impl FnMut(&mut Rng) -> Option<Listed>) -> Vec<Listed> {
        let mut r = Rng::new(1, self.stream);
        chosen((0..self.tried).filter_map(|_| case(&mut r)), self.cases, self.each)
    }
}

/// How many cases of an answer are looked at for each that is kept.
const LOOKED_AT: usize = 8;

/// `each` cases of every refusal, and of the answer 0 all that are left of `cases`: of each the degrees and places in
/// turn, and of a refusal the shortest.
fn chosen(tried: impl Iterator<Item = Listed>, cases: usize, each: usize) -> Vec<Listed> {
    let mut by: BTreeMap<u32, Vec<Listed>> = BTreeMap::new();
    for case in tried {
        let most = LOOKED_AT * if case.answer.number == 0 { cases } else { each };
        let of = by.entry(case.answer.number).or_default();
        if of.len() < most {
            of.push(case);
        }
    }
    let answered = by.remove(&0).unwrap_or_default();
    let mut kept: Vec<Listed> = Vec::new();
    for (_, mut of) in by {
        of.sort_by_key(|c| c.words.len());
        of.truncate(2 * each);
        kept.extend(in_turn(of, each));
    }
    let left = cases.saturating_sub(kept.len());
    kept.extend(in_turn(answered, left));
    kept
}

/// The first of every degree and place, then the second, and so on.
fn in_turn(of: Vec<Listed>, most: usize) -> Vec<Listed> {
    let mut met: BTreeMap<(u64, u32), usize> = BTreeMap::new();
    let mut ranked: Vec<(usize, Listed)> = of
        .into_iter()
        .map(|c| {
            let rank = met.entry((c.words[0], c.answer.place)).or_default();
            *rank += 1;
            (*rank, c)
        })
        .collect();
    ranked.sort_by_key(|c| c.0);
    ranked.into_iter().take(most).map(|c| c.1).collect()
}

/// A heading of sixteen bytes and the number of cases, then a case a line; and the line that is to be printed.
pub fn write(stdin: &mut dyn Write, stdout: &mut dyn Write, name: &str, cases: &[Listed]) -> Result<()> {
    assert!(name.len() <= 16, "{name} is longer than a heading");
    writeln!(stdin, "{name:<16}{:016x}", cases.len())?;
    for c in cases {
        let line: Vec<String> = c.words.iter().map(|w| format!("{w:016x}")).collect();
        writeln!(stdin, "{}", line.join(" "))?;
    }
    writeln!(stdout, "{name:<16}{} cases, 0 differ", cases.len())
}
