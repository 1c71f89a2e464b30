//! The part of the replayed list on intervals: cases of each answer, and of each mix of operands.
use super::calls::{CALLS, IntervalCall, Ours};
use super::operands::{X, operands};
use crate::doubles::kind;
use crate::modules::listed::{self, Listed};
use crate::rng::Rng;
use crate::tables::Refused;
use std::collections::HashMap;
use std::io::{Result, Write};

const SEED: u64 = 1;
const CASES: usize = 300;
/// How many cases are looked at for each call.
const TRIED: u64 = 400_000;
/// How many cases each answer gets before the rest is filled by the kinds of operands.
const OF_EACH_ANSWER: u32 = 12;

/// Place and steps are left out: the Rust has no such functions.
fn is_listed(call: &IntervalCall) -> bool {
    !matches!(call.ours, Ours::Word(_))
}

/// +0.0 where the Rust leaves a zero's sign open, so that every machine writes one list.
fn word(bits: u64, open_zero: bool) -> u64 {
    let x = f64::from_bits(bits);
    if open_zero && x == 0.0 { 0 } else { listed::word(x) }
}

/// The number and the kinds of the answer's doubles.
fn outcome(call: &IntervalCall, x: &X) -> Vec<usize> {
    let answer = (call.rust)(x);
    let mut key = vec![answer.number as usize];
    if answer.number == 0 && !matches!(call.ours, Ours::Number(_)) {
        key.extend(answer.words.map(|w| kind(f64::from_bits(word(w, call.open_zero)))));
    }
    key
}

/// Cases for each answer first, then one for each new mix of kinds among the operands, then any.
fn chosen(call: &IntervalCall, r: &mut Rng) -> Vec<X> {
    if call.operands.doubles() == 0 {
        return vec![[0.0; 4]];
    }
    let tried: Vec<X> = (0..TRIED).map(|_| operands(r, call.operands)).collect();
    let mut taken = vec![false; tried.len()];
    let mut cases = Vec::new();
    let mut answers: HashMap<Vec<usize>, u32> = HashMap::new();
    let mut mixes: HashMap<Vec<usize>, u32> = HashMap::new();
    for pass in 0..3 {
        for (i, x) in tried.iter().enumerate() {
            if taken[i] || cases.len() == CASES {
                continue;
            }
            let answer = outcome(call, x);
            let mut mix: Vec<usize> = x[..call.operands.doubles()].iter().map(|&d| kind(d)).collect();
            mix.extend(&answer);
            let (a, m) = (answers.entry(answer).or_default(), mixes.entry(mix).or_default());
            let most = if pass == 0 { OF_EACH_ANSWER } else { u32::MAX };
            if *a < most && (pass == 2 || *m == 0) {
                *a += 1;
                *m += 1;
                taken[i] = true;
                cases.push(*x);
            }
        }
    }
    cases
}

fn in_words(call: &IntervalCall, x: &X) -> Listed {
    let answer = (call.rust)(x);
    let mut words: Vec<u64> = x[..call.operands.doubles()].iter().map(|d| listed::word(*d)).collect();
    let count = match call.ours {
        Ours::Number(_) => 0,
        Ours::Double(_) | Ours::Word(_) => 1,
        Ours::Run(count, _) => count,
    };
    if matches!(call.ours, Ours::Number(_) | Ours::Run(..)) {
        words.push(answer.number as u64);
    }
    words.extend(answer.words[..count].iter().map(|&w| word(w, call.open_zero)));
    Listed { words, answer: Refused::unplaced(answer.number) }
}

pub fn write(stdin: &mut dyn Write, stdout: &mut dyn Write) -> Result<()> {
    for (at, call) in CALLS.iter().enumerate().filter(|c| is_listed(c.1)) {
        let cases = chosen(call, &mut Rng::new(SEED, at as u64));
        let cases: Vec<Listed> = cases.iter().map(|x| in_words(call, x)).collect();
        listed::write(stdin, stdout, call.name, &cases)?;
    }
    Ok(())
}
