//! Module 1: doubles and intervals.
mod bench;
mod calls;
mod exact;
mod list;
mod operands;

use super::{Desk, Module};
use crate::lent::{Match, matched};
use crate::tables::hex;
use crate::tally::{Call, Place};
use calls::{Answer, CALLS, IntervalCall, Ours};
use operands::{X, operands};

/// One case in so many is also held against exact fractions.
const EXACT_EVERY: u64 = 50;

pub const MODULE: Module = Module {
    name: "interval",
    calls: || CALLS.map(|c| Call { name: c.name, numbers: c.numbers, idle: c.idle }).into(),
    features: &[],
    exact: &[],
    default_cases: 10_000_000,
    case,
    list: Some(list::write),
    bench: bench::table,
};

fn case(place: Place, desk: &mut Desk) -> Option<String> {
    let at = desk.r.below(CALLS.len() as u64) as usize;
    let x = operands(&mut desk.r, CALLS[at].operands);
    desk.tally.count(&x[..CALLS[at].operands.doubles()]);
    let text = one(desk, at, &x);
    if text.is_none() && place.case.is_multiple_of(EXACT_EVERY) { exact::check(desk, at, &x) } else { text }
}

/// The Rust's answer, ours, and the text of the case if they differ.
fn one(desk: &mut Desk, at: usize, x: &X) -> Option<String> {
    let call = &CALLS[at];
    let want = (call.rust)(x);
    let Desk { r, lent: [lent, ..], tally } = desk;
    let mut room = 0;
    let (number, found, got) = match call.ours {
        Ours::Number(f) => {
            let got = f(x);
            (want.number, Match::from(got == want.number), got as u64)
        }
        Ours::Word(f) => {
            let got = f(x);
            (0, Match::from(got == want.words[0]), got)
        }
        Ours::Double(f) => {
            let got = f(x).to_bits();
            (0, matched(want.words[0], got, call.open_zero), got)
        }
        Ours::Run(count, f) => {
            room = if r.below(4) == 0 { r.below(7) as usize } else { count };
            let got = f(x, lent.lend(r, room));
            let number = if want.number == 0 && room < count { 30 } else { want.number };
            let found = if got == number { lent.holds(front(number, count, &want), call.open_zero) } else { Match::Differs };
            (number, found, got as u64)
        }
    };
    tally.rows[at].zero_signs += (found == Match::ZeroSign) as u64;
    tally.judged(at, number, found != Match::Differs, || {
        let answers = match call.ours {
            Ours::Number(_) => format!("  the Rust:      {number}\n  ours:          {got}"),
            Ours::Word(_) | Ours::Double(_) => {
                format!("  the Rust:     {}\n  ours:         {}", hex([want.words[0]]), hex([got]))
            }
            Ours::Run(count, _) => format!(
                "  lent:          {room} numbers\n  the Rust:      {number}{}, then +0.0\n  ours:          {got}{}",
                hex(front(number, count, &want).iter().copied()),
                hex(lent.words())
            ),
        };
        format!("{}\n{answers}", told(call, x))
    })
}

/// What a lent run starts with: after a refusal nothing.
fn front(number: u32, count: usize, want: &Answer) -> &[u64] {
    if number == 0 { &want.words[..count] } else { &[] }
}

/// A call and its operands, as a Rust literal and as hexadecimal words.
fn told(call: &IntervalCall, x: &X) -> String {
    let x = &x[..call.operands.doubles()];
    let mut literal = call.literal.to_string();
    for (i, d) in x.iter().enumerate() {
        literal = literal.replace(&format!("{{{i}}}"), &format!("f64::from_bits(0x{:016x})", d.to_bits()));
    }
    let values: String = x.iter().map(|d| format!(" {d:?}")).collect();
    let words = hex(x.iter().map(|d| d.to_bits()));
    format!("{}\n  Rust literal:  {literal}\n  operands:     {values}\n  as words:     {words}", call.name)
}
