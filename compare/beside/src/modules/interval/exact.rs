//! Exact containment: fractions inside the operands, and their exact result inside the interval that we answer.
use super::calls::{CALLS, Ours};
use super::operands::X;
use crate::fraction::{Fraction, between};
use crate::modules::Desk;
use crate::rng::Rng;
use crate::tables::hex;

/// Two fractions per case, so that ends and inner numbers meet.
const TRIES: u32 = 2;

/// The exact results of a call at random fractions inside its operands; none where there is nothing to ask.
fn result(r: &mut Rng, name: &str, x: &X) -> Option<Fraction> {
    let a = between(r, x[0], x[1]);
    match name {
        "point" => x[0].is_finite().then(|| Fraction::of(x[0])),
        "width" => (x[0].is_finite() && x[1].is_finite()).then(|| Fraction::of(x[1]).sub(&Fraction::of(x[0]))),
        "new" => a,
        "neg" => Some(a?.neg()),
        "sqr" => a.map(|a| a.mul(&a)),
        "hull" => [a, between(r, x[2], x[3])][r.below(2) as usize].clone(),
        "add" => Some(a?.add(&between(r, x[2], x[3])?)),
        "sub" => Some(a?.sub(&between(r, x[2], x[3])?)),
        "mul" => Some(a?.mul(&between(r, x[2], x[3])?)),
        "divide" => Some(a?.div(&between(r, x[2], x[3])?)),
        _ => None,
    }
}

/// The text of a case whose exact result lies outside.
pub fn check(desk: &mut Desk, at: usize, x: &X) -> Option<String> {
    let call = &CALLS[at];
    let Ours::Run(count, ours) = call.ours else { return None };
    let mut out = [0.0; 2];
    if ours(x, &mut out[..count]) != 0 {
        return None;
    }
    let (lo, hi) = if count == 1 { (f64::NEG_INFINITY, out[0]) } else { (out[0], out[1]) };
    for _ in 0..TRIES {
        let Some(exact) = result(&mut desk.r, call.name, x) else { continue };
        desk.tally.rows[at].exact += 1;
        if !exact.is_inside(lo, hi) {
            desk.tally.rows[at].outside += 1;
            let words = hex(x[..call.operands.doubles()].iter().map(|d| d.to_bits()));
            return Some(format!(
                "{}: an exact result lies outside\n  as words:     {words}\n  answered:      {lo:?} {hi:?}\n  exact:         {exact:?}",
                call.name
            ));
        }
    }
    None
}
