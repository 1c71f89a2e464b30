//! The calls of the module: what the Rust answers, and which exported function is ours.
use super::operands::{Operands, X};
use crate::face::*;
use oracle::{Interval, Sign, divide, refusal};

/// What the Rust answers: a number, 0 where it is an answer with its words, or the number of a case.
pub struct Answer {
    pub number: u32,
    pub words: [u64; 2],
}

pub enum Ours {
    /// The returned number is the answer.
    Number(fn(&X) -> u32),
    Word(fn(&X) -> u64),
    Double(fn(&X) -> f64),
    /// So many doubles go to the front of a lent run.
    Run(usize, fn(&X, &mut [f64]) -> u32),
}

pub struct IntervalCall {
    pub name: &'static str,
    pub operands: Operands,
    pub numbers: &'static [u32],
    pub idle: &'static [u32],
    /// The sign of a zero is open: Rust's min and max do not fix it.
    pub open_zero: bool,
    /// The call in the Rust, with {0} to {3} for the operands.
    pub literal: &'static str,
    pub rust: fn(&X) -> Answer,
    pub ours: Ours,
}

/// What stands for 'no interval', which has no refusal number.
pub const NO_INTERVAL: u32 = 99;

fn case(number: u32) -> Answer {
    Answer { number, words: [0; 2] }
}

fn word(w: u64) -> Answer {
    Answer { number: 0, words: [w, 0] }
}

fn value(x: f64) -> Answer {
    word(x.to_bits())
}

fn ends(i: Interval) -> Answer {
    Answer { number: 0, words: [i.lo().to_bits(), i.hi().to_bits()] }
}

fn one(x: &X, f: fn(Interval) -> Answer) -> Answer {
    Interval::new(x[0], x[1]).map_or(case(NO_INTERVAL), f)
}

fn two(x: &X, f: fn(Interval, Interval) -> Answer) -> Answer {
    match (Interval::new(x[0], x[1]), Interval::new(x[2], x[3])) {
        (Some(a), Some(b)) => f(a, b),
        _ => case(NO_INTERVAL),
    }
}

fn sign_case(s: Option<Sign>) -> Answer {
    case(match s {
        Some(Sign::Positive) => 1,
        Some(Sign::Negative) => 2,
        Some(Sign::Zero) => 3,
        None => 0,
    })
}

/// The place by sign and size: the Rust has no such function, so this is the comparison's own.
fn place(x: f64) -> i128 {
    let size = (x.to_bits() & (u64::MAX >> 1)) as i128;
    if x.is_nan() {
        0
    } else if x.is_sign_negative() {
        -size
    } else {
        size
    }
}

const fn call(
    name: &'static str,
    operands: Operands,
    numbers: &'static [u32],
    literal: &'static str,
    rust: fn(&X) -> Answer,
    ours: Ours,
) -> IntervalCall {
    IntervalCall { name, operands, numbers, idle: &[], open_zero: false, literal, rust, ours }
}

const fn open_zero(c: IntervalCall) -> IntervalCall {
    IntervalCall { open_zero: true, ..c }
}

const fn idle(c: IntervalCall, idle: &'static [u32]) -> IntervalCall {
    IntervalCall { idle, ..c }
}

const TEST: &[u32] = &[0, 1];
const VALUE: &[u32] = &[0];
const TOTAL: &[u32] = &[0, 30];
const MADE: &[u32] = &[0, 30, 99];

/// The replayed list has the calls in this order, but for the last two.
pub const CALLS: [IntervalCall; 21] = [
    call(
        "is_nan",
        Operands::Double,
        TEST,
        "{0}.is_nan()",
        |x| case(x[0].is_nan() as u32),
        Ours::Number(|x| tasulogi_is_nan(x[0]) as u32),
    ),
    call(
        "is_finite",
        Operands::Double,
        TEST,
        "{0}.is_finite()",
        |x| case(x[0].is_finite() as u32),
        Ours::Number(|x| tasulogi_is_finite(x[0]) as u32),
    ),
    call(
        "next_up",
        Operands::Double,
        VALUE,
        "{0}.next_up()",
        |x| value(x[0].next_up()),
        Ours::Double(|x| tasulogi_next_up(x[0])),
    ),
    call(
        "next_down",
        Operands::Double,
        VALUE,
        "{0}.next_down()",
        |x| value(x[0].next_down()),
        Ours::Double(|x| tasulogi_next_down(x[0])),
    ),
    open_zero(call(
        "min",
        Operands::Doubles,
        VALUE,
        "{0}.min({1})",
        |x| value(x[0].min(x[1])),
        Ours::Double(|x| tasulogi_min(x[0], x[1])),
    )),
    open_zero(call(
        "max",
        Operands::Doubles,
        VALUE,
        "{0}.max({1})",
        |x| value(x[0].max(x[1])),
        Ours::Double(|x| tasulogi_max(x[0], x[1])),
    )),
    call(
        "entire",
        Operands::None,
        TOTAL,
        "Interval::ENTIRE",
        |_| ends(Interval::ENTIRE),
        Ours::Run(2, |_, out| tasulogi_interval_entire(out)),
    ),
    call(
        "new",
        Operands::Interval,
        MADE,
        "Interval::new({0}, {1})",
        |x| one(x, ends),
        Ours::Run(2, |x, out| tasulogi_interval_new(x[0], x[1], out)),
    ),
    call(
        "point",
        Operands::Double,
        TOTAL,
        "Interval::point({0})",
        |x| ends(Interval::point(x[0])),
        Ours::Run(2, |x, out| tasulogi_interval_point(x[0], out)),
    ),
    call(
        "width",
        Operands::Interval,
        MADE,
        "Interval::new({0}, {1}).unwrap().width()",
        |x| one(x, |a| value(a.width())),
        Ours::Run(1, |x, out| tasulogi_interval_width(x[0], x[1], out)),
    ),
    call(
        "contains",
        Operands::IntervalDouble,
        &[0, 1, 99],
        "Interval::new({0}, {1}).unwrap().contains({2})",
        |x| Interval::new(x[0], x[1]).map_or(case(NO_INTERVAL), |a| case(a.contains(x[2]) as u32)),
        Ours::Number(|x| tasulogi_interval_contains(x[0], x[1], x[2])),
    ),
    call(
        "sign",
        Operands::Interval,
        &[0, 1, 2, 3, 99],
        "Interval::new({0}, {1}).unwrap().sign()",
        |x| one(x, |a| sign_case(a.sign())),
        Ours::Number(|x| tasulogi_interval_sign(x[0], x[1])),
    ),
    call(
        "sqr",
        Operands::Interval,
        MADE,
        "Interval::new({0}, {1}).unwrap().sqr()",
        |x| one(x, |a| ends(a.sqr())),
        Ours::Run(2, |x, out| tasulogi_interval_sqr(x[0], x[1], out)),
    ),
    call(
        "neg",
        Operands::Interval,
        MADE,
        "-Interval::new({0}, {1}).unwrap()",
        |x| one(x, |a| ends(-a)),
        Ours::Run(2, |x, out| tasulogi_interval_neg(x[0], x[1], out)),
    ),
    open_zero(call(
        "hull",
        Operands::Intervals,
        MADE,
        "Interval::new({0}, {1}).unwrap().hull(Interval::new({2}, {3}).unwrap())",
        |x| two(x, |a, b| ends(a.hull(b))),
        Ours::Run(2, |x, out| tasulogi_interval_hull(x[0], x[1], x[2], x[3], out)),
    )),
    call(
        "add",
        Operands::Intervals,
        MADE,
        "Interval::new({0}, {1}).unwrap() + Interval::new({2}, {3}).unwrap()",
        |x| two(x, |a, b| ends(a + b)),
        Ours::Run(2, |x, out| tasulogi_interval_add(x[0], x[1], x[2], x[3], out)),
    ),
    call(
        "sub",
        Operands::Intervals,
        MADE,
        "Interval::new({0}, {1}).unwrap() - Interval::new({2}, {3}).unwrap()",
        |x| two(x, |a, b| ends(a - b)),
        Ours::Run(2, |x, out| tasulogi_interval_sub(x[0], x[1], x[2], x[3], out)),
    ),
    call(
        "mul",
        Operands::Intervals,
        MADE,
        "Interval::new({0}, {1}).unwrap() * Interval::new({2}, {3}).unwrap()",
        |x| two(x, |a, b| ends(a * b)),
        Ours::Run(2, |x, out| tasulogi_interval_mul(x[0], x[1], x[2], x[3], out)),
    ),
    idle(
        call(
            "divide",
            Operands::Intervals,
            &[0, 26, 30, 99],
            "divide(Interval::new({0}, {1}).unwrap(), Interval::new({2}, {3}).unwrap())",
            |x| two(x, |a, b| divide(a, b).map_or_else(|e| case(refusal(&e).number), ends)),
            Ours::Run(2, |x, out| tasulogi_interval_divide(x[0], x[1], x[2], x[3], out)),
        ),
        &[28],
    ),
    call(
        "place",
        Operands::Double,
        VALUE,
        "place({0})",
        |x| word(place(x[0]) as u64),
        Ours::Word(|x| tasulogi_place(x[0]) as u64),
    ),
    call(
        "steps",
        Operands::Interval,
        VALUE,
        "steps({0}, {1})",
        |x| word(if x[0] <= x[1] { (place(x[1]) - place(x[0])) as u64 } else { 0 }),
        Ours::Word(|x| tasulogi_steps(x[0], x[1])),
    ),
];
