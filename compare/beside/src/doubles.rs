//! Doubles that reach what ordinary random numbers never do, and the kinds by which they are counted.
use crate::rng::Rng;

pub const KINDS: [&str; 9] = ["NaN", "+inf", "-inf", "+0", "-0", "subnormal", "tiny", "ordinary", "huge"];

const TINY: f64 = f64::from_bits(0x0360_0000_0000_0000);
const HUGE: f64 = f64::from_bits(0x7c90_0000_0000_0000);

/// The place in KINDS. Tiny is below about 2^-969, huge at or above about 2^970.
pub fn kind(x: f64) -> usize {
    let size = x.abs();
    if x.is_nan() {
        0
    } else if x.is_infinite() {
        if x > 0.0 { 1 } else { 2 }
    } else if x == 0.0 {
        if x.is_sign_positive() { 3 } else { 4 }
    } else if size < f64::MIN_POSITIVE {
        5
    } else if size < TINY {
        6
    } else if size < HUGE {
        7
    } else {
        8
    }
}

const EDGES: [f64; 24] = [
    0.0,
    f64::INFINITY,
    f64::NAN,
    f64::MAX,
    f64::MIN_POSITIVE,
    f64::from_bits(1),
    f64::from_bits(2),
    f64::from_bits(3),
    f64::from_bits(0x000f_ffff_ffff_ffff),
    f64::from_bits(0x0010_0000_0000_0001),
    f64::from_bits(0x7fef_ffff_ffff_fffe),
    f64::from_bits(0x7fdf_ffff_ffff_ffff),
    f64::from_bits(0x7fe0_0000_0000_0000),
    f64::from_bits(0x1e50_0000_0000_0000),
    f64::from_bits(0x1e60_0000_0000_0000),
    f64::from_bits(0x5fe0_0000_0000_0000),
    f64::from_bits(0x5ff0_0000_0000_0000),
    f64::from_bits(0x3fef_ffff_ffff_ffff),
    1.0,
    f64::from_bits(0x3ff0_0000_0000_0001),
    0.1,
    1e300,
    1e-300,
    9_007_199_254_740_992.0,
];

/// A NaN that does not signal: Rust's min and max of a signalling one depend on the processor.
fn quiet(x: f64) -> f64 {
    if x.is_nan() { f64::from_bits(x.to_bits() | 0x0008_0000_0000_0000) } else { x }
}

fn signed(r: &mut Rng, x: f64) -> f64 {
    if r.next() & 1 == 0 { x } else { -x }
}

fn power(e: u64) -> f64 {
    f64::from_bits(e.clamp(1, 2046) << 52)
}

pub fn double(r: &mut Rng) -> f64 {
    let x = match r.below(16) {
        0 | 1 => r.pick(&EDGES),
        2 => f64::from_bits(r.below(64)),
        3 => f64::from_bits(r.next() >> 12),
        4 => quiet(f64::from_bits(r.next())),
        5 => r.below(9) as f64,
        6 => r.below(2001) as f64 / 64.0,
        7 => 1.0 + r.below(5) as f64 * f64::EPSILON,
        8 => r.unit(),
        9 => f64::from_bits(power(r.below(2046)).to_bits() - 1 + r.below(3)),
        10 => power(2000 + r.below(47)) * (1.0 + r.unit()),
        11 => power(1 + r.below(52)) * (1.0 + r.unit()),
        12 => power(470 + r.below(90)) * (1.0 + r.unit()),
        13 => power(1490 + r.below(90)) * (1.0 + r.unit()),
        _ => r.unit() * power(1003 + r.below(40)),
    };
    signed(r, x)
}

/// A double that stands in some relation to x: equal, opposite, next, a reciprocal, or with a product at an edge.
pub fn partner(r: &mut Rng, x: f64) -> f64 {
    match r.below(16) {
        0 => x,
        1 => -x,
        2 => x.next_up(),
        3 => x.next_down(),
        4 => 1.0 / x,
        5 => f64::MAX / x,
        6 => f64::MIN_POSITIVE / x,
        7 => x * 2.0,
        8 => x + r.unit() * x,
        9 => (-x).next_up(),
        _ => double(r),
    }
}
