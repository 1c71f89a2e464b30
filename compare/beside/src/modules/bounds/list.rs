//! The part of the replayed list on bounds.
use super::calls::{CurveCase, SurfaceCase};
use super::{CARE, SURFACE_CARE};
use crate::modules::listed::{self, Choice, Listed, word};
use crate::rng::Rng;
use std::io::{Result, Write};

fn curve(r: &mut Rng) -> Option<Listed> {
    let c = CurveCase::made(r, &CARE);
    let mut words = listed::curve(&c.table)?;
    words.extend([word(c.range.0), word(c.range.1)]);
    Some(Listed::answered(words, c.rust(), 0))
}

fn surface(r: &mut Rng) -> Option<Listed> {
    let c = SurfaceCase::made(r, &SURFACE_CARE);
    let mut words = listed::surface(&c.table)?;
    words.extend([c.u.0, c.u.1, c.v.0, c.v.1].map(word));
    Some(Listed::answered(words, c.rust(), 0))
}

pub fn write(stdin: &mut dyn Write, stdout: &mut dyn Write) -> Result<()> {
    let curves = Choice { stream: 0, tried: 60_000, cases: 300, each: 10 };
    listed::write(stdin, stdout, "bound_curve", &curves.of(curve))?;
    let surfaces = Choice { stream: 1, tried: 60_000, cases: 300, each: 6 };
    listed::write(stdin, stdout, "bound_surface", &surfaces.of(surface))
}
