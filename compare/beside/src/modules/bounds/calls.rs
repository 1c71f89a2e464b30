//! The calls: what the Rust answers, and the exported functions.
use crate::face::*;
use crate::modules::answered::Wanted;
use crate::rng::Rng;
use crate::tables::at;
use crate::tables::make::{self, Care};
use crate::tables::{Curve, Surface, double_literal};
use oracle::{NurbsBounds, ParamRange, bound_curve, bound_surface, refusal};

/// How many numbers a box has, and the point of one.
pub const BOX: usize = 18;
pub const POINT: usize = 6;

pub struct CurveCase {
    pub table: Curve,
    pub range: (f64, f64),
}

pub struct SurfaceCase {
    pub table: Surface,
    pub u: (f64, f64),
    pub v: (f64, f64),
}

/// Point, du, dv, each x, y, z, each low before high.
fn boxed(b: NurbsBounds) -> Wanted {
    let ends = b.point.iter().chain(&b.du).chain(&b.dv).flat_map(|i| [i.lo(), i.hi()]);
    Wanted::Runs(vec![ends.map(f64::to_bits).collect()])
}

/// The point's part of what is wanted of a box.
pub fn point_of(want: &Wanted) -> Wanted {
    match want {
        Wanted::Runs(runs) => Wanted::Runs(vec![runs[0][..POINT].to_vec()]),
        Wanted::Refused(r) | Wanted::Formed(r) => Wanted::Refused(*r),
    }
}

pub fn bounded(range: (f64, f64)) -> ParamRange {
    ParamRange::bounded(range.0, range.1)
}

fn range_literal(range: (f64, f64)) -> String {
    format!("ParamRange::bounded({}, {})", double_literal(range.0), double_literal(range.1))
}

impl CurveCase {
    pub fn made(r: &mut Rng, care: &Care) -> Self {
        let table = make::curve(r, care);
        let range = at::range(r, table.degree, table.count(), &table.knots);
        Self { table, range }
    }

    pub fn rust(&self) -> Wanted {
        match self.table.rust() {
            Err(r) => Wanted::Refused(r),
            Ok(_) if self.table.is_steep() => Wanted::unplaced(31),
            Ok(c) => bound_curve(&c, bounded(self.range)).map_or_else(|e| Wanted::unplaced(refusal(&e).number), boxed),
        }
    }

    pub fn ours(&self, out: &mut [f64]) -> u64 {
        tasulogi_bound_curve(&self.table, self.range.0, self.range.1, out)
    }

    pub fn ours_point(&self, out: &mut [f64]) -> u64 {
        tasulogi_bound_point(&self.table, self.range.0, self.range.1, out)
    }

    pub fn literal(&self) -> String {
        format!("bound_curve(&{}.unwrap(), {})", self.table.literal(), range_literal(self.range))
    }
}

impl SurfaceCase {
    pub fn made(r: &mut Rng, care: &Care) -> Self {
        let table = make::surface(r, care);
        let u = at::range(r, table.degrees[0], table.counts[0], &table.knots[0]);
        let v = at::range(r, table.degrees[1], table.counts[1], &table.knots[1]);
        Self { table, u, v }
    }

    pub fn rust(&self) -> Wanted {
        match self.table.rust() {
            Err(r) => Wanted::Refused(r),
            Ok(_) if self.table.is_steep() => Wanted::unplaced(31),
            Ok(s) => {
                bound_surface(&s, bounded(self.u), bounded(self.v)).map_or_else(|e| Wanted::unplaced(refusal(&e).number), boxed)
            }
        }
    }

    pub fn ours(&self, out: &mut [f64]) -> u64 {
        tasulogi_bound_surface(&self.table, self.u.0, self.u.1, self.v.0, self.v.1, out)
    }

    pub fn literal(&self) -> String {
        format!("bound_surface(&{}.unwrap(), {}, {})", self.table.literal(), range_literal(self.u), range_literal(self.v))
    }
}
