//! The calls: what the Rust answers, and the exported functions.
use super::{CARE, SURFACE_CARE};
use crate::face::*;
use crate::modules::answered::{Wanted, coordinates, point, words};
use crate::rng::Rng;
use crate::steps::eval_at;
use crate::tables::at;
use crate::tables::domain::{Domain, Mode};
use crate::tables::{Curve, Surface, make};
use oracle::{Vec3, refusal};

#[derive(Clone, Copy, PartialEq, Eq)]
pub enum Order {
    One,
    /// One derivative, of a table that was validated before.
    Validated,
    Two,
}

pub struct CurveCase {
    pub table: Curve,
    pub t: f64,
}

pub struct SurfaceCase {
    pub table: Surface,
    pub u: f64,
    pub v: f64,
}

fn vector(v: Vec3) -> [u64; 3] {
    [v.x, v.y, v.z].map(f64::to_bits)
}

fn run(parts: &[[u64; 3]]) -> Wanted {
    Wanted::Runs(vec![parts.concat()])
}

impl CurveCase {
    pub fn made(r: &mut Rng) -> Self {
        let table = make::curve(r, &CARE);
        Self { t: at::of_domain(r, table.degree, table.count(), &table.knots), table }
    }

    /// Validity, 31, the parameter's own, and for two derivatives 21.
    pub fn rust_point(&self, order: Order, mode: Mode) -> Wanted {
        let c = match self.table.rust() {
            Err(r) => return Wanted::Refused(r),
            Ok(_) if self.table.is_steep() => return Wanted::unplaced(31),
            Ok(c) => c,
        };
        if let Some(number) = mode.refusal(self.table.domain(), self.t) {
            return Wanted::unplaced(number);
        }
        if order != Order::Two {
            let d = c.eval(self.t);
            return run(&[point(d.point), vector(d.d1)]);
        }
        match c.eval2(self.t) {
            Ok(d) => run(&[point(d.point), vector(d.d1), vector(d.d2)]),
            Err(e) => Wanted::unplaced(refusal(&e).number),
        }
    }

    /// Of the step after validation one mode is exported.
    pub fn ours_point(&self, order: Order, mode: Mode, out: &mut [f64]) -> u64 {
        match (order, mode) {
            (Order::One, Mode::Refusing) => tasulogi_eval(&self.table, self.t, out),
            (Order::One, Mode::Clamping) => tasulogi_eval_clamped(&self.table, self.t, out),
            (Order::Validated, _) => eval_at(&self.table, self.t, out),
            (Order::Two, Mode::Refusing) => tasulogi_eval2(&self.table, self.t, out),
            (Order::Two, Mode::Clamping) => tasulogi_eval2_clamped(&self.table, self.t, out),
        }
    }

    pub fn rust_reversed(&self) -> Wanted {
        match self.table.rust() {
            Err(r) => Wanted::Refused(r),
            Ok(c) => match c.reversed() {
                Ok(b) => Wanted::Runs(vec![words(b.knots()), coordinates(&b), words(b.weights().unwrap_or(&[]))]),
                Err(e) => Wanted::Formed(self.table.backwards().refused(refusal(&e))),
            },
        }
    }

    pub fn ours_reversed(&self, out: &mut [&mut [f64]]) -> u64 {
        let [knots, points, weights] = out else { unreachable!("three runs are lent") };
        tasulogi_reversed(&self.table, knots, points, weights)
    }
}

impl SurfaceCase {
    pub fn made(r: &mut Rng) -> Self {
        let table = make::surface(r, &SURFACE_CARE);
        let [u, v] = [0, 1].map(|k| at::of_domain(r, table.degrees[k], table.counts[k], &table.knots[k]));
        Self { u, v, table }
    }

    /// The parameter that an isocurve keeps.
    pub fn constant(&self, constant_u: bool) -> f64 {
        if constant_u { self.u } else { self.v }
    }

    /// u and v, each with its domain; of a valid table.
    pub fn parameters(&self) -> [(Domain, f64); 2] {
        let [along_u, along_v] = self.table.domains();
        [(along_u, self.u), (along_v, self.v)]
    }

    /// Validity, 31, all of u's own, then v's.
    pub fn rust_point(&self, mode: Mode) -> Wanted {
        match self.table.rust() {
            Err(r) => Wanted::Refused(r),
            Ok(_) if self.table.is_steep() => Wanted::unplaced(31),
            Ok(s) => match self.parameters().into_iter().find_map(|(domain, t)| mode.refusal(domain, t)) {
                Some(number) => Wanted::unplaced(number),
                None => {
                    let d = s.eval(self.u, self.v);
                    run(&[point(d.point), vector(d.du), vector(d.dv)])
                }
            },
        }
    }

    pub fn ours_point(&self, mode: Mode, out: &mut [f64]) -> u64 {
        match mode {
            Mode::Refusing => tasulogi_eval_surface(&self.table, self.u, self.v, out),
            Mode::Clamping => tasulogi_eval_surface_clamped(&self.table, self.u, self.v, out),
        }
    }

    /// Validity, 31, 22, 30, 23, then what is formed.
    pub fn rust_iso(&self, constant_u: bool) -> Wanted {
        match self.table.rust() {
            Err(r) => Wanted::Refused(r),
            Ok(_) if self.table.is_steep() => Wanted::unplaced(31),
            Ok(s) => match s.iso_curve(constant_u, self.constant(constant_u)) {
                Ok(c) => Wanted::Runs(vec![coordinates(&c), words(c.weights().unwrap_or(&[]))]),
                Err(e) => match refusal(&e) {
                    r if r.number == 22 => Wanted::unplaced(22),
                    r => Wanted::Formed(Curve::formed(r, || {
                        let _ = self.table.noting().iso_curve(constant_u, self.constant(constant_u));
                    })),
                },
            },
        }
    }

    pub fn ours_iso(&self, constant_u: bool, out: &mut [&mut [f64]]) -> u64 {
        let [points, weights] = out else { unreachable!("two runs are lent") };
        tasulogi_iso_curve(&self.table, constant_u, self.constant(constant_u), points, weights)
    }
}
