//! The published splines once more, over points that are noted as they are made: `BCurve::new` hands out nothing of a
//! curve that it refuses. What is compared and timed is the crate gensolid-geom, which notes nothing.
#![allow(dead_code)]
extern crate self as gensolid_math;

use std::cell::RefCell;
use std::ops::{Add, Sub};

pub use gensolid_geom::param;
pub use math::Vec3;
pub use nurbs::{BCurve, BSurface};

#[rustfmt::skip]
#[path = "../../../../docs/src/crates/gensolid-geom/src/nurbs.rs"]
pub mod nurbs;
#[rustfmt::skip]
#[path = "../../../../docs/src/crates/gensolid-geom/src/nurbs_curve_ops.rs"]
pub mod nurbs_curve_ops;

/// Of curve.rs and surface.rs, what evaluation answers.
pub mod curve {
    pub struct CurveDerivs {
        pub point: crate::Point3,
        pub d1: crate::Vec3,
    }
}
pub mod surface {
    pub struct SurfaceDerivs {
        pub point: crate::Point3,
        pub du: crate::Vec3,
        pub dv: crate::Vec3,
    }
}

/// The points made since one was last asked whether it is finite, as those of a formed curve are.
#[derive(Default)]
struct Notes {
    made: Vec<Point3>,
    asked: bool,
}

thread_local! {
    static NOTES: RefCell<Notes> = RefCell::default();
}

/// The coordinates of the curve that this thread formed last.
pub fn formed() -> Vec<f64> {
    NOTES.with_borrow(|n| n.made.iter().flat_map(|p| [p.x, p.y, p.z]).collect())
}

#[derive(Clone, Copy, Debug, PartialEq)]
pub struct Point3 {
    pub x: f64,
    pub y: f64,
    pub z: f64,
}

impl Point3 {
    pub fn new(x: f64, y: f64, z: f64) -> Self {
        let p = Self { x, y, z };
        NOTES.with_borrow_mut(|n| {
            if std::mem::take(&mut n.asked) {
                n.made.clear();
            }
            n.made.push(p);
        });
        p
    }
    pub fn is_finite(self) -> bool {
        NOTES.with_borrow_mut(|n| n.asked = true);
        self.x.is_finite() && self.y.is_finite() && self.z.is_finite()
    }
    pub fn distance(self, o: Self) -> f64 {
        (self - o).length()
    }
}

impl Sub for Point3 {
    type Output = Vec3;
    fn sub(self, o: Self) -> Vec3 {
        Vec3::new(self.x - o.x, self.y - o.y, self.z - o.z)
    }
}

impl Add<Vec3> for Point3 {
    type Output = Point3;
    fn add(self, o: Vec3) -> Point3 {
        Point3::new(self.x + o.x, self.y + o.y, self.z + o.z)
    }
}
