//! Stand-in for gensolid-geom's lib.rs around the published files, which are compiled where they lie. The formatter is
//! told to skip them, since it would follow the paths and rewrite them.
#![allow(dead_code)]

#[rustfmt::skip]
#[path = "../../../../docs/src/crates/gensolid-geom/src/curve.rs"]
pub mod curve;
#[rustfmt::skip]
#[path = "../../../../docs/src/crates/gensolid-geom/src/loft.rs"]
pub mod loft;
#[rustfmt::skip]
#[path = "../../../../docs/src/crates/gensolid-geom/src/nurbs.rs"]
pub mod nurbs;
#[rustfmt::skip]
#[path = "../../../../docs/src/crates/gensolid-geom/src/nurbs_bounds.rs"]
pub mod nurbs_bounds;
#[rustfmt::skip]
#[path = "../../../../docs/src/crates/gensolid-geom/src/nurbs_curve_ops.rs"]
pub mod nurbs_curve_ops;
#[rustfmt::skip]
#[path = "../../../../docs/src/crates/gensolid-geom/src/param.rs"]
pub mod param;
#[rustfmt::skip]
#[path = "../../../../docs/src/crates/gensolid-geom/src/surface.rs"]
pub mod surface;

/// surface.rs names a curve of the store by its id; the store itself is left out.
pub mod store {
    #[derive(Clone, Copy, Debug, PartialEq, Eq)]
    pub struct CurveId(pub u32);
}

pub use curve::CurveDerivs;
pub use nurbs::{BCurve, BSurface};
pub use param::ParamRange;
pub use surface::SurfaceDerivs;

/// Windows onto functions that are private to the crate.
pub mod window {
    use gensolid_core::Result;
    use gensolid_math::Interval;

    pub fn find_span(n: usize, p: usize, u: f64, knots: &[f64]) -> usize {
        crate::nurbs::find_span(n, p, u, knots)
    }
    pub fn basis_derivatives(span: usize, u: f64, p: usize, n: usize, knots: &[f64]) -> Vec<Vec<f64>> {
        crate::nurbs::basis_derivatives(span, u, p, n, knots)
    }
    pub fn divide(a: Interval, b: Interval) -> Result<Interval> {
        crate::nurbs_bounds::divide(a, b)
    }
    pub fn knot_spans(knots: &[f64], degree: usize, count: usize) -> Vec<crate::ParamRange> {
        crate::nurbs_bounds::knot_spans(knots, degree, count)
    }
}
