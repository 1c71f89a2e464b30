use crate::refusal::done;
use crate::{BoundBox, CurveBuf, Direction, Interval, Refusal, face, room, vectors};

/// A surface over borrowed runs, u before v: point i, j has place `i * counts[1] + j`.
#[derive(Clone, Copy, Debug, PartialEq)]
pub struct Surface<'a> {
    pub degrees: [usize; 2],
    pub knots: [&'a [f64]; 2],
    pub counts: [usize; 2],
    pub points: &'a [f64],
    pub weights: Option<&'a [f64]>,
}

impl Surface<'_> {
    /// Whether this is a surface: refusals 30, 32, 11, 1 to 7 along u, 1 to 7 along v, 8 to 10, in this order.
    ///
    /// ```
    /// use tasulogi::{Direction, Surface};
    /// let ends: &[f64] = &[0.0, 0.0, 1.0, 1.0];
    /// let s = Surface { degrees: [1, 1], knots: [ends; 2], counts: [2, 2], points: &[0.0; 12], weights: None };
    /// assert_eq!(s.validate(), Ok(()));
    /// let refusal = Surface { degrees: [1, 0], ..s }.validate().unwrap_err();
    /// assert_eq!((refusal.number, refusal.direction), (1, Some(Direction::V)));
    /// assert_eq!(refusal.to_string(), "refusal 1 along v: degree 0");
    /// let refusal = Surface { knots: [ends, &[0.0, 2.0, 1.0, 1.0]], ..s }.validate().unwrap_err();
    /// assert_eq!(refusal.to_string(), "refusal 4 at v knot 1: a knot is not finite, or one exceeds the next");
    /// ```
    pub fn validate(&self) -> Result<(), Refusal> {
        done(face::surface_refusal(self))
    }

    /// The point and the derivatives along u and v. 12 where `u` is not finite, 43 where it lies outside its domain, then
    /// the same of `v`.
    ///
    /// ```
    /// # use tasulogi::Surface;
    /// # let ends: &[f64] = &[0.0, 0.0, 1.0, 1.0];
    /// let x = [[0.0, 0.0, 0.0], [2.0, 0.0, 0.0], [4.0, 0.0, 0.0], [6.0, 0.0, 0.0]];
    /// let s = Surface { degrees: [1, 1], knots: [ends; 2], counts: [2, 2], points: x.as_flattened(), weights: None };
    /// let [point, du, dv] = s.eval(0.5, 0.5)?;
    /// assert_eq!((point[0], du[0], dv[0]), (3.0, 4.0, 2.0));
    /// let refused = |u, v| s.eval(u, v).unwrap_err().number;
    /// assert_eq!([refused(f64::NAN, 0.5), refused(2.0, 0.5), refused(0.5, f64::NAN), refused(0.5, 2.0)], [12, 43, 12, 43]);
    /// // 43 says no direction: of two refusals u's is given.
    /// assert_eq!([refused(2.0, f64::NAN), refused(f64::NAN, 2.0)], [43, 12]);
    /// # Ok::<(), tasulogi::Refusal>(())
    /// ```
    pub fn eval(&self, u: f64, v: f64) -> Result<[[f64; 3]; 3], Refusal> {
        vectors(|out| face::eval_surface(self, u, v, out))
    }

    /// The point and the derivatives along u and v; outside the domain those of the nearer edge. Else as [`Surface::eval`].
    ///
    /// ```
    /// # use tasulogi::Surface;
    /// # let ends: &[f64] = &[0.0, 0.0, 1.0, 1.0];
    /// # let x = [[0.0, 0.0, 0.0], [2.0, 0.0, 0.0], [4.0, 0.0, 0.0], [6.0, 0.0, 0.0]];
    /// # let s = Surface { degrees: [1, 1], knots: [ends; 2], counts: [2, 2], points: x.as_flattened(), weights: None };
    /// assert_eq!(s.eval_clamped(2.0, 0.5), s.eval(1.0, 0.5));
    /// assert_eq!(s.eval_clamped(2.0, -1.0), s.eval(1.0, 0.0));
    /// assert_eq!(s.eval_clamped(2.0, f64::NAN).unwrap_err().number, 12);
    /// ```
    pub fn eval_clamped(&self, u: f64, v: f64) -> Result<[[f64; 3]; 3], Refusal> {
        vectors(|out| face::eval_surface_clamped(self, u, v, out))
    }

    /// Intervals of x, y, z of the point over the ranges `u` and `v`: `point` of [`Surface::bound_box`], and refused as that.
    ///
    /// ```
    /// # use tasulogi::Surface;
    /// # let ends: &[f64] = &[0.0, 0.0, 1.0, 1.0];
    /// # let x = [[0.0, 0.0, 0.0], [2.0, 0.0, 0.0], [4.0, 0.0, 0.0], [6.0, 0.0, 0.0]];
    /// # let s = Surface { degrees: [1, 1], knots: [ends; 2], counts: [2, 2], points: x.as_flattened(), weights: None };
    /// let [x, _, _] = s.bound([0.5, 0.5], [0.5, 0.5])?;
    /// assert!(x.contains(3.0) && x.width() < 1e-12);
    /// assert_eq!(s.bound([0.5, 0.0], [0.5, 0.5]).unwrap_err().text(), "bound range not finite or reversed");
    /// # Ok::<(), tasulogi::Refusal>(())
    /// ```
    pub fn bound(&self, u: [f64; 2], v: [f64; 2]) -> Result<[Interval; 3], Refusal> {
        Ok(self.bound_box(u, v)?.point)
    }

    /// The box of the surface over the ranges `u` and `v`, each of which lies in one span of its direction; [`BoundBox`] says
    /// what it holds. Refusals after those of the surface: 31, 24 and 25 for u, both for v, 27, 26.
    ///
    /// ```
    /// # use tasulogi::Surface;
    /// # let ends: &[f64] = &[0.0, 0.0, 1.0, 1.0];
    /// // x = 4u + 2v
    /// let x = [[0.0, 0.0, 0.0], [2.0, 0.0, 0.0], [4.0, 0.0, 0.0], [6.0, 0.0, 0.0]];
    /// let s = Surface { degrees: [1, 1], knots: [ends; 2], counts: [2, 2], points: x.as_flattened(), weights: None };
    /// let whole = s.bound_box([0.0, 1.0], [0.0, 1.0])?;
    /// assert!(whole.du[0].contains(4.0) && whole.dv[0].contains(2.0));
    /// assert_eq!(whole.point, s.bound([0.0, 1.0], [0.0, 1.0])?);
    /// # Ok::<(), tasulogi::Refusal>(())
    /// ```
    pub fn bound_box(&self, u: [f64; 2], v: [f64; 2]) -> Result<BoundBox, Refusal> {
        BoundBox::by(|out| face::bound_surface(self, u[0], u[1], v[0], v[1], out))
    }

    /// The curve where the parameter of one direction stays `t`; it always has weights. Where the surface has
    /// none they are sums of basis functions, 1 up to rounding.
    ///
    /// ```
    /// # use tasulogi::{Direction, Surface};
    /// # let ends: &[f64] = &[0.0, 0.0, 1.0, 1.0];
    /// # let x = [[0.0, 0.0, 0.0], [2.0, 0.0, 0.0], [4.0, 0.0, 0.0], [6.0, 0.0, 0.0]];
    /// # let s = Surface { degrees: [1, 1], knots: [ends; 2], counts: [2, 2], points: x.as_flattened(), weights: None };
    /// let across = s.iso_curve(Direction::U, 0.5)?;
    /// assert_eq!(across.points, [2.0, 0.0, 0.0, 4.0, 0.0, 0.0]);
    /// assert_eq!(s.iso_curve(Direction::U, 1.5).unwrap_err().text(), "isoparameter not finite or outside");
    /// # Ok::<(), tasulogi::Refusal>(())
    /// ```
    pub fn iso_curve(&self, constant: Direction, t: f64) -> Result<CurveBuf, Refusal> {
        self.validate()?;
        // The curve runs along the other direction.
        let along = if constant == Direction::U { 1 } else { 0 };
        let (mut points, mut weights) = (room(3 * self.counts[along])?, room(self.counts[along])?);
        done(face::iso_curve(self, constant == Direction::U, t, &mut points, &mut weights))?;
        Ok(CurveBuf { degree: self.degrees[along], knots: self.knots[along].to_vec(), points, weights: Some(weights) })
    }
}
