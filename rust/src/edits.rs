use crate::refusal::done;
use crate::{Curve, Refusal, face, room};

/// A curve that owns its runs: what an edit forms.
#[derive(Clone, Debug, PartialEq)]
pub struct CurveBuf {
    pub degree: usize,
    pub knots: Vec<f64>,
    pub points: Vec<f64>,
    pub weights: Option<Vec<f64>>,
}

/// Room for what an edit forms: its degree, at least as many points as it has, and as the largest curve on the way has.
struct Room {
    degree: usize,
    points: usize,
    most: usize,
}

impl Curve<'_> {
    /// The curve run backwards over the same domain.
    ///
    /// ```
    /// use tasulogi::{Curve, TABLE_A};
    /// let back = TABLE_A.reversed()?;
    /// assert_eq!(back.knots, TABLE_A.knots);
    /// assert_eq!(back.points, [6.0, 0.0, 0.0, 4.0, 0.0, 0.0, 2.0, 0.0, 0.0, 0.0, 0.0, 0.0]);
    /// assert_eq!(Curve { degree: 0, ..TABLE_A }.reversed().unwrap_err().text(), "degree 0");
    /// // Two knots so near to each other that backwards they are equal: the place is in the curve just formed.
    /// let near = Curve { degree: 1, knots: &[0.0, 0.0, 2f64.powi(-60), 1.0, 1.0], points: &[0.0; 9], weights: None };
    /// assert_eq!(near.reversed().unwrap_err().to_string(), "refusal 7 at knot 2: degree + 2 knots are equal");
    /// # Ok::<(), tasulogi::Refusal>(())
    /// ```
    pub fn reversed(&self) -> Result<CurveBuf, Refusal> {
        self.validate()?;
        let mut out = CurveBuf::room(self.degree, self.count(), self.weights.is_some())?;
        let weights = out.weights.as_deref_mut().unwrap_or_default();
        done(face::reversed(self, &mut out.knots, &mut out.points, weights))?;
        Ok(out)
    }

    /// The same curve with more knots, inserted one after the other.
    ///
    /// ```
    /// use tasulogi::{Class, TABLE_A};
    /// let more = TABLE_A.insert_knots(&[1.0])?;
    /// assert_eq!(more.knots, [0.0, 0.0, 0.0, 1.0, 1.0, 2.0, 2.0, 2.0]);
    /// assert_eq!(more.points.chunks(3).map(|p| p[0]).collect::<Vec<_>>(), [0.0, 2.0, 3.0, 4.0, 6.0]);
    /// let refusal = TABLE_A.insert_knots(&[2.0]).unwrap_err();
    /// assert_eq!((refusal.number, refusal.class()), (13, Class::Invalid));
    /// assert_eq!(refusal.text(), "inserted knot not finite or not strictly inside the domain");
    /// # Ok::<(), tasulogi::Refusal>(())
    /// ```
    pub fn insert_knots(&self, inserted: &[f64]) -> Result<CurveBuf, Refusal> {
        let lent = self.validate().ok().map(|()| {
            let points = self.count() + inserted.len();
            Room { degree: self.degree, points, most: points }
        });
        self.edit(lent, |k, p, w, s| face::insert_knots(self, inserted, k, p, w, s))
    }

    /// The part of the curve from `lo` to `hi`.
    ///
    /// ```
    /// use tasulogi::TABLE_A;
    /// let part = TABLE_A.trim(0.0, 1.0)?;
    /// assert_eq!(part.knots, [0.0, 0.0, 0.0, 1.0, 1.0, 1.0]);
    /// assert_eq!(part.points.chunks(3).map(|p| p[0]).collect::<Vec<_>>(), [0.0, 2.0, 3.0]);
    /// let refusal = TABLE_A.trim(1.0, 1.0).unwrap_err();
    /// assert_eq!((refusal.number, refusal.text()), (15, "trim ends not finite, lo >= hi, or outside the domain"));
    /// # Ok::<(), tasulogi::Refusal>(())
    /// ```
    pub fn trim(&self, lo: f64, hi: f64) -> Result<CurveBuf, Refusal> {
        // Each end is inserted at most degree + 1 times, and the cut is a part of that.
        let lent = self.validate().ok().map(|()| {
            let points = self.count() + 2 * (self.degree + 1);
            Room { degree: self.degree, points, most: points }
        });
        self.edit(lent, |k, p, w, s| face::trim(self, lo, hi, k, p, w, s))
    }

    /// The same curve with a higher degree, or a copy where it is the curve's own.
    ///
    /// ```
    /// use tasulogi::{Class, Curve, TABLE_A};
    /// assert_eq!(TABLE_A.elevate_degree(3)?.points.len(), 3 * 7);
    /// let line = Curve { degree: 1, knots: &[0.0, 0.0, 1.0, 1.0], points: &[0.0, 0.0, 0.0, 2.0, 0.0, 0.0], weights: None };
    /// assert_eq!(line.elevate_degree(2)?.points, [0.0, 0.0, 0.0, 1.0, 0.0, 0.0, 2.0, 0.0, 0.0]);
    /// let refusal = TABLE_A.elevate_degree(65).unwrap_err();
    /// assert_eq!((refusal.number, refusal.class()), (18, Class::Capacity));
    /// assert_eq!(refusal.text(), "elevation to a higher degree above 64");
    /// # Ok::<(), tasulogi::Refusal>(())
    /// ```
    pub fn elevate_degree(&self, raised: usize) -> Result<CurveBuf, Refusal> {
        let p = self.degree;
        // For other degrees nothing is formed.
        let lent = (self.validate().is_ok() && (raised == p || p < raised && raised <= 64)).then(|| {
            let segments = self.knots[p..=self.count()].windows(2).filter(|k| k[0] < k[1]).count();
            let points = if raised == p { self.count() } else { (raised + 1) * segments };
            Room { degree: raised, points, most: (p + 1) * segments }
        });
        self.edit(lent, |k, p, w, s| face::elevate_degree(self, raised, k, p, w, s))
    }

    /// Lends what the edit needs, nothing where the call refuses before it looks at what was lent; and keeps as many
    /// points as the call says.
    fn edit<F>(&self, lent: Option<Room>, call: F) -> Result<CurveBuf, Refusal>
    where
        F: FnOnce(&mut [f64], &mut [f64], &mut [f64], &mut [f64]) -> u64,
    {
        let (mut out, mut scratch) = match lent {
            Some(r) => (CurveBuf::room(r.degree, r.points, self.weights.is_some())?, room(10 * r.most + 2 * (self.degree + 1))?),
            None => (CurveBuf { degree: 0, knots: vec![], points: vec![], weights: None }, vec![]),
        };
        let weights = out.weights.as_deref_mut().unwrap_or_default();
        let returned = call(&mut out.knots, &mut out.points, weights, &mut scratch);
        done(returned)?;
        // With nothing refused the high half is the count.
        out.keep((returned >> 32) as usize);
        Ok(out)
    }
}

impl CurveBuf {
    /// The same curve, borrowed.
    ///
    /// ```
    /// use tasulogi::TABLE_A;
    /// let twice = TABLE_A.reversed()?.as_curve().reversed()?;
    /// assert_eq!(twice.as_curve(), TABLE_A);
    /// # Ok::<(), tasulogi::Refusal>(())
    /// ```
    pub fn as_curve(&self) -> Curve<'_> {
        Curve { degree: self.degree, knots: &self.knots, points: &self.points, weights: self.weights.as_deref() }
    }

    fn room(degree: usize, count: usize, rational: bool) -> Result<Self, Refusal> {
        let weights = if rational { Some(room(count)?) } else { None };
        Ok(Self { degree, knots: room(count + degree + 1)?, points: room(3 * count)?, weights })
    }

    /// The front that has `count` points.
    fn keep(&mut self, count: usize) {
        self.knots.truncate(count + self.degree + 1);
        self.points.truncate(3 * count);
        if let Some(weights) = &mut self.weights {
            weights.truncate(count);
        }
    }
}
