use crate::face;
use std::fmt;

/// A line for each refusal of document 01: number, class, text.
const TABLE: &str = include_str!("../../docs/refusals.txt");

/// Along which direction of a surface refusals 1 to 7 were met.
#[derive(Clone, Copy, Debug, PartialEq, Eq, Hash)]
pub enum Direction {
    U,
    V,
}

/// The kind of a refusal.
#[derive(Clone, Copy, Debug, PartialEq, Eq, Hash)]
pub enum Class {
    Invalid,
    Degenerate,
    Unimplemented,
    Capacity,
    Internal,
}

/// Why there is no answer: a number of document 01, and the place of what 4, 7, 8 and 10 are for.
///
/// ```
/// use tasulogi::{Class, Curve, TABLE_A};
/// let refusal = TABLE_A.bound(0.5, 1.5).unwrap_err();
/// assert_eq!((refusal.number, refusal.direction, refusal.place), (25, None, None));
/// assert_eq!(refusal.class(), Class::Invalid);
/// assert_eq!(refusal.text(), "no nonempty span contains the bound range");
/// assert_eq!(refusal.to_string(), "refusal 25: no nonempty span contains the bound range");
/// let refusal = Curve { knots: &[0.0, 0.0, 0.0, 2.5, 2.0, 2.0, 2.0], ..TABLE_A }.validate().unwrap_err();
/// assert_eq!((refusal.number, refusal.place), (4, Some(3)));
/// assert_eq!(refusal.to_string(), "refusal 4 at knot 3: a knot is not finite, or one exceeds the next");
/// ```
#[derive(Clone, Copy, Debug, PartialEq, Eq, Hash)]
#[non_exhaustive]
pub struct Refusal {
    pub number: u8,
    pub direction: Option<Direction>,
    /// From 0. Of 4 the first knot that is not finite, else the first that exceeds the next; of 7 the first of the equal
    /// knots; of 8 the point; of 10 the weight. Of a surface a knot counts along its direction, a point and a weight is
    /// i · v_count + j. Where a call refuses the curve that it has formed, the place is in that curve.
    pub place: Option<usize>,
}

impl Refusal {
    /// The class of the number.
    ///
    /// ```
    /// use tasulogi::{Class, Curve};
    /// let flat = Curve { degree: 1, knots: &[0.0; 4], points: &[0.0; 6], weights: None };
    /// let refusal = flat.validate().unwrap_err();
    /// assert_eq!((refusal.number, refusal.class()), (5, Class::Degenerate));
    /// ```
    pub fn class(self) -> Class {
        match face::tasulogi_class_of(u32::from(self.number)) {
            0 => Class::Invalid,
            1 => Class::Degenerate,
            2 => Class::Unimplemented,
            3 => Class::Capacity,
            _ => Class::Internal,
        }
    }

    /// When this number is given, in document 01's words; 28 and 29 are never given, and say so.
    ///
    /// ```
    /// let refusal = tasulogi::TABLE_A.eval(f64::NAN).unwrap_err();
    /// assert_eq!((refusal.number, refusal.text()), (12, "evaluation parameter not finite"));
    /// ```
    pub fn text(self) -> &'static str {
        let row = TABLE.lines().filter_map(row).find(|row| row.0 == self.number);
        row.map_or("no refusal of document 01", |row| row.2)
    }
}

impl fmt::Display for Refusal {
    fn fmt(&self, f: &mut fmt::Formatter<'_>) -> fmt::Result {
        let (along, at) = match self.direction {
            None => ("", ""),
            Some(Direction::U) => (" along u", "u "),
            Some(Direction::V) => (" along v", "v "),
        };
        match (part(self.number), self.place) {
            (Some(part), Some(place)) => write!(f, "refusal {} at {at}{part} {place}: {}", self.number, self.text()),
            _ => write!(f, "refusal {}{along}: {}", self.number, self.text()),
        }
    }
}

impl std::error::Error for Refusal {}

/// The number, the letter of the class and the text of a line of the table.
fn row(line: &str) -> Option<(u8, &str, &str)> {
    let mut parts = line.splitn(3, ' ');
    Some((parts.next()?.parse().ok()?, parts.next()?, parts.next()?))
}

/// What the place of a refusal counts.
fn part(number: u8) -> Option<&'static str> {
    match number {
        4 | 7 => Some("knot"),
        8 => Some("point"),
        10 => Some("weight"),
        _ => None,
    }
}

/// What a C function returned: 0 in the low half, or a number with its direction in the hundreds and its place in the
/// high half.
pub(crate) fn done(returned: u64) -> Result<(), Refusal> {
    let (low, place) = (returned as u32, (returned >> 32) as usize);
    let direction = match low / 100 {
        1 => Some(Direction::U),
        2 => Some(Direction::V),
        _ => None,
    };
    let number = (low % 100) as u8;
    match low {
        0 => Ok(()),
        _ => Err(Refusal { number, direction, place: part(number).map(|_| place) }),
    }
}

/// What a C function returned that answers in the low half: its refusals have the halves exchanged.
pub(crate) fn answered(returned: u64) -> Result<usize, Refusal> {
    done(returned.rotate_left(32))?;
    Ok(returned as usize)
}

#[cfg(test)]
mod tests {
    use super::*;

    fn of(number: u8) -> Refusal {
        Refusal { number, direction: None, place: None }
    }

    #[test]
    fn the_table_has_each_number_once_with_the_proved_class() {
        let rows: Vec<_> = TABLE.lines().filter_map(row).collect();
        for (number, letter, text) in &rows {
            let proved = match of(*number).class() {
                Class::Invalid => "I",
                Class::Degenerate => "D",
                Class::Unimplemented => "U",
                Class::Capacity => "C",
                Class::Internal => "N",
            };
            assert_eq!((*letter, *text), (proved, of(*number).text()), "{number}");
        }
        assert!(rows.is_sorted_by(|a, b| a.0 < b.0));
        assert_eq!((TABLE.lines().count(), rows.len()), (34, 34));
        let with_a_class: Vec<_> = (0..=255).filter(|n| face::tasulogi_class_of(u32::from(*n)) < 5).collect();
        assert_eq!(with_a_class, rows.iter().map(|row| row.0).collect::<Vec<_>>());
    }

    #[test]
    fn a_direction_is_told() {
        let along_v = done(205).unwrap_err();
        assert_eq!(along_v, Refusal { number: 5, direction: Some(Direction::V), place: None });
        assert_eq!(along_v.to_string(), "refusal 5 along v: knots[degree] >= knots[count]");
        assert_eq!(done(103).unwrap_err().direction, Some(Direction::U));
        assert_eq!(done(0), Ok(()));
    }

    #[test]
    fn a_place_is_told() {
        let said = |low: u64, place: u64| done(place << 32 | low).unwrap_err().to_string();
        assert_eq!(said(4, 3), "refusal 4 at knot 3: a knot is not finite, or one exceeds the next");
        assert_eq!(said(107, 5), "refusal 7 at u knot 5: degree + 2 knots are equal");
        assert_eq!(said(204, 0), "refusal 4 at v knot 0: a knot is not finite, or one exceeds the next");
        assert_eq!(said(8, 7), "refusal 8 at point 7: a control coordinate is not finite");
        assert_eq!(said(10, 2), "refusal 10 at weight 2: a weight is not finite and above 0");
        assert_eq!(said(12, 0), "refusal 12: evaluation parameter not finite");
        assert_eq!(said(43, 0), "refusal 43: evaluation parameter outside the domain");
        assert_eq!(done(7 << 32 | 8).unwrap_err(), Refusal { number: 8, direction: None, place: Some(7) });
    }

    #[test]
    fn the_place_is_in_the_other_half() {
        assert_eq!(answered(3), Ok(3));
        assert_eq!(answered(4 << 32 | 3).unwrap_err(), Refusal { number: 4, direction: None, place: Some(3) });
        assert_eq!(done(5 << 32), Ok(()), "an edit's count");
    }

    #[test]
    fn two_are_marked_as_never_given() {
        assert_eq!(of(28).text(), "quotient interval cannot be formed; never given");
        assert_eq!(of(29).text(), "weight enclosures do not meet; never given");
        assert_eq!(TABLE.lines().filter(|line| line.contains("never given")).count(), 2);
    }

    #[test]
    fn a_number_that_is_none_has_a_text() {
        for number in [0].into_iter().chain(34..=42).chain(44..=255) {
            assert_eq!(of(number).text(), "no refusal of document 01");
        }
    }
}
