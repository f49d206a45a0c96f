//! The watts and both slopes at a point, and the arrow beside the figure.
use crate::sizes::SLOPE_BOUND;

/// The watts at a point, and the slopes of the surface there, in watts per eighth of a cell.
///
/// Hotter is along u, the chamber temperature, and quicker along v, the climb rate. What costs more takes more watts:
/// at one tariff the cost rises and falls with them, but for a draw below 0, which costs nothing either way. How many
/// degrees, or degrees per hour, an eighth of a cell is, the table's maker chose: the arrow compares one of each.
///
/// A slope that [`Table::slopes`](crate::Table::slopes) gives is within [`SLOPE_BOUND`] of the exact one. So where it
/// is at most that in size the exact one may be 0, and where two differ by at most twice that the exact ones may be
/// equal: there `Even` is told. `More`, `Less`, `Hotter` and `Quicker` are told only where the exact slopes say the
/// same.
///
/// ```
/// use kiln::{Arrow, Way, WattsAndSlopes};
///
/// let at = WattsAndSlopes { watts: 500.0, along_u: 125.0, along_v: -3.5 };
/// assert_eq!((at.hotter(), at.quicker(), at.arrow()), (Way::More, Way::Less, Arrow::Hotter));
/// ```
#[derive(Clone, Copy, Debug, PartialEq)]
pub struct WattsAndSlopes {
    /// The watts.
    pub watts: f64,
    /// The slope along u.
    pub along_u: f64,
    /// The slope along v.
    pub along_v: f64,
}

/// What going on in one direction costs, compared with the point.
///
/// ```
/// use kiln::{Point, Table, Way};
///
/// let level = Table::fresh(1, 1, 700)?.slopes(Point::new(64, 5))?;
/// assert_eq!([level.hotter(), level.quicker()], [Way::Even; 2]);
/// # Ok::<(), kiln::Refusal>(())
/// ```
#[derive(Clone, Copy, Debug, PartialEq, Eq, Hash)]
pub enum Way {
    /// Less than at the point.
    Less,
    /// As much as at the point, or as good as that.
    Even,
    /// More than at the point.
    More,
}

/// Which of the two directions costs more, hotter or quicker.
///
/// ```
/// use kiln::{Arrow, Point, Table};
///
/// assert_eq!(Table::fresh(1, 1, 700)?.slopes(Point::new(64, 5))?.arrow(), Arrow::Even);
/// # Ok::<(), kiln::Refusal>(())
/// ```
#[derive(Clone, Copy, Debug, PartialEq, Eq, Hash)]
pub enum Arrow {
    /// Hotter costs more than a quicker climb.
    Hotter,
    /// They cost the same, or as good as that.
    Even,
    /// A quicker climb costs more than hotter.
    Quicker,
}

impl WattsAndSlopes {
    /// Whether hotter costs more or less than at the point.
    ///
    /// ```
    /// use kiln::{Way, WattsAndSlopes, SLOPE_BOUND};
    ///
    /// let hotter = |along_u| WattsAndSlopes { watts: 0.0, along_u, along_v: 9.0 }.hotter();
    /// assert_eq!([hotter(-0.1), hotter(0.0), hotter(0.1)], [Way::Less, Way::Even, Way::More]);
    /// assert_eq!([hotter(-SLOPE_BOUND), hotter(SLOPE_BOUND)], [Way::Even; 2]); // the exact one may be 0
    /// ```
    pub fn hotter(self) -> Way {
        way(self.along_u)
    }

    /// Whether a quicker climb costs more or less than at the point.
    ///
    /// ```
    /// use kiln::{Way, WattsAndSlopes, SLOPE_BOUND};
    ///
    /// let quicker = |along_v| WattsAndSlopes { watts: 0.0, along_u: 9.0, along_v }.quicker();
    /// assert_eq!([quicker(-0.1), quicker(0.0), quicker(0.1)], [Way::Less, Way::Even, Way::More]);
    /// assert_eq!([quicker(-SLOPE_BOUND), quicker(SLOPE_BOUND)], [Way::Even; 2]); // the exact one may be 0
    /// ```
    pub fn quicker(self) -> Way {
        way(self.along_v)
    }

    /// Which costs more for an eighth of a cell, hotter or a quicker climb: the one of the greater slope. Where both
    /// cost less than at the point, that is the one that saves less.
    ///
    /// ```
    /// use kiln::{Arrow, WattsAndSlopes, SLOPE_BOUND};
    ///
    /// let arrow = |along_u, along_v| WattsAndSlopes { watts: 0.0, along_u, along_v }.arrow();
    /// assert_eq!([arrow(5.0, 3.0), arrow(3.0, 5.0)], [Arrow::Hotter, Arrow::Quicker]);
    /// assert_eq!([arrow(-5.0, -3.0), arrow(-5.0, 3.0)], [Arrow::Quicker; 2]);
    /// assert_eq!(arrow(5.0 + 2.0 * SLOPE_BOUND, 5.0), Arrow::Even); // the exact ones may be equal
    /// ```
    pub fn arrow(self) -> Arrow {
        // A difference that is rounded crosses no power of two.
        let more = self.along_u - self.along_v;
        if more > 2.0 * SLOPE_BOUND {
            Arrow::Hotter
        } else if more < -2.0 * SLOPE_BOUND {
            Arrow::Quicker
        } else {
            Arrow::Even
        }
    }
}

// Even where the exact slope may be 0.
fn way(slope: f64) -> Way {
    if slope > SLOPE_BOUND {
        Way::More
    } else if slope < -SLOPE_BOUND {
        Way::Less
    } else {
        Way::Even
    }
}

#[cfg(test)]
mod tests {
    use super::{way, Arrow, WattsAndSlopes, Way};

    // 2^-20 and the next f64 above it, and the same for 2^-19.
    const LIMIT: f64 = 0.00000095367431640625;
    const ABOVE: f64 = LIMIT + LIMIT * f64::EPSILON;
    const LIMIT_OF_TWO: f64 = 0.0000019073486328125;
    const ABOVE_OF_TWO: f64 = LIMIT_OF_TWO + LIMIT_OF_TWO * f64::EPSILON;

    fn arrow(along_u: f64, along_v: f64) -> Arrow {
        WattsAndSlopes { watts: 7.0, along_u, along_v }.arrow()
    }

    #[test]
    fn one_slope_is_even_up_to_its_bound_and_no_further() {
        assert_eq!((LIMIT * 1_048_576.0, LIMIT_OF_TWO * 524_288.0), (1.0, 1.0));
        for slope in [0.0, 1e-300, LIMIT] {
            assert_eq!((way(slope), way(-slope)), (Way::Even, Way::Even), "{slope}");
        }
        for slope in [ABOVE, 1.0, 48_000.0] {
            assert_eq!((way(slope), way(-slope)), (Way::More, Way::Less), "{slope}");
        }
    }

    #[test]
    fn each_direction_has_its_own_slope() {
        let at = WattsAndSlopes { watts: -7.0, along_u: ABOVE, along_v: -LIMIT };
        assert_eq!((at.hotter(), at.quicker()), (Way::More, Way::Even));
        let at = WattsAndSlopes { watts: 7.0, along_u: LIMIT, along_v: -ABOVE };
        assert_eq!((at.hotter(), at.quicker()), (Way::Even, Way::Less));
    }

    #[test]
    fn two_slopes_are_even_up_to_twice_the_bound_and_no_further() {
        for other in [0.0, LIMIT, -1.0, 1.0 / 3.0, 48_000.0, -48_000.0] {
            assert_eq!(arrow(other, other), Arrow::Even);
        }
        assert_eq!((arrow(LIMIT_OF_TWO, 0.0), arrow(0.0, LIMIT_OF_TWO)), (Arrow::Even, Arrow::Even));
        assert_eq!((arrow(ABOVE_OF_TWO, 0.0), arrow(0.0, ABOVE_OF_TWO)), (Arrow::Hotter, Arrow::Quicker));
        assert_eq!((arrow(LIMIT, -LIMIT), arrow(-LIMIT, LIMIT)), (Arrow::Even, Arrow::Even));
        assert_eq!((arrow(ABOVE, -ABOVE), arrow(-ABOVE, ABOVE)), (Arrow::Hotter, Arrow::Quicker));
        // Near 40,000 an f64 is a multiple of 2^-37, and these differences are exact.
        let (high, step) = (40_000.0, 1.0 / f64::powi(2.0, 37));
        assert_eq!((arrow(high + LIMIT_OF_TWO, high), arrow(high, high + LIMIT_OF_TWO)), (Arrow::Even, Arrow::Even));
        let above = high + LIMIT_OF_TWO + step;
        assert_eq!((arrow(above, high), arrow(high, above)), (Arrow::Hotter, Arrow::Quicker));
        assert_eq!((arrow(-above, -high), arrow(-high, -above)), (Arrow::Quicker, Arrow::Hotter));
    }

    #[test]
    fn where_the_ways_differ_the_arrow_is_that_of_the_dearer_one() {
        let slopes = [-48_000.0, -1.0, -ABOVE, -LIMIT, -1e-9, 0.0, 1e-9, LIMIT, ABOVE, 1.0, 48_000.0];
        for (along_u, along_v) in slopes.iter().flat_map(|&u| slopes.map(|v| (u, v))) {
            let at = WattsAndSlopes { watts: 7.0, along_u, along_v };
            match (at.hotter(), at.quicker()) {
                (Way::More, Way::Less) => assert_eq!(at.arrow(), Arrow::Hotter),
                (Way::Less, Way::More) => assert_eq!(at.arrow(), Arrow::Quicker),
                (Way::Even, Way::Even) => assert_eq!(at.arrow(), Arrow::Even),
                _ => (),
            }
        }
    }
}
