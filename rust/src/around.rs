//! One coefficient, and those around a point, which the figure there lies between.
use crate::place::Point;
use crate::refusal::Refusal;
use crate::sizes::{level_places, place_of, DENOMINATOR};
use crate::table::Table;

/// An active function and its coefficient, which is `number` / `denominator()` watts.
///
/// ```
/// use kiln::{Point, Table, DENOMINATOR};
///
/// let mut table = Table::fresh(1, 1, 0)?;
/// table.set(0, -3, -2, 700)?;
/// let around = table.around(Point::new(0, 0))?;
/// let set = around.iter().find(|function| function.number != 0).unwrap();
/// assert_eq!((set.level, set.i, set.j), (0, -3, -2));
/// assert_eq!((set.number, set.denominator(), set.watts()), (700, 1, 700.0));
/// assert_eq!(set.exact(), 700 * DENOMINATOR);
/// # Ok::<(), kiln::Refusal>(())
/// ```
#[derive(Clone, Copy, Debug, PartialEq, Eq, Hash)]
#[non_exhaustive]
pub struct ActiveFunction {
    /// Its level, 0 to 3.
    pub level: usize,
    /// Its place along W: its support starts at this edge of its level's cells and ends four later.
    pub i: i64,
    /// Its place along H.
    pub j: i64,
    /// Its coefficient, a whole number of 1/64^level watt.
    pub number: i64,
}

impl ActiveFunction {
    /// 64^level, of which the coefficient is `number` parts.
    ///
    /// ```
    /// use kiln::{Point, QuarterBox, Table};
    ///
    /// let fine = Table::fresh(1, 1, 0)?.insert(QuarterBox::new(0, 0, 4, 4), 2)?;
    /// assert!(fine.around(Point::new(5, 5))?.iter().all(|function| function.denominator() == 64 * 64));
    /// # Ok::<(), kiln::Refusal>(())
    /// ```
    pub fn denominator(self) -> i64 {
        1 << (6 * self.level)
    }

    /// The coefficient in watts, which an `f64` holds exactly.
    ///
    /// ```
    /// use kiln::{Point, QuarterBox, Table};
    ///
    /// let mut fine = Table::fresh(1, 1, 0)?.insert(QuarterBox::new(0, 0, 4, 4), 1)?;
    /// fine.set(1, -3, -3, -96)?;
    /// assert_eq!(fine.around(Point::new(0, 0))?[0].watts(), -1.5);
    /// # Ok::<(), kiln::Refusal>(())
    /// ```
    pub fn watts(self) -> f64 {
        self.number as f64 / self.denominator() as f64
    }

    /// The coefficient in watts as a numerator over [`DENOMINATOR`], to compare with [`Table::exact`].
    ///
    /// ```
    /// use kiln::{Point, Table, DENOMINATOR};
    ///
    /// let around = Table::fresh(8, 8, -32_000)?.around(Point::new(1_024, 77))?;
    /// assert_eq!(around[0].exact(), -32_000 * DENOMINATOR);
    /// # Ok::<(), kiln::Refusal>(())
    /// ```
    pub fn exact(self) -> i64 {
        self.number * (DENOMINATOR / self.denominator())
    }
}

impl Table {
    /// The coefficient of the function (`i`, `j`) of a level, in units of 1/64^level watt; 0 for a passive one, `None`
    /// for one that is not there. [`place_of`] says which are, and in which order they stand in
    /// [`numbers`](Table::numbers).
    ///
    /// ```
    /// use kiln::Table;
    ///
    /// let mut table = Table::fresh(2, 1, 700)?;
    /// table.set(0, 1, -3, 5)?;
    /// assert_eq!(table.coefficient(0, 1, -3), Some(5));
    /// assert_eq!(table.coefficient(0, 1, -2), Some(700));
    /// assert_eq!(table.coefficient(3, 15, 7), Some(0)); // passive
    /// assert_eq!(table.coefficient(0, 2, -3), None); // i runs from -3 to 1
    /// assert_eq!(table.coefficient(0, 1, 1), None); // j runs from -3 to 0
    /// assert_eq!(table.coefficient(4, 0, 0), None);
    /// # Ok::<(), kiln::Refusal>(())
    /// ```
    pub fn coefficient(&self, level: usize, i: i64, j: i64) -> Option<i64> {
        place_of(self.width(), self.height(), level, i, j).map(|place| self.numbers()[place])
    }

    /// The active functions around a point, with their coefficients, in the order of the coefficients. The exact
    /// reading there lies between the least and the greatest of them.
    ///
    /// Around a point are those whose support, before it is cut to the sheet, holds the point strictly inside. So a
    /// function whose support starts or ends at a knot is not around the points on that knot; the far edges of the
    /// sheet are knots like others.
    ///
    /// Refused: a point off the sheet.
    ///
    /// ```
    /// use kiln::{places, Point, Refusal, Table};
    ///
    /// let mut numbers = [-1_000, 0, 1_000, 2_000].repeat(4);
    /// numbers.resize(places(1, 1), 0);
    /// let table = Table::from_parts(1, 1, &[0], &numbers)?;
    ///
    /// // At u 64 all four columns are around; at u 0, a knot, the last is not.
    /// let between = |point| {
    ///     let watts = table.around(point)?.into_iter().map(|function| function.exact());
    ///     let (least, greatest) = (watts.clone().min().unwrap(), watts.max().unwrap());
    ///     assert!(least <= table.exact(point)? && table.exact(point)? <= greatest);
    ///     Ok::<_, Refusal>([least, greatest].map(|numerator| numerator / kiln::DENOMINATOR))
    /// };
    /// assert_eq!(between(Point::new(64, 5))?, [-1_000, 2_000]);
    /// assert_eq!(between(Point::new(0, 5))?, [-1_000, 1_000]);
    /// assert_eq!(between(Point::new(128, 5))?, [0, 2_000]);
    /// assert_eq!(table.around(Point::new(129, 5)), Err(Refusal::Point));
    /// # Ok::<(), Refusal>(())
    /// ```
    pub fn around(&self, point: Point) -> Result<Vec<ActiveFunction>, Refusal> {
        // The library judges the point.
        self.exact(point)?;
        let mut around = Vec::new();
        let mut rest = self.numbers();
        for level in 0..=3 {
            let (numbers, finer) = rest.split_at(level_places(self.width(), self.height(), level));
            rest = finer;
            let activity = self.activity(level)?;
            let row = (self.width() << level) + 3;
            for (j, (active, numbers)) in (-3..).zip(activity.chunks(row).zip(numbers.chunks(row))) {
                for (i, (&active, &number)) in (-3..).zip(active.iter().zip(numbers)) {
                    if active && holds(level, i, point.u) && holds(level, j, point.v) {
                        around.push(ActiveFunction { level, i, j, number });
                    }
                }
            }
        }
        Ok(around)
    }
}

// Whether a spline's support, from edge `index` of its level's cells to the fourth after it, has a place strictly
// inside. On the sheet a place is at most 1,024 steps.
fn holds(level: usize, index: i64, steps: usize) -> bool {
    let (cell, steps) = (128 >> level, steps as i64);
    cell * index < steps && steps < cell * (index + 4)
}
