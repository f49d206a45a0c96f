//! What a table says at a point: watts, slopes and cost.
use crate::arrow::WattsAndSlopes;
use crate::ffi;
use crate::place::Point;
use crate::refusal::Refusal;
use crate::table::Table;

impl Table {
    /// The exact reading at a point, in watts, as a numerator over [`DENOMINATOR`](crate::DENOMINATOR).
    /// How far a table is refined at the point affects only how long a reading takes, not the figure.
    ///
    /// Refused: a point off the sheet.
    ///
    /// ```
    /// use kiln::{places, Point, Refusal, Table, DENOMINATOR};
    ///
    /// let mut numbers = [-1_000, 0, 1_000, 2_000].repeat(4);
    /// numbers.resize(places(1, 1), 0);
    /// let table = Table::from_parts(1, 1, &[0], &numbers)?;
    /// assert_eq!(table.exact(Point::new(64, 5))?, 79_164_837_199_872_000);
    /// assert_eq!(table.exact(Point::new(128, 5))?, 1_000 * DENOMINATOR);
    /// assert_eq!(table.exact(Point::new(129, 5)), Err(Refusal::Point));
    /// # Ok::<(), Refusal>(())
    /// ```
    pub fn exact(&self, point: Point) -> Result<i64, Refusal> {
        Ok(ffi::exact(self.sheet(), self.tree(), self.numbers(), point.steps())?)
    }

    /// The reading at a point as an `f64`, within 2^-30 watt of the exact one.
    ///
    /// Refused: a point off the sheet.
    ///
    /// ```
    /// use kiln::{places, Point, Refusal, Table};
    ///
    /// let mut numbers = [-1_000, 0, 1_000, 2_000].repeat(4);
    /// numbers.resize(places(1, 1), 0);
    /// let table = Table::from_parts(1, 1, &[0], &numbers)?;
    /// let bound = 1.0 / f64::from(1 << 30);
    /// assert!((table.watts(Point::new(64, 5))? - 500.0).abs() <= bound);
    /// assert_eq!(table.watts(Point::new(64, 129)), Err(Refusal::Point));
    /// # Ok::<(), Refusal>(())
    /// ```
    pub fn watts(&self, point: Point) -> Result<f64, Refusal> {
        Ok(ffi::watts(self.sheet(), self.tree(), self.numbers(), point.steps())?)
    }

    /// The reading at a point as [`watts`](Table::watts) gives it, within 2^-30 watt of the exact one, and both slopes
    /// there, each within [`SLOPE_BOUND`](crate::SLOPE_BOUND), 2^-20, of the exact derivative of the surface.
    ///
    /// A slope is in watts per eighth of a cell: the change of the watts over an eighth of a level 0 cell, 16 steps, at
    /// the rate that they have at the point, negative where they fall. At a far edge the last cell's polynomial counts.
    /// No exact slope is beyond [`GREATEST_SLOPE`](crate::GREATEST_SLOPE) in size. None of the three is an infinity or
    /// NaN. What an arrow beside the figure says is told by [`WattsAndSlopes`].
    ///
    /// Refused: a point off the sheet.
    ///
    /// ```
    /// use kiln::{places, Arrow, Point, Refusal, Table, Way, SLOPE_BOUND};
    ///
    /// // The watts rise by 1,000 over a cell along u, and not at all along v.
    /// let mut numbers = [-1_000, 0, 1_000, 2_000].repeat(4);
    /// numbers.resize(places(1, 1), 0);
    /// let table = Table::from_parts(1, 1, &[0], &numbers)?;
    /// for point in [Point::new(64, 5), Point::new(0, 0), Point::new(128, 128)] {
    ///     let at = table.slopes(point)?;
    ///     assert!((at.along_u - 125.0).abs() <= SLOPE_BOUND && at.along_v.abs() <= SLOPE_BOUND);
    ///     assert_eq!((at.hotter(), at.quicker(), at.arrow()), (Way::More, Way::Even, Arrow::Hotter));
    /// }
    /// assert_eq!(table.slopes(Point::new(129, 128)), Err(Refusal::Point));
    /// # Ok::<(), Refusal>(())
    /// ```
    pub fn slopes(&self, point: Point) -> Result<WattsAndSlopes, Refusal> {
        let (watts, along_u, along_v) = ffi::slopes(self.sheet(), self.tree(), self.numbers(), point.steps())?;
        Ok(WattsAndSlopes { watts, along_u, along_v })
    }

    /// The figure for the display: the exact watts rounded to the nearest whole number, halves upward.
    ///
    /// Refused: a point off the sheet.
    ///
    /// ```
    /// use kiln::{places, Point, Table};
    ///
    /// // Columns that rise by one: the watts rise from the second column's at u 0 to the third's at u 128.
    /// let halfway = |first: i64| {
    ///     let mut numbers = [first, first + 1, first + 2, first + 3].repeat(4);
    ///     numbers.resize(places(1, 1), 0);
    ///     Table::from_parts(1, 1, &[0], &numbers)?.display(Point::new(64, 0))
    /// };
    /// assert_eq!(halfway(-2)?, 0); // from -0.5
    /// assert_eq!(halfway(-3)?, -1); // from -1.5
    /// assert_eq!(halfway(-1)?, 1); // from 0.5
    /// # Ok::<(), kiln::Refusal>(())
    /// ```
    pub fn display(&self, point: Point) -> Result<i64, Refusal> {
        Ok(ffi::display(self.sheet(), self.tree(), self.numbers(), point.steps())?)
    }

    /// The cost per hour in hundredths of a cent: the exact watts times the tariff (hundredths of a cent per kWh, 0 to
    /// 99,999) over 1,000, rounded once, to the nearest, halves upward; 0 for exact watts of 0 or less. It is at most
    /// [`GREATEST_COST`](crate::GREATEST_COST).
    ///
    /// Versions before 0.6.0 took the display's whole watts in place of the exact ones.
    ///
    /// Refused: a point off the sheet, a tariff above 99,999.
    ///
    /// ```
    /// use kiln::{places, Point, Refusal, Table};
    ///
    /// let (table, point) = (Table::fresh(1, 1, 1)?, Point::new(0, 0));
    /// assert_eq!(table.cost(point, 1_499)?, 1);
    /// assert_eq!(table.cost(point, 1_500)?, 2);
    /// assert_eq!(table.cost(point, 100_000), Err(Refusal::Tariff));
    /// assert_eq!(Table::fresh(1, 1, -1)?.cost(point, 1_500)?, 0);
    ///
    /// // Columns of -1, 0, 1 and 2 watts: at the point (62, 0) the exact reading is 31/64 watt, which shows as 0.
    /// let mut numbers = [-1, 0, 1, 2].repeat(4);
    /// numbers.resize(places(1, 1), 0);
    /// let (standby, point) = (Table::from_parts(1, 1, &[0], &numbers)?, Point::new(62, 0));
    /// assert_eq!((standby.display(point)?, standby.cost(point, 99_999)?), (0, 48));
    /// # Ok::<(), Refusal>(())
    /// ```
    pub fn cost(&self, point: Point, tariff: usize) -> Result<usize, Refusal> {
        Ok(ffi::cost(self.sheet(), self.tree(), self.numbers(), point.steps(), tariff)?)
    }
}
