//! Tables: what makes and changes one, and what it is made of.
use crate::ffi;
use crate::place::QuarterBox;
use crate::refusal::Refusal;
use crate::sizes::{level_places, places};

/// An acceptable table: a sheet, the tree of its regions and its coefficients, all owned.
///
/// Whatever makes or changes one keeps it acceptable, and what is refused leaves it as it was. It has no state beside,
/// so several threads may read one at a time.
///
/// ```
/// use kiln::{Point, Table};
///
/// let table = Table::fresh(2, 1, 700)?;
/// let figures: Vec<_> = std::thread::scope(|scope| {
///     let readers: Vec<_> = (0..4).map(|k| scope.spawn({
///         let table = &table;
///         move || table.display(Point::new(64 * k, 128))
///     })).collect();
///     readers.into_iter().map(|reader| reader.join().unwrap()).collect()
/// });
/// assert_eq!(figures, [Ok(700); 4]);
/// # Ok::<(), kiln::Refusal>(())
/// ```
#[derive(Clone, Debug, PartialEq, Eq)]
pub struct Table {
    w: usize,
    h: usize,
    tree: Vec<u8>,
    numbers: Vec<i64>,
}

/// The least and the greatest level under a box, both from the same tree nodes, and how many were visited.
///
/// ```
/// use kiln::{QuarterBox, Table};
///
/// // A tree of one leaf has one node to visit.
/// let under = Table::fresh(1, 1, 0)?.least_level(QuarterBox::new(1, 1, 2, 2))?;
/// assert_eq!((under.least, under.greatest, under.visited), (0, 0, 1));
/// # Ok::<(), kiln::Refusal>(())
/// ```
#[derive(Clone, Copy, Debug, PartialEq, Eq, Hash)]
#[non_exhaustive]
pub struct Levels {
    /// The least level, 0 to 3.
    pub least: u8,
    /// The greatest level, from the least to 3.
    pub greatest: u8,
    /// The root, and each child of a visited split whose square shares area with the box.
    pub visited: usize,
}

impl Table {
    /// A fresh table of `w` by `h` cells: no regions, all level 0 coefficients `number` watts.
    ///
    /// Refused: sides that are not 1 to 8, a number beyond 32,000 in size.
    ///
    /// ```
    /// use kiln::{Point, Refusal, Table, DENOMINATOR};
    ///
    /// let table = Table::fresh(8, 4, 32_000)?;
    /// assert_eq!(table.tree(), [0]);
    /// assert_eq!(table.exact(Point::new(1_024, 511))?, 32_000 * DENOMINATOR);
    /// assert_eq!(Table::fresh(8, 0, 1), Err(Refusal::Side));
    /// assert_eq!(Table::fresh(8, 4, -32_001), Err(Refusal::NumberLimit));
    /// # Ok::<(), Refusal>(())
    /// ```
    pub fn fresh(w: usize, h: usize, number: i64) -> Result<Table, Refusal> {
        let (mut tree, mut numbers) = (vec![0; 1], vec![0; places(w, h)]);
        let length = ffi::fresh([w, h], number, &mut tree, &mut numbers)?;
        tree.truncate(length);
        Ok(Table { w, h, tree, numbers })
    }

    /// The table of a sheet, a tree and coefficients, each a copy of what is given.
    ///
    /// Refused: whatever is not an acceptable table.
    ///
    /// ```
    /// use kiln::{places, Refusal, Table};
    ///
    /// let zeros = vec![0; places(8, 8)];
    /// // A tree of four equal leaves is not allowed; one leaf of level 1 fills 8 by 8 and reaches beyond 1 by 1.
    /// assert_eq!(Table::from_parts(8, 8, &[4, 0, 0, 0, 0], &zeros), Err(Refusal::Tree));
    /// assert_eq!(Table::from_parts(1, 1, &[1], &zeros[..places(1, 1)]), Err(Refusal::Tree));
    /// assert!(Table::from_parts(8, 8, &[1], &zeros).is_ok());
    /// assert_eq!(Table::from_parts(8, 8, &[1], &zeros[1..]), Err(Refusal::NumbersLength));
    ///
    /// let mut numbers = vec![0; places(1, 1)];
    /// numbers[0] = 32_000;
    /// assert!(Table::from_parts(1, 1, &[0], &numbers).is_ok());
    /// numbers[0] = 32_001;
    /// assert_eq!(Table::from_parts(1, 1, &[0], &numbers), Err(Refusal::CoefficientLimit));
    /// numbers[0] = 0;
    /// numbers[16] = 1; // level 1, which is passive
    /// assert_eq!(Table::from_parts(1, 1, &[0], &numbers), Err(Refusal::PassiveNotZero));
    /// ```
    pub fn from_parts(w: usize, h: usize, tree: &[u8], numbers: &[i64]) -> Result<Table, Refusal> {
        ffi::table_cause([w, h], tree, numbers)?;
        Ok(Table { w, h, tree: tree.to_vec(), numbers: numbers.to_vec() })
    }

    // Only for what a call of the library wrote, which is an acceptable table.
    pub(crate) fn written(w: usize, h: usize, tree: Vec<u8>, numbers: Vec<i64>) -> Table {
        Table { w, h, tree, numbers }
    }

    pub(crate) fn sheet(&self) -> [usize; 2] {
        [self.w, self.h]
    }

    /// The sheet's width W in cells of level 0.
    ///
    /// ```
    /// assert_eq!(kiln::Table::fresh(8, 4, 0)?.width(), 8);
    /// # Ok::<(), kiln::Refusal>(())
    /// ```
    pub fn width(&self) -> usize {
        self.w
    }

    /// The sheet's height H in cells of level 0.
    ///
    /// ```
    /// assert_eq!(kiln::Table::fresh(8, 4, 0)?.height(), 4);
    /// # Ok::<(), kiln::Refusal>(())
    /// ```
    pub fn height(&self) -> usize {
        self.h
    }

    /// The tree of the regions, parent first: 0 to 3 a leaf of that level, 4 a split before its four children.
    ///
    /// ```
    /// use kiln::{QuarterBox, Table};
    ///
    /// let table = Table::fresh(1, 1, 0)?.insert(QuarterBox::new(0, 0, 4, 4), 1)?;
    /// assert_eq!(table.tree(), [4, 4, 4, 1, 0, 0, 0, 0, 0, 0, 0, 0, 0]);
    /// # Ok::<(), kiln::Refusal>(())
    /// ```
    pub fn tree(&self) -> &[u8] {
        &self.tree
    }

    /// The coefficients, level 0 first, then 1, 2, 3; in a level j rises, within a row i rises. Those of level L are
    /// in units of 1/64^L watt, and passive places hold 0. [`place_of`](crate::place_of) finds one.
    ///
    /// ```
    /// use kiln::{QuarterBox, Table};
    ///
    /// // 700 watts at every active function: 44,800 of 1/64 watt at level 1.
    /// let table = Table::fresh(1, 1, 700)?.insert(QuarterBox::new(0, 0, 4, 4), 1)?;
    /// assert_eq!(table.numbers().len(), 16 + 25 + 49 + 121);
    /// assert_eq!(table.numbers()[..16], [0; 16]);
    /// assert_eq!(table.numbers()[16..41], [44_800; 25]);
    /// # Ok::<(), kiln::Refusal>(())
    /// ```
    pub fn numbers(&self) -> &[i64] {
        &self.numbers
    }

    /// Sets the coefficient of the active function (`i`, `j`) of a level, in units of 1/64^level watt.
    ///
    /// Refused: a level that is not 0 to 3, a function that is passive or absent, a number beyond 32,000 × 64^level
    /// in size.
    ///
    /// ```
    /// use kiln::{Point, Refusal, Table};
    ///
    /// let mut table = Table::fresh(1, 1, 0)?;
    /// table.set(0, -3, -3, 1)?;
    /// assert_eq!(table.exact(Point::new(0, 0))?, 1 << 42);
    /// assert_eq!(table.exact(Point::new(128, 128))?, 0);
    /// table.set(0, -3, -3, 0)?;
    /// table.set(0, -2, -2, 1)?;
    /// assert_eq!(table.exact(Point::new(0, 0))?, 1 << 46);
    ///
    /// assert_eq!(table.set(1, 0, 0, 1), Err(Refusal::Function)); // passive
    /// assert_eq!(table.set(0, 1, 0, 1), Err(Refusal::Function)); // i runs from -3 to 0
    /// assert_eq!(table.set(0, 0, 0, 32_001), Err(Refusal::NumberLimit));
    /// assert_eq!(table.set(4, 0, 0, 1), Err(Refusal::Level));
    ///
    /// // On 2 by 1, i goes on to 1. A row of level 0 has five places.
    /// let mut two = Table::fresh(2, 1, 0)?;
    /// two.set(0, 1, 0, 5)?;
    /// assert_eq!(two.numbers()[3 * 5 + 4], 5);
    /// # Ok::<(), Refusal>(())
    /// ```
    pub fn set(&mut self, level: usize, i: i64, j: i64, number: i64) -> Result<(), Refusal> {
        Ok(ffi::set(self.sheet(), &self.tree, &mut self.numbers, level, [i, j], number)?)
    }

    /// The least and the greatest level under a box, with the number of tree nodes visited.
    ///
    /// Refused: a box with no area or past the sheet.
    ///
    /// ```
    /// use kiln::{QuarterBox, Refusal, Table};
    ///
    /// let raised = QuarterBox::new(0, 0, 4, 4);
    /// let one = Table::fresh(1, 1, 0)?.insert(raised, 1)?;
    /// let under = one.least_level(raised)?;
    /// assert_eq!((under.least, under.greatest, under.visited), (1, 1, 4));
    /// assert_eq!(one.least_level(QuarterBox::new(0, 0, 5, 4)), Err(Refusal::QuarterBox));
    /// let two = Table::fresh(2, 1, 0)?.insert(raised, 1)?;
    /// let under = two.least_level(QuarterBox::new(0, 0, 8, 4))?;
    /// assert_eq!((under.least, under.greatest, under.visited), (0, 1, 5));
    /// # Ok::<(), Refusal>(())
    /// ```
    ///
    /// A display draws a dot where the table is refined under the point, which is where the greatest level under the
    /// quarter square that holds the point is above 0:
    ///
    /// ```
    /// use kiln::{Point, QuarterBox, Refusal, Table};
    ///
    /// fn dot(table: &Table, point: Point) -> Result<bool, Refusal> {
    ///     let quarter = QuarterBox::holding(table.width(), table.height(), point).ok_or(Refusal::Point)?;
    ///     Ok(table.least_level(quarter)?.greatest > 0)
    /// }
    ///
    /// // The western half of 2 by 1 is refined. On its edge, at u 128, the quarter square of greater u counts; at the
    /// // far edge, at v 128, the last.
    /// let table = Table::fresh(2, 1, 700)?.insert(QuarterBox::new(0, 0, 4, 4), 1)?;
    /// let dots = [(0, 0), (127, 64), (127, 128), (128, 0), (128, 128), (256, 128)];
    /// let drawn = dots.map(|(u, v)| dot(&table, Point::new(u, v)));
    /// assert_eq!(drawn, [Ok(true), Ok(true), Ok(true), Ok(false), Ok(false), Ok(false)]);
    /// assert_eq!(dot(&table, Point::new(257, 0)), Err(Refusal::Point));
    /// # Ok::<(), Refusal>(())
    /// ```
    pub fn least_level(&self, under: QuarterBox) -> Result<Levels, Refusal> {
        let (least, greatest, visited) = ffi::least_level(self.sheet(), &self.tree, under.corners())?;
        Ok(Levels { least, greatest, visited })
    }

    /// Which functions of a level are active, in the order of the coefficients.
    ///
    /// Refused: a level that is not 0 to 3.
    ///
    /// ```
    /// use kiln::{places, QuarterBox, Refusal, Table};
    ///
    /// let count = |table: &Table, level| Ok::<usize, Refusal>(
    ///     table.activity(level)?.into_iter().filter(|&active| active).count());
    /// let two = Table::fresh(2, 1, 0)?.insert(QuarterBox::new(0, 0, 4, 4), 1)?;
    /// assert_eq!((count(&two, 0)?, count(&two, 1)?), (16, 10));
    /// let fine = Table::from_parts(8, 8, &[3], &vec![0; places(8, 8)])?;
    /// assert_eq!(count(&fine, 3)?, 4_489);
    /// assert_eq!(fine.activity(4), Err(Refusal::Level));
    /// # Ok::<(), Refusal>(())
    /// ```
    pub fn activity(&self, level: usize) -> Result<Vec<bool>, Refusal> {
        let mut out = vec![0; level_places(self.w, self.h, level)];
        ffi::activity(self.sheet(), &self.tree, level, &mut out)?;
        Ok(out.into_iter().map(|byte| byte == 1).collect())
    }
}
