//! Insertion: the enquiry, whose slip a person may look at, and the commit, which inserts what was accepted.
use crate::ffi;
use crate::place::QuarterBox;
use crate::refusal::Refusal;
use crate::sizes::TREE_BYTES;
use crate::table::Table;
use std::fmt;

/// What the insertion of a box would make of a table: the box, its level, and what is to be known of the new tree.
///
/// [`Table::enquire`] gives one and [`Table::commit`] takes it. It is eleven numbers and nothing else: it keeps no hold
/// of the table, and one that was written down and put together again is the same. The commit judges whatever it holds.
///
/// It shows itself in one line, as a stand would before the box is accepted.
///
/// ```
/// use kiln::{QuarterBox, Slip, Table};
///
/// let raised = QuarterBox::new(0, 0, 4, 4);
/// let slip = Table::fresh(2, 1, 700)?.enquire(raised, 1)?;
/// assert_eq!(slip, Slip { raised, level: 1, length: 13, active: [16, 10, 0, 0], visited: 4 });
/// let shown = "level 1 box 0,0 to 4,4: tree of 13 bytes, 16 + 10 + 0 + 0 functions active, 4 nodes visited";
/// assert_eq!(slip.to_string(), shown);
/// # Ok::<(), kiln::Refusal>(())
/// ```
#[derive(Clone, Copy, Debug, PartialEq, Eq, Hash)]
pub struct Slip {
    /// The box that is to be raised.
    pub raised: QuarterBox,
    /// The level to which it is to be raised, where it is lower.
    pub level: usize,
    /// The new tree's length, in bytes.
    pub length: usize,
    /// How many functions of levels 0 to 3 are active over the new tree. Each has a coefficient.
    pub active: [usize; 4],
    /// How many tree nodes one [`Table::least_level`] over the box visits in the new tree.
    pub visited: usize,
}

impl fmt::Display for Slip {
    fn fmt(&self, f: &mut fmt::Formatter<'_>) -> fmt::Result {
        let QuarterBox { u0, v0, u1, v1 } = self.raised;
        let [a, b, c, d] = self.active;
        write!(f, "level {} box {u0},{v0} to {u1},{v1}: tree of {} bytes, ", self.level, self.length)?;
        write!(f, "{a} + {b} + {c} + {d} functions active, {} nodes visited", self.visited)
    }
}

impl Table {
    /// What raising a box to `level`, 1 to 3, would make of this table. Nothing is inserted.
    ///
    /// Refused: a box with no area or past the sheet, a level that is not 1 to 3.
    ///
    /// ```
    /// use kiln::{QuarterBox, Refusal, Table};
    ///
    /// let table = Table::fresh(1, 1, 700)?;
    /// let whole = QuarterBox::new(0, 0, 4, 4);
    /// let slip = table.enquire(whole, 1)?;
    /// assert_eq!((slip.length, slip.active, slip.visited), (13, [0, 25, 0, 0], 4));
    /// assert_eq!(slip.active.iter().sum::<usize>(), 25); // as many coefficients as the table would have
    /// assert_eq!(table.tree(), [0]);
    ///
    /// assert_eq!(table.enquire(QuarterBox::new(0, 0, 5, 4), 1), Err(Refusal::QuarterBox));
    /// assert_eq!(table.enquire(whole, 0), Err(Refusal::Level));
    /// # Ok::<(), Refusal>(())
    /// ```
    pub fn enquire(&self, raised: QuarterBox, level: usize) -> Result<Slip, Refusal> {
        let (length, active, visited) =
            ffi::enquire(self.sheet(), self.tree(), self.numbers(), (raised.corners(), level))?;
        Ok(Slip { raised, level, length, active, visited })
    }

    /// The table with the slip's box raised to the slip's level, where it is lower, and the coefficients carried over:
    /// its exact reading at every point of the sheet is that of this table, and its tree is as the slip told.
    ///
    /// Refused: a box with no area or past the sheet, a level that is not 1 to 3, a slip that is not the one that this
    /// table gives for the slip's own box and level.
    ///
    /// ```
    /// use kiln::{file_counts, Point, QuarterBox, Refusal, Table};
    ///
    /// let table = Table::fresh(2, 1, 700)?;
    /// let slip = table.enquire(QuarterBox::new(0, 0, 4, 4), 1)?;
    /// let finer = table.commit(&slip)?;
    /// assert_eq!(finer.tree().len(), slip.length);
    /// assert_eq!(file_counts(&finer.to_file()), Some(slip.active));
    /// assert_eq!(finer.least_level(slip.raised)?.visited, slip.visited);
    /// assert_eq!(finer.exact(Point::new(100, 7)), table.exact(Point::new(100, 7)));
    ///
    /// // Once another box is inserted the slip tells of a tree that would not come about.
    /// let other = table.insert(QuarterBox::new(4, 0, 8, 4), 2)?;
    /// assert_eq!(other.commit(&slip), Err(Refusal::Slip));
    /// let anew = other.enquire(slip.raised, slip.level)?;
    /// assert_eq!(other.commit(&anew)?.tree().len(), anew.length);
    ///
    /// // Coefficients have no part in a slip, and a table that was refined by one gives the same again.
    /// assert_eq!(Table::fresh(2, 1, -9)?.commit(&slip)?.tree(), finer.tree());
    /// assert_eq!(finer.commit(&slip)?, finer);
    /// # Ok::<(), Refusal>(())
    /// ```
    pub fn commit(&self, slip: &Slip) -> Result<Table, Refusal> {
        let Slip { raised, level, length, active, visited } = *slip;
        let (mut tree, mut numbers) = (vec![0; TREE_BYTES], vec![0; self.numbers().len()]);
        let length = ffi::commit(
            self.sheet(),
            self.tree(),
            self.numbers(),
            (raised.corners(), level),
            (length, active, visited),
            &mut tree,
            &mut numbers,
        )?;
        tree.truncate(length);
        Ok(Table::written(self.width(), self.height(), tree, numbers))
    }

    /// The table with a box raised to `level`, 1 to 3, where it is lower, and the coefficients carried over: its exact
    /// reading at every point of the sheet is that of this table. This is an enquiry and the commit of its slip, for
    /// where no one has to accept the box first.
    ///
    /// Refused: a box with no area or past the sheet, a level that is not 1 to 3.
    ///
    /// ```
    /// use kiln::{places, Point, QuarterBox, Refusal, Table};
    ///
    /// let mut numbers = [-1_000, 0, 1_000, 2_000].repeat(4);
    /// numbers.resize(places(1, 1), 0);
    /// let table = Table::from_parts(1, 1, &[0], &numbers)?;
    ///
    /// let whole = QuarterBox::new(0, 0, 4, 4);
    /// let finer = table.insert(whole, 1)?;
    /// assert_eq!(finer.numbers()[16..41], [-32_000, 0, 32_000, 64_000, 96_000].repeat(5));
    /// for (u, v) in (0..=128).flat_map(|u| [(u, 0), (u, 77), (u, 128)]) {
    ///     assert_eq!(finer.exact(Point::new(u, v)), table.exact(Point::new(u, v)));
    /// }
    /// assert_eq!(table.insert(QuarterBox::new(0, 0, 5, 4), 1), Err(Refusal::QuarterBox));
    /// assert_eq!(table.insert(whole, 4), Err(Refusal::Level));
    ///
    /// // The eastern half of 2 by 1.
    /// let east = Table::fresh(2, 1, 700)?.insert(QuarterBox::new(4, 0, 8, 4), 1)?;
    /// assert_eq!(east.tree(), [4, 4, 4, 0, 1, 0, 0, 0, 0, 0, 0, 0, 0]);
    /// # Ok::<(), Refusal>(())
    /// ```
    pub fn insert(&self, raised: QuarterBox, level: usize) -> Result<Table, Refusal> {
        self.commit(&self.enquire(raised, level)?)
    }
}
