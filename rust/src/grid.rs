//! Plain bicubic grids, as kiln makers exchange them: tables written as one and read from one.
use crate::ffi;
use crate::refusal::Refusal;
use crate::sizes::{told_places, GRID_BYTES};
use crate::table::Table;

impl Table {
    /// The bytes of this table's grid: the sheet, and every coefficient of the surface at level 3, where the table is
    /// refined and where it is not. It has two fields, with a tag and a length each as a table file's: tag 1, W and H,
    /// a byte each; tag 19, the numbers, in the order of a level's coefficients, in units of 1/64^3 watt, five bytes
    /// each, two's complement, high byte first. The grid has the exact reading of this table at every point. This call
    /// is never refused.
    ///
    /// ```
    /// use kiln::{places, QuarterBox, Table};
    ///
    /// // Columns of -1,000, 0, 1,000 and 2,000 watts: over level 3 they rise by 125 watts, 0x01f4_0000 of 1/64^3.
    /// let mut numbers = [-1_000, 0, 1_000, 2_000].repeat(4);
    /// numbers.resize(places(1, 1), 0);
    /// let table = Table::from_parts(1, 1, &[0], &numbers)?;
    /// let grid = table.to_grid();
    /// assert_eq!(grid.len(), 8 + 5 * 11 * 11);
    /// assert_eq!(grid[..8], [1, 0, 2, 1, 1, 19, 2, 93]);
    /// assert_eq!(grid[8..23], [0xff, 0xfe, 0x0c, 0, 0, 0, 0, 0, 0, 0, 0, 0x01, 0xf4, 0, 0]);
    ///
    /// // Refining moves no figure, so it moves no number of the grid.
    /// assert_eq!(table.insert(QuarterBox::new(0, 1, 3, 4), 2)?.to_grid(), grid);
    /// # Ok::<(), kiln::Refusal>(())
    /// ```
    pub fn to_grid(&self) -> Vec<u8> {
        let mut grid = vec![0; GRID_BYTES];
        // Nothing is refused: a table is acceptable, and no grid is longer than the output.
        let length = ffi::write_grid(self.sheet(), self.tree(), self.numbers(), &mut grid);
        grid.truncate(length.map_err(Refusal::from).expect("a table has a grid"));
        grid
    }

    /// The table over the regions of `tree` that has the exact reading of a grid at every point. There is at most one.
    /// The sheet is the grid's, and the tree is that of the wanted table, as [`tree`](Table::tree) gives it.
    ///
    /// Refused: a grid that is cut short, has another tag or length than the one due, goes on after its second field,
    /// has sides that are not 1 to 8 or a number beyond 32,000 × 64^3 in size, the first of these in byte order; then
    /// a tree that is none of that sheet; then, with [`Refusal::NoTable`], a grid whose readings no acceptable table
    /// over that tree has. Over a tree with the whole sheet at level 3 there is always one.
    ///
    /// ```
    /// use kiln::{QuarterBox, Refusal, Table};
    ///
    /// let whole = QuarterBox::new(0, 0, 8, 4);
    /// let table = Table::fresh(2, 1, 700)?;
    /// let finer = table.insert(QuarterBox::new(0, 0, 4, 4), 1)?;
    /// // Both tables have the same readings, so that each comes of the grid of the other, by its tree.
    /// assert_eq!(Table::from_grid(&finer.to_grid(), table.tree())?, table);
    /// assert_eq!(Table::from_grid(&table.to_grid(), finer.tree())?, finer);
    ///
    /// // A grid with 1/64^3 watt more at one place: only a table with that function has its readings.
    /// let mut grid = table.to_grid();
    /// *grid.last_mut().unwrap() += 1;
    /// let finest = table.insert(whole, 3)?;
    /// assert_eq!(Table::from_grid(&grid, table.tree()), Err(Refusal::NoTable));
    /// assert_eq!(Table::from_grid(&grid, finer.tree()), Err(Refusal::NoTable));
    /// assert_eq!(Table::from_grid(&grid, finest.tree())?.numbers().last(), Some(&(700 * 64_i64.pow(3) + 1)));
    ///
    /// assert_eq!(Table::from_grid(&grid, &[4, 0, 0, 0, 0]), Err(Refusal::Tree));
    /// assert_eq!(Table::from_grid(&table.to_file(), table.tree()), Err(Refusal::FileTag));
    /// # Ok::<(), Refusal>(())
    /// ```
    pub fn from_grid(grid: &[u8], tree: &[u8]) -> Result<Table, Refusal> {
        let mut numbers = vec![0; told_places(grid)];
        let (w, h) = ffi::read_grid(grid, tree, &mut numbers)?;
        Ok(Table::written(w, h, tree.to_vec(), numbers))
    }
}
