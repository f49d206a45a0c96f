//! Where something is on the sheet.
use crate::sizes::places;

/// A point, in steps of 1/128 cell: 0 to 128 × W and 0 to 128 × H, far edges included.
///
/// ```
/// use kiln::{Point, Refusal, Table};
///
/// // On 1 by 1, u 128 is accepted and 129 is not.
/// let table = Table::fresh(1, 1, 700)?;
/// assert_eq!(table.display(Point::new(128, 0)), Ok(700));
/// assert_eq!(table.display(Point::new(129, 0)), Err(Refusal::Point));
/// # Ok::<(), Refusal>(())
/// ```
#[derive(Clone, Copy, Debug, PartialEq, Eq, Hash)]
pub struct Point {
    /// Along W.
    pub u: usize,
    /// Along H.
    pub v: usize,
}

impl Point {
    /// The point at `u` and `v` steps.
    ///
    /// ```
    /// use kiln::Point;
    ///
    /// assert_eq!(Point::new(64, 5), Point { u: 64, v: 5 });
    /// ```
    pub fn new(u: usize, v: usize) -> Point {
        Point { u, v }
    }

    pub(crate) fn steps(self) -> [usize; 2] {
        [self.u, self.v]
    }
}

/// A box on the sheet: two corners in whole quarters of a level 0 cell's side, low corner first, u before v.
///
/// ```
/// use kiln::{QuarterBox, Refusal, Table};
///
/// // A cell is four quarters wide, so this box is past a sheet of 1 by 1.
/// let table = Table::fresh(1, 1, 700)?;
/// assert_eq!(table.insert(QuarterBox::new(0, 0, 5, 4), 1), Err(Refusal::QuarterBox));
/// // This one has no area.
/// assert_eq!(table.insert(QuarterBox::new(2, 0, 2, 4), 1), Err(Refusal::QuarterBox));
/// # Ok::<(), Refusal>(())
/// ```
#[derive(Clone, Copy, Debug, PartialEq, Eq, Hash)]
pub struct QuarterBox {
    /// The low corner, along W.
    pub u0: usize,
    /// The low corner, along H.
    pub v0: usize,
    /// The high corner, along W.
    pub u1: usize,
    /// The high corner, along H.
    pub v1: usize,
}

impl QuarterBox {
    /// The box from (`u0`, `v0`) to (`u1`, `v1`).
    ///
    /// ```
    /// use kiln::QuarterBox;
    ///
    /// assert_eq!(QuarterBox::new(0, 1, 4, 8), QuarterBox { u0: 0, v0: 1, u1: 4, v1: 8 });
    /// ```
    pub fn new(u0: usize, v0: usize, u1: usize, v1: usize) -> QuarterBox {
        QuarterBox { u0, v0, u1, v1 }
    }

    /// The quarter square that holds a point of a `w` by `h` sheet: on a shared edge the one of greater u, of greater
    /// v, at a corner of both, and at a far edge the last. `None` for a point off the sheet, and for sides that are not
    /// 1 to 8.
    ///
    /// [`Table::least_level`](crate::Table::least_level) gives its level.
    ///
    /// ```
    /// use kiln::{Point, QuarterBox};
    ///
    /// // A quarter is 32 steps: 2 by 1 cells have eight quarters along u and four along v.
    /// let holding = |u, v| QuarterBox::holding(2, 1, Point::new(u, v));
    /// assert_eq!(holding(31, 63), Some(QuarterBox::new(0, 1, 1, 2)));
    /// assert_eq!(holding(32, 63), Some(QuarterBox::new(1, 1, 2, 2))); // on an edge: of greater u
    /// assert_eq!(holding(31, 64), Some(QuarterBox::new(0, 2, 1, 3))); // of greater v
    /// assert_eq!(holding(32, 64), Some(QuarterBox::new(1, 2, 2, 3))); // of both
    /// assert_eq!(holding(255, 127), Some(QuarterBox::new(7, 3, 8, 4)));
    /// assert_eq!(holding(256, 128), Some(QuarterBox::new(7, 3, 8, 4))); // at the far edges: the last
    /// assert_eq!(holding(257, 0), None);
    /// assert_eq!(holding(0, 129), None);
    /// assert_eq!(QuarterBox::holding(9, 1, Point::new(0, 0)), None);
    /// ```
    pub fn holding(w: usize, h: usize, point: Point) -> Option<QuarterBox> {
        if places(w, h) == 0 || point.u > 128 * w || point.v > 128 * h {
            return None;
        }
        let (u, v) = ((point.u / 32).min(4 * w - 1), (point.v / 32).min(4 * h - 1));
        Some(QuarterBox::new(u, v, u + 1, v + 1))
    }

    pub(crate) fn corners(self) -> [usize; 4] {
        [self.u0, self.v0, self.u1, self.v1]
    }
}
