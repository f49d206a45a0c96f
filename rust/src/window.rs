//! A window over the records of a firing: the last of them, and their total, least and greatest.
use crate::ffi;
use crate::refusal::Refusal;

/// What is kept of a window beside its slice. By default none is held, and the first record goes to place 0.
///
/// ```
/// use kiln::WindowState;
///
/// assert_eq!(WindowState::default(), WindowState { held: 0, oldest: 0 });
/// ```
#[derive(Clone, Copy, Debug, Default, PartialEq, Eq, Hash)]
pub struct WindowState {
    /// How many records are held.
    pub held: usize,
    /// The place of the oldest record, or where none is held that of the first to come.
    pub oldest: usize,
}

/// The total, the least and the greatest of the records that a window holds.
///
/// The total of minute records in watts is in watt minutes: divided by 60 it is watt hours.
///
/// ```
/// use kiln::{Window, WindowFigures, WindowState};
///
/// let mut records = [7; 3];
/// let mut window = Window::over(&mut records, WindowState::default())?;
/// // None is held yet, whatever the slice holds: there is neither a least nor a greatest.
/// assert_eq!(window.figures(), WindowFigures { total: 0, least: None, greatest: None });
/// window.add(-90)?;
/// assert_eq!(window.figures(), WindowFigures { total: -90, least: Some(-90), greatest: Some(-90) });
/// # Ok::<(), kiln::Refusal>(())
/// ```
#[derive(Clone, Copy, Debug, PartialEq, Eq, Hash)]
pub struct WindowFigures {
    /// The sum of the records held, 0 where none is.
    pub total: i64,
    /// The least record held, if there is one.
    pub least: Option<i32>,
    /// The greatest record held, if there is one.
    pub greatest: Option<i32>,
}

/// A window over a long run of records, one for each minute of a firing and each whole watts, in a slice that is lent.
/// The slice's length is the number of its places, 1 to [`WINDOW_PLACES`](crate::WINDOW_PLACES).
///
/// A record takes the place after the newest held, and place 0 follows the last; once all places are taken it
/// overwrites the oldest. So the record k after the oldest stands at place (`oldest` + k) % places.
///
/// Of a window that begins with none held the figures are those of the last records that were accepted, as many as
/// there are places, or of all where they are fewer. Records that are refused in between have no part in them.
///
/// ```
/// use kiln::{Point, Table, Window, WindowFigures, WindowState};
///
/// let table = Table::fresh(8, 4, 1_200)?;
/// let mut records = [0; 180]; // three hours
/// let mut window = Window::over(&mut records, WindowState::default())?;
/// for minute in 0..500 {
///     window.add(table.display(Point::new(2 * minute, 200))?)?;
/// }
/// let WindowFigures { total, least, greatest } = window.figures();
/// assert_eq!((total / 60, least, greatest), (3 * 1_200, Some(1_200), Some(1_200))); // watt hours, and watts
/// # Ok::<(), kiln::Refusal>(())
/// ```
#[derive(Debug)]
pub struct Window<'a> {
    records: &'a mut [i32],
    state: WindowState,
}

impl<'a> Window<'a> {
    /// The window of a slice and a state: a new one with [`WindowState::default`], or one that goes on from the state
    /// that it had, with the slice as it was left. The slice is not written.
    ///
    /// Refused: a slice of no places or of above 1,440, a state with more held than places or with the oldest outside
    /// them, also where none is held. The refusal's number is 22, a [`Refusal::Unknown`].
    ///
    /// ```
    /// use kiln::{Refusal, Window, WindowFigures, WindowState};
    ///
    /// let mut records = [0; 3];
    /// let mut window = Window::over(&mut records, WindowState::default())?;
    /// for watts in [100, 200, 300, 400] {
    ///     window.add(watts)?;
    /// }
    /// let state = window.state();
    ///
    /// // Later, or in another program, with the slice and the state as they were left.
    /// let mut window = Window::over(&mut records, state)?;
    /// assert_eq!(window.figures().total, 200 + 300 + 400);
    /// window.add(500)?;
    /// assert_eq!(window.figures(), WindowFigures { total: 1_200, least: Some(300), greatest: Some(500) });
    ///
    /// let cause = |places, held, oldest| {
    ///     Window::over(&mut [0; 1_441][..places], WindowState { held, oldest }).err().map(Refusal::number)
    /// };
    /// assert_eq!([cause(1, 0, 0), cause(1_440, 1_440, 1_439)], [None; 2]);
    /// assert_eq!([cause(0, 0, 0), cause(1_441, 0, 0)], [Some(22); 2]);
    /// assert_eq!([cause(3, 4, 0), cause(3, 3, 3), cause(3, 0, 3)], [Some(22); 3]);
    /// # Ok::<(), Refusal>(())
    /// ```
    pub fn over(records: &'a mut [i32], state: WindowState) -> Result<Window<'a>, Refusal> {
        // The call that tells the figures judges a window, and writes nothing to it.
        ffi::window_figures(records, state.held, state.oldest, &mut (0, 0, 0, 0))?;
        Ok(Window { records, state })
    }

    /// Adds a record of whole watts, as [`Table::display`](crate::Table::display) gives them.
    ///
    /// Refused: a record beyond [`GREATEST_RECORD`](crate::GREATEST_RECORD), 32,000, in size. The window is then as it
    /// was. The refusal's number is 23, a [`Refusal::Unknown`].
    ///
    /// ```
    /// use kiln::{Refusal, Window, WindowState};
    ///
    /// // The first record goes to the place named as the oldest's, here the last of the slice; place 0 follows it.
    /// let mut records = [7; 3];
    /// let mut window = Window::over(&mut records, WindowState { held: 0, oldest: 2 })?;
    /// window.add(100)?;
    /// assert_eq!((window.records(), window.state()), (&[7, 7, 100][..], WindowState { held: 1, oldest: 2 }));
    /// window.add(200)?;
    /// window.add(-300)?;
    /// assert_eq!((window.records(), window.state()), (&[200, -300, 100][..], WindowState { held: 3, oldest: 2 }));
    ///
    /// // A full window: the oldest is overwritten, and the next place, which is place 0, becomes the oldest's.
    /// window.add(32_000)?;
    /// assert_eq!((window.records(), window.state()), (&[200, -300, 32_000][..], WindowState { held: 3, oldest: 0 }));
    ///
    /// let refused = [32_001, i64::MIN].map(|watts| window.add(watts).map_err(Refusal::number));
    /// assert_eq!(refused, [Err(23); 2]);
    /// assert_eq!((window.records(), window.state()), (&[200, -300, 32_000][..], WindowState { held: 3, oldest: 0 }));
    /// assert_eq!(window.figures().total, 200 - 300 + 32_000);
    /// # Ok::<(), Refusal>(())
    /// ```
    pub fn add(&mut self, watts: i64) -> Result<(), Refusal> {
        Ok(ffi::add_record(self.records, &mut self.state.held, &mut self.state.oldest, watts)?)
    }

    /// The total, the least and the greatest of the records held. This call is never refused.
    ///
    /// The figures are those of whatever stands at the places held: what a slice held before is not judged, and the
    /// total is exact for any.
    ///
    /// ```
    /// use kiln::{Window, WindowFigures, WindowState};
    ///
    /// let mut records = [9_999, 50, -20, 30];
    /// let window = Window::over(&mut records, WindowState { held: 3, oldest: 1 })?;
    /// assert_eq!(window.figures(), WindowFigures { total: 60, least: Some(-20), greatest: Some(50) });
    ///
    /// let mut records = [i32::MIN; 1_440];
    /// let window = Window::over(&mut records, WindowState { held: 1_440, oldest: 77 })?;
    /// assert_eq!(window.figures().total, -1_440 * (1 << 31));
    /// # Ok::<(), kiln::Refusal>(())
    /// ```
    pub fn figures(&self) -> WindowFigures {
        let mut figures = (0, 0, 0, 0);
        // Nothing is refused: the window was accepted when it was made, and each record leaves one that is.
        let told = ffi::window_figures(self.records, self.state.held, self.state.oldest, &mut figures);
        told.map_err(Refusal::from).expect("a window has figures");
        let (total, missing, least, greatest) = figures;
        let unless_missing = |figure| (missing == 0).then_some(figure);
        WindowFigures { total, least: unless_missing(least), greatest: unless_missing(greatest) }
    }

    /// How many records are held, and the place of the oldest: what [`over`](Window::over) takes to go on.
    ///
    /// ```
    /// use kiln::{Window, WindowState};
    ///
    /// let mut records = [0; 2];
    /// let mut window = Window::over(&mut records, WindowState::default())?;
    /// let states = [10, 20, 30, 40].map(|watts| window.add(watts).map(|()| window.state()));
    /// let due = [(1, 0), (2, 0), (2, 1), (2, 0)].map(|(held, oldest)| Ok(WindowState { held, oldest }));
    /// assert_eq!(states, due);
    /// # Ok::<(), kiln::Refusal>(())
    /// ```
    pub fn state(&self) -> WindowState {
        self.state
    }

    /// The whole slice as it was lent, in the order of its places. Those that are not held keep what they held.
    ///
    /// ```
    /// use kiln::{Window, WindowState};
    ///
    /// let mut records = [7; 3];
    /// let mut window = Window::over(&mut records, WindowState::default())?;
    /// window.add(100)?;
    /// assert_eq!(window.records(), [100, 7, 7]);
    /// # Ok::<(), kiln::Refusal>(())
    /// ```
    pub fn records(&self) -> &[i32] {
        self.records
    }
}
