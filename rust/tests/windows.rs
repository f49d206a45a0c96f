//! Windows: their figures are those of the last records that were accepted, and no place is written that is not due.
use kiln::{Point, Refusal, Table, Window, WindowFigures, WindowState, GREATEST_RECORD, WINDOW_PLACES};

// How many places the windows have; each takes records for more than two rounds.
const PLACES: [usize; 7] = [1, 2, 3, 7, 60, 180, WINDOW_PLACES];
const BEYOND: [i64; 6] = [32_001, -32_001, 1 << 32, -(1 << 40), i64::MIN, i64::MAX];

// Watts that differ from minute to minute, of both signs.
fn watts(minute: usize) -> i64 {
    (minute as i64 * 7_919 + 3) * (minute as i64 + 11) % (2 * GREATEST_RECORD + 1) - GREATEST_RECORD
}

// What a call gives, or the number of its refusal: the crate has no names for 22 and 23.
fn number_of<T>(given: Result<T, Refusal>) -> Result<T, u8> {
    given.map_err(Refusal::number)
}

// "equal the sum, least and greatest of the last ones accepted, as many as the window has places, or all if fewer".
fn due(accepted: &[i64], places: usize) -> WindowFigures {
    let last = &accepted[accepted.len().saturating_sub(places)..];
    let narrow = |watts: &i64| i32::try_from(*watts).unwrap();
    WindowFigures {
        total: last.iter().sum(),
        least: last.iter().min().map(narrow),
        greatest: last.iter().max().map(narrow),
    }
}

#[test]
fn the_figures_are_those_of_the_last_records_accepted() {
    for places in PLACES {
        for oldest in [0, places / 2, places - 1] {
            let (mut records, mut accepted) = (vec![-77; places], Vec::new());
            let mut window = Window::over(&mut records, WindowState { held: 0, oldest }).unwrap();
            assert_eq!(window.figures(), due(&accepted, places));
            for minute in 0..2 * places + 5 {
                // Refused records in between, runs of them among these.
                for beyond in BEYOND.iter().take(minute * minute % 11 % 4) {
                    assert_eq!(number_of(window.add(*beyond)), Err(23));
                }
                window.add(watts(minute)).unwrap();
                accepted.push(watts(minute));
                assert_eq!(window.figures(), due(&accepted, places), "{places} places, minute {minute}");
            }
        }
    }
}

// "A new record takes the place after the newest held, place 0 following the last place, and the first goes to the
// place named as the oldest's. When the window is full it overwrites the oldest, and the next place becomes the
// oldest's."
#[test]
fn each_record_is_written_to_its_place_and_to_no_other() {
    for places in PLACES {
        for oldest in [0, places / 2, places - 1] {
            let mut lent: Vec<i32> = (0..places as i32).map(|k| 40_000 + k).collect();
            let mut kept = lent.clone();
            let mut window = Window::over(&mut lent, WindowState { held: 0, oldest }).unwrap();
            for minute in 0..2 * places + 5 {
                // The places are taken one after another, from the one that was named on.
                kept[(oldest + minute) % places] = watts(minute) as i32;
                window.add(watts(minute)).unwrap();
                let (added, refused) = (minute + 1, number_of(window.add(BEYOND[minute % 6])));
                let state =
                    WindowState { held: added.min(places), oldest: (oldest + added.saturating_sub(places)) % places };
                assert_eq!((window.state(), window.records(), refused), (state, &kept[..], Err(23)));
            }
            assert_eq!(lent, kept);
        }
    }
}

// A window may be put down and taken up at any minute: what is lent is its slice and its state.
#[test]
fn a_window_goes_on_from_its_slice_and_its_state() {
    for places in PLACES {
        let (mut apart, mut whole) = (vec![5; places], vec![5; places]);
        let mut state = WindowState { held: 0, oldest: places / 3 };
        let mut window = Window::over(&mut whole, state).unwrap();
        for minute in 0..2 * places + 5 {
            let mut again = Window::over(&mut apart, state).unwrap();
            again.add(watts(minute)).unwrap();
            window.add(watts(minute)).unwrap();
            assert_eq!((again.records(), again.state()), (window.records(), window.state()));
            assert_eq!(again.figures(), window.figures());
            state = again.state();
        }
    }
}

// "a window of 0 or above 1,440 places, or more held than places, or the oldest outside them": every length about the
// limits and each state about its own.
#[test]
fn a_window_is_refused_for_its_length_or_its_state_and_left() {
    let mut lent = vec![7; 2_000];
    for places in [0, 1, 2, 5, 1_439, 1_440, 1_441, 2_000] {
        for held in [0, 1, 2, 5, 6, 1_439, 1_440, 1_441, usize::MAX] {
            for oldest in [0, 1, 2, 4, 5, 1_439, 1_440, usize::MAX] {
                let state = WindowState { held, oldest };
                let good = (1..=1_440).contains(&places) && held <= places && oldest < places;
                let judged = number_of(Window::over(&mut lent[..places], state).map(|window| window.figures()));
                let seven = if held > 0 { Some(7) } else { None };
                let figures = WindowFigures { total: 7 * held as i64, least: seven, greatest: seven };
                assert_eq!(judged, if good { Ok(figures) } else { Err(22) }, "{places} {state:?}");
            }
        }
    }
    assert_eq!(lent, [7; 2_000]);
}

// "beyond 32,000 in size": both sides of the limit, and numbers whose low half alone would be taken.
#[test]
fn a_record_is_taken_up_to_32000_in_size() {
    let mut lent = [7; 5];
    let mut window = Window::over(&mut lent, WindowState { held: 0, oldest: 4 }).unwrap();
    for beyond in BEYOND.into_iter().chain([(1 << 32) + 5, (1 << 31) - 1, 1 << 31, -(1 << 31), 1 << 16, -1 << 33]) {
        assert_eq!(number_of(window.add(beyond)), Err(23), "{beyond}");
    }
    assert_eq!((window.records(), window.state()), (&[7; 5][..], WindowState { held: 0, oldest: 4 }));
    for taken in [32_000, -32_000, 31_999, 0] {
        assert_eq!(window.add(taken), Ok(()));
    }
    assert_eq!(window.records(), [-32_000, 31_999, 0, 7, 32_000]);
    assert_eq!(window.figures(), WindowFigures { total: 31_999, least: Some(-32_000), greatest: Some(32_000) });
}

// The total is exact for any contents of the slice, and after a run at most 1,440 × 32,000 in size.
#[test]
fn no_total_is_cut() {
    for (stored, total) in [(i32::MAX, 1_440 * 2_147_483_647), (i32::MIN, -1_440 * 2_147_483_648), (-1, -1_440)] {
        let mut lent = [stored; WINDOW_PLACES];
        for oldest in [0, 1_000, 1_439] {
            let window = Window::over(&mut lent, WindowState { held: WINDOW_PLACES, oldest }).unwrap();
            assert_eq!(window.figures(), WindowFigures { total, least: Some(stored), greatest: Some(stored) });
        }
    }
    for record in [GREATEST_RECORD, -GREATEST_RECORD] {
        let mut lent = [i32::MAX; WINDOW_PLACES];
        let mut window = Window::over(&mut lent, WindowState::default()).unwrap();
        for _ in 0..WINDOW_PLACES + 9 {
            window.add(record).unwrap();
        }
        assert_eq!(window.figures().total, 46_080_000 * record.signum());
    }
}

// The watts of a display are taken as they are: those of no table are beyond the limit.
#[test]
fn records_come_of_a_table() {
    // S of document 01's bench sheet rises from 0 watts at u 0 to 1,000 at u 128.
    let mut numbers = [-1_000, 0, 1_000, 2_000].repeat(4);
    numbers.resize(kiln::places(1, 1), 0);
    let table = Table::from_parts(1, 1, &[0], &numbers).unwrap();
    let mut lent = [0; 3];
    let mut window = Window::over(&mut lent, WindowState::default()).unwrap();
    for u in [0, 128, 64, 96] {
        window.add(table.display(Point::new(u, 5)).unwrap()).unwrap();
    }
    let due = WindowFigures { total: 1_000 + 500 + 750, least: Some(500), greatest: Some(1_000) };
    assert_eq!((window.figures(), window.records()), (due, &[750, 1_000, 500][..]));
    for watts in [32_000, -32_000] {
        let flat = Table::fresh(8, 8, watts).unwrap();
        window.add(flat.display(Point::new(1_024, 77)).unwrap()).unwrap();
    }
    assert_eq!(window.figures().total, 750);
}
