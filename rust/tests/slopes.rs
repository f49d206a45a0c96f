//! The watts and both slopes at a point, beside the exact readings around it, and the arrow.
use kiln::{level_places, places, Arrow, Point, QuarterBox, Refusal, Table, WattsAndSlopes, Way};
use kiln::{DENOMINATOR, GREATEST_SLOPE, SLOPE_BOUND};

// A table of level 0 coefficients by their places from the low corner.
fn unrefined(w: usize, h: usize, number: impl Fn(i64, i64) -> i64) -> Table {
    let row = w as i64 + 3;
    let mut numbers: Vec<i64> = (0..level_places(w, h, 0) as i64).map(|k| number(k % row, k / row)).collect();
    numbers.resize(places(w, h), 0);
    Table::from_parts(w, h, &[0], &numbers).unwrap()
}

// A table of 3 by 2 whose watts bend in both directions, two refined copies of it, and one with a coefficient of the
// finest level changed.
fn tables() -> [Table; 4] {
    let plain = unrefined(3, 2, |a, b| 900 * a - 71 * a * a * b + 350 * b * b - 2_000 + 13 * (a * 5 + b * 7) % 400);
    let raised = |table: &Table, [u0, v0, u1, v1]: [usize; 4], level| {
        table.insert(QuarterBox::new(u0, v0, u1, v1), level).unwrap()
    };
    let whole = raised(&plain, [0, 0, 12, 8], 1);
    let finer = raised(&raised(&plain, [2, 1, 9, 6], 2), [5, 2, 12, 8], 3);
    let mut changed = finer.clone();
    changed.set(3, 18, 12, 5_000 << 18).unwrap();
    [plain, whole, finer, changed]
}

fn close(slope: f64, due: f64) -> bool {
    (slope - due).abs() <= SLOPE_BOUND
}

// The slope along one direction from exact readings there: inside a cell of level 3 they are a cubic, which four of
// them, five steps apart, determine by their differences.
fn derivative(side: usize, steps: usize, exact: impl Fn(usize) -> i64) -> f64 {
    let first = 16 * (steps / 16).min(8 * side - 1);
    let k = (steps - first) as i128;
    let [a, b, c, d] = [0, 5, 10, 15].map(|apart| i128::from(exact(first + apart)));
    let (one, two, three) = (b - a, c - 2 * b + a, d - 3 * c + 3 * b - a);
    let times_750 = 150 * one + 15 * (2 * k - 5) * two + (3 * k * k - 30 * k + 50) * three;
    16.0 * times_750 as f64 / (750.0 * DENOMINATOR as f64)
}

// Points at knots and between, far edges included.
fn points(w: usize, h: usize) -> impl Iterator<Item = Point> {
    let along_u = (0..=128 * w).step_by(8).chain([1, 127, 128 * w - 1]);
    along_u.flat_map(move |u| (0..=128 * h).step_by(32).chain([7, 255]).map(move |v| Point::new(u, v)))
}

#[test]
fn each_slope_is_the_derivative_of_the_exact_readings() {
    let mut apart = 0;
    for table in tables() {
        let exact = |u, v| table.exact(Point::new(u, v)).unwrap();
        for point in points(3, 2) {
            let at = table.slopes(point).unwrap();
            let along_u = derivative(3, point.u, |u| exact(u, point.v));
            let along_v = derivative(2, point.v, |v| exact(point.u, v));
            assert!(close(at.along_u, along_u) && close(at.along_v, along_v), "{at:?}, not {along_u} and {along_v}");
            let watts = exact(point.u, point.v) as f64 / DENOMINATOR as f64;
            assert!((at.watts - watts).abs() <= 1.0 / f64::from(1 << 30), "{at:?}, not {watts}");
            apart += usize::from(along_u.abs() > 1.0 && along_v.abs() > 1.0 && (along_u - along_v).abs() > 1.0);
        }
    }
    assert!(apart > 1_000, "{apart}");
}

#[test]
fn refining_moves_no_slope() {
    let [plain, whole, finer, _] = tables();
    for point in points(3, 2) {
        let due = plain.slopes(point).unwrap();
        for at in [&whole, &finer].map(|table| table.slopes(point).unwrap()) {
            // Both are within the bound of one exact slope.
            assert!((at.along_u - due.along_u).abs() <= 2.0 * SLOPE_BOUND, "{at:?} {due:?}");
            assert!((at.along_v - due.along_v).abs() <= 2.0 * SLOPE_BOUND, "{at:?} {due:?}");
        }
    }
}

// Of "(1-t)^3, 3t^3-6t^2+4, -3t^3+3t^2+3t+1 and t^3, each over 6" the derivatives at t 0 are -3, 0, 3 and 0, and at t 1
// they are 0, -3, 0 and 3, each over 6; the splines there are 1, 4, 1, 0 and 0, 1, 4, 1. An eighth of a cell is 1/8.
#[test]
fn one_function_has_the_slopes_of_its_splines() {
    let (near, far) = ([-3, 0, 3, 0], [0, -3, 0, 3]);
    let (near_value, far_value) = ([1, 4, 1, 0], [0, 1, 4, 1]);
    for (i, j) in (0..4).flat_map(|i| (0..4).map(move |j| (i, j))) {
        let table = unrefined(1, 1, |a, b| if (a, b) == (i, j) { 6_000 } else { 0 });
        for (u, v) in [(0, 0), (0, 128), (128, 0), (128, 128)] {
            let (slope_u, value_u) = if u == 0 { (near, near_value) } else { (far, far_value) };
            let (slope_v, value_v) = if v == 0 { (near, near_value) } else { (far, far_value) };
            let (i, j) = (i as usize, j as usize);
            let at = table.slopes(Point::new(u, v)).unwrap();
            let due = [slope_u[i] * value_v[j], value_u[i] * slope_v[j]].map(|n| f64::from(n) * 6_000.0 / 36.0 / 8.0);
            assert!(close(at.along_u, due[0]) && close(at.along_v, due[1]), "{at:?} {due:?}");
        }
    }
}

#[test]
fn no_slope_is_greater_than_the_greatest() {
    // Level 3 over a whole sheet of 8 by 8, all coefficients at their limits: along u those of the first columns are
    // below zero, along v those of the first rows.
    let limit = 32_000_i64 << 18;
    let table = |below: &dyn Fn(usize, usize) -> bool| {
        let mut numbers = vec![0; places(8, 8) - level_places(8, 8, 3)];
        numbers.extend((0..67 * 67).map(|k| if below(k % 67, k / 67) { -limit } else { limit }));
        Table::from_parts(8, 8, &[3], &numbers).unwrap()
    };
    let middle = Point::new(16 * 30 + 8, 16 * 40 + 8);
    let along_u = table(&|a, _| a < 32).slopes(middle).unwrap();
    assert!(close(along_u.along_u, GREATEST_SLOPE) && close(along_u.along_v, 0.0), "{along_u:?}");
    assert_eq!((along_u.hotter(), along_u.quicker(), along_u.arrow()), (Way::More, Way::Even, Arrow::Hotter));
    let along_v = table(&|_, b| b >= 42).slopes(middle).unwrap();
    assert!(close(along_v.along_u, 0.0) && close(along_v.along_v, -GREATEST_SLOPE), "{along_v:?}");
    assert_eq!((along_v.hotter(), along_v.quicker(), along_v.arrow()), (Way::Even, Way::Less, Arrow::Hotter));
    let most = [table(&|a, b| (a * 7 + b * 3) % 4 < 2), table(&|a, b| a % 4 < 2 && b % 5 < 3)];
    for (table, point) in most.iter().flat_map(|t| (0..200).map(move |k| (t, Point::new(5 * k, 4 * k + k % 13)))) {
        let at = table.slopes(point).unwrap();
        assert!(at.along_u.abs() <= GREATEST_SLOPE + SLOPE_BOUND && at.along_v.abs() <= GREATEST_SLOPE + SLOPE_BOUND);
    }
}

// Watts that rise by the same along u and along v: where the sheet is turned over its diagonal, nothing changes.
#[test]
fn a_table_that_is_the_same_both_ways_has_an_even_arrow() {
    let table = unrefined(2, 2, |a, b| 300 * (a + b) - 40 * a * b);
    for point in (0..=256).step_by(8).map(|both| Point::new(both, both)) {
        let at = table.slopes(point).unwrap();
        assert_eq!((at.hotter(), at.arrow()), (at.quicker(), Arrow::Even));
    }
    let at = table.slopes(Point::new(200, 60)).unwrap();
    let turned = table.slopes(Point::new(60, 200)).unwrap();
    assert!(close(at.along_u, turned.along_v) && close(at.along_v, turned.along_u));
    assert_eq!((at.arrow(), turned.arrow()), (Arrow::Hotter, Arrow::Quicker));
}

#[test]
fn a_point_off_the_sheet_is_refused() {
    for table in tables() {
        for (u, v) in [(385, 0), (0, 257), (385, 257), (usize::MAX, 0), (0, usize::MAX)] {
            assert_eq!(table.slopes(Point::new(u, v)), Err(Refusal::Point));
        }
        assert!(table.slopes(Point::new(384, 256)).is_ok());
    }
}

#[test]
fn a_level_table_has_no_slopes() {
    for (w, h) in [(1, 1), (8, 1), (3, 8)] {
        let table = Table::fresh(w, h, -700).unwrap();
        for point in [Point::new(0, 0), Point::new(128 * w, 128 * h), Point::new(33, 77)] {
            let WattsAndSlopes { watts, along_u, along_v } = table.slopes(point).unwrap();
            assert!((watts + 700.0).abs() <= 1.0 / f64::from(1 << 30) && close(along_u, 0.0) && close(along_v, 0.0));
        }
    }
}
