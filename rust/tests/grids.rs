//! Grids: each has the readings of its table, and gives back the one table over a tree with those readings, or none.
use kiln::{grid_length, level_places, places, Point, QuarterBox, Refusal, Table, DENOMINATOR, GRID_BYTES};

const SHEETS: [(usize, usize); 4] = [(1, 1), (3, 2), (2, 5), (8, 8)];

// A table whose coefficients of level 0 differ.
fn plain(w: usize, h: usize) -> Table {
    let mut numbers: Vec<i64> = (0..level_places(w, h, 0) as i64).map(|k| k * k * 71 % 4_001 - 2_000).collect();
    numbers.resize(places(w, h), 0);
    Table::from_parts(w, h, &[0], &numbers).unwrap()
}

fn raised(table: &Table, [u0, v0, u1, v1]: [usize; 4], level: usize) -> Table {
    table.insert(QuarterBox::new(u0, v0, u1, v1), level).unwrap()
}

// Refined copies of a table, none of which moves a reading: each level throughout, and boxes on odd quarters.
fn refined(table: &Table) -> Vec<Table> {
    let (u, v) = (4 * table.width(), 4 * table.height());
    let mut made: Vec<Table> = (1..=3).map(|level| raised(table, [0, 0, u, v], level)).collect();
    let boxed = raised(&raised(table, [0, 0, 3, v - 1], 2), [1, 2, 2, 3], 3);
    made.extend([raised(&boxed, [u - 3, v - 3, u, v], 1), raised(&made[0], [u - 3, v - 3, u, v], 3), boxed]);
    made
}

// The same table with each active coefficient moved a little, so that a grid comes of all levels.
fn moved(mut table: Table) -> Table {
    for level in 0..4 {
        let (row, activity) = ((table.width() << level) + 3, table.activity(level).unwrap());
        for (k, _) in activity.iter().enumerate().filter(|(_, &active)| active) {
            let (i, j) = ((k % row) as i64 - 3, (k / row) as i64 - 3);
            table.set(level, i, j, (k as i64 * 7_919 + 3) % (31_000 << (6 * level))).unwrap();
        }
    }
    table
}

// The numbers of a grid, which stand after two heads and the sides.
fn numbers_of(grid: &[u8]) -> Vec<i64> {
    let number = |bytes: &[u8]| bytes[1..].iter().fold(i64::from(bytes[0] as i8), |n, &b| 256 * n + i64::from(b));
    grid[8..].chunks(5).map(number).collect()
}

#[test]
fn a_grid_reads_as_its_table_does() {
    for (w, h) in SHEETS {
        for table in refined(&plain(w, h)).into_iter().map(moved) {
            let (grid, row) = (table.to_grid(), 8 * w + 3);
            assert_eq!(grid.len(), grid_length(w, h));
            assert_eq!((grid[..5].to_vec(), grid[5]), (vec![1, 0, 2, w as u8, h as u8], 19));
            assert_eq!(256 * usize::from(grid[6]) + usize::from(grid[7]) + 8, grid.len());
            let numbers = numbers_of(&grid);
            // At a corner of level 3 cells the splines are 1, 4 and 1 over 6, and D is 36 × 64^3 × 2^24.
            assert_eq!(DENOMINATOR, (36 * 64_i64.pow(3)) << 24);
            for (a, b) in (0..=8 * w).step_by(3).flat_map(|a| (0..=8 * h).map(move |b| (a, b))) {
                let along = |b: usize| numbers[b * row + a] + 4 * numbers[b * row + a + 1] + numbers[b * row + a + 2];
                let due = (along(b) + 4 * along(b + 1) + along(b + 2)) << 24;
                assert_eq!(table.exact(Point::new(16 * a, 16 * b)), Ok(due), "{w} by {h} at {a}, {b}");
            }
        }
    }
}

#[test]
fn tables_that_read_the_same_have_one_grid_and_come_of_it_by_their_trees() {
    for (w, h) in SHEETS {
        let table = plain(w, h);
        let (grid, copies) = (table.to_grid(), refined(&table));
        assert_eq!(Table::from_grid(&grid, table.tree()).as_ref(), Ok(&table));
        for copy in &copies {
            assert_eq!(copy.to_grid(), grid);
            assert_eq!(Table::from_grid(&grid, copy.tree()).as_ref(), Ok(copy));
        }
        // The whole sheet at level 3 has the numbers of the grid.
        let finest = copies[2].numbers();
        assert_eq!(finest[finest.len() - level_places(w, h, 3)..], numbers_of(&grid));
    }
}

#[test]
fn a_table_comes_of_its_grid_over_its_own_and_over_finer_trees_alone() {
    for (w, h) in SHEETS {
        let table = plain(w, h);
        for other in refined(&table).into_iter().map(moved) {
            let grid = other.to_grid();
            assert_eq!(Table::from_grid(&grid, other.tree()).as_ref(), Ok(&other));
            let finer = raised(&other, [0, 1, 4 * w - 1, 4 * h], 3);
            assert_eq!(Table::from_grid(&grid, finer.tree()).as_ref(), Ok(&finer));
            // The coefficients that were moved have functions that the unrefined sheet lacks.
            assert_eq!(Table::from_grid(&grid, table.tree()), Err(Refusal::NoTable));
        }
    }
}

#[test]
fn coefficients_that_would_not_be_whole_or_be_past_their_limit_are_no_tables() {
    let grid_of = |number: i64| [&[1, 0, 2, 1, 1, 19, 2, 93][..], &number.to_be_bytes()[3..].repeat(121)].concat();
    let trees: Vec<Vec<u8>> = refined(&plain(1, 1)).iter().take(3).map(|table| table.tree().to_vec()).collect();
    for (level, tree) in [vec![0]].iter().chain(&trees).enumerate() {
        let unit = 64_i64.pow(3 - level as u32);
        for number in [unit, -unit, 7 * unit, 32_000 << 18, -32_000 << 18] {
            let table = Table::from_grid(&grid_of(number), tree).unwrap();
            assert!(table.numbers().iter().all(|&one| one == 0 || one == number / unit));
            assert_eq!(table.to_grid(), grid_of(number));
            if level < 3 {
                assert_eq!(Table::from_grid(&grid_of(number - number.signum()), tree), Err(Refusal::NoTable));
            }
        }
        assert_eq!(Table::from_grid(&grid_of((32_000 << 18) + 1), tree), Err(Refusal::CoefficientLimit));
    }
    // One coefficient of level 0 alone is 15/64 of it at most along each side of level 3, so its grid is far from the
    // limit there. The sum of two such grids is that of the sum.
    let corner = |number| {
        let mut table = Table::fresh(1, 1, 0).unwrap();
        table.set(0, -3, -3, number).unwrap();
        table.to_grid()
    };
    for (number, more) in [(32_000, 1), (-32_000, -1)] {
        let sums = numbers_of(&corner(number)).into_iter().zip(numbers_of(&corner(more))).map(|(a, b)| a + b);
        let bytes: Vec<u8> = sums.flat_map(|number| number.to_be_bytes()[3..].to_vec()).collect();
        let grid = [&grid_of(0)[..8], &bytes].concat();
        assert_eq!(Table::from_grid(&grid, &[0]), Err(Refusal::NoTable));
        // Half of it along each side of level 1, in units of 1/64 watt.
        assert_eq!(Table::from_grid(&grid, &trees[0]).unwrap().numbers()[16], 16 * (number + more));
    }
}

#[test]
fn a_grid_is_judged_in_byte_order_and_then_the_tree() {
    let (table, equal) = (plain(3, 2), [4, 0, 0, 0, 0]);
    let grid = table.to_grid();
    let judged = |grid: &[u8]| Table::from_grid(grid, &equal).unwrap_err();
    let with = |at: usize, byte: u8| {
        let mut other = grid.clone();
        other[at] = byte;
        judged(&other)
    };
    assert!((0..grid.len()).all(|cut| judged(&grid[..cut]) == Refusal::FileEnds));
    assert_eq!([with(0, 2), with(5, 2), with(5, 3)], [Refusal::FileTag; 3]);
    assert_eq!([with(2, 3), with(7, 0), with(3, 2)], [Refusal::FileFieldLength; 3]);
    assert_eq!([with(3, 0), with(4, 9), with(8, 127)], [Refusal::Side, Refusal::Side, Refusal::CoefficientLimit]);
    for end in [&[0][..], &[32], &[32, 0, 2, 79, 75]] {
        assert_eq!(judged(&[&grid[..], end].concat()), Refusal::FileGoesOn);
    }
    assert_eq!(judged(&grid), Refusal::Tree);
    assert_eq!(Table::from_grid(&grid, &[]), Err(Refusal::Tree));
    assert_eq!(Table::from_grid(&grid, &[1]), Err(Refusal::Tree)); // it reaches beyond the sheet
    assert_eq!(Table::from_file(&grid), Err(Refusal::FileTag));
}

#[test]
fn the_first_bytes_of_a_long_grid_decide() {
    // Past the longest grid a number is given by the first bytes. It is never 12: both heads and the longest body are
    // among them whole.
    for (w, h) in SHEETS {
        let table = plain(w, h);
        let (grid, finest) = (table.to_grid(), raised(&table, [0, 0, 4 * w, 4 * h], 3));
        for (at, byte, due) in [
            (0, 2, Refusal::FileTag),
            (5, 3, Refusal::FileTag),
            (1, 1, Refusal::FileFieldLength),
            (7, 0, Refusal::FileFieldLength),
            (3, w as u8 % 8 + 1, Refusal::FileFieldLength),
            (4, 9, Refusal::Side),
            (8, 127, Refusal::CoefficientLimit),
            (grid.len() - 5, 128, Refusal::CoefficientLimit),
            (0, 1, Refusal::FileGoesOn),
        ] {
            for after in [0, 32] {
                let mut long = grid.clone();
                long[at] = byte;
                long.resize(GRID_BYTES + 100, after);
                for tree in [finest.tree(), &[4, 0, 0, 0, 0]] {
                    assert_eq!(Table::from_grid(&long, tree), Err(due));
                    assert_eq!(Table::from_grid(&long[..GRID_BYTES + 1], tree), Err(due));
                }
            }
        }
    }
}
