//! The levels under boxes, the quarter square that holds a point, and where a display draws its dot.
use kiln::{Point, QuarterBox, Refusal, Table};

// Boxes with the level that each is raised to.
type Raised = [([usize; 4], usize)];

// Sheets with boxes: none; up to one far edge; up to both; amid the sheet; several that overlap, and a single square.
const SHEETS: [(usize, usize, &Raised); 5] = [
    (1, 1, &[]),
    (2, 1, &[([0, 0, 4, 4], 1)]),
    (2, 2, &[([3, 1, 8, 8], 2)]),
    (3, 2, &[([2, 3, 7, 5], 3)]),
    (3, 3, &[([0, 2, 9, 12], 1), ([5, 0, 12, 7], 2), ([6, 6, 8, 8], 3), ([0, 0, 1, 1], 3)]),
];

fn tables() -> Vec<(Table, &'static Raised)> {
    let table = |&(w, h, boxes): &(usize, usize, &'static Raised)| {
        let inserted = boxes.iter().fold(Table::fresh(w, h, 700).unwrap(), |table, &([u0, v0, u1, v1], level)| {
            table.insert(QuarterBox::new(u0, v0, u1, v1), level).unwrap()
        });
        (inserted, boxes)
    };
    SHEETS.iter().map(table).collect()
}

// "the greater of its old level and the one named": the greatest of the boxes that the quarter square lies in.
fn level_of(boxes: &Raised, u: usize, v: usize) -> u8 {
    let over = |&&([u0, v0, u1, v1], _): &&([usize; 4], usize)| (u0..u1).contains(&u) && (v0..v1).contains(&v);
    boxes.iter().filter(over).map(|&(_, level)| level as u8).max().unwrap_or(0)
}

// The squares of a tree's nodes, each its low corner and its side in quarters: the parent first, then south-west,
// south-east, north-west and north-east.
fn squares(tree: &mut std::slice::Iter<u8>, [u, v, side]: [usize; 3], all: &mut Vec<[usize; 3]>) {
    all.push([u, v, side]);
    if tree.next() == Some(&4) {
        let half = side / 2;
        for (east, north) in [(0, 0), (half, 0), (0, half), (half, half)] {
            squares(tree, [u + east, v + north, half], all);
        }
    }
}

#[test]
fn under_each_box_lie_the_levels_of_its_quarter_squares() {
    let mut several = 0;
    for (table, boxes) in tables() {
        let mut nodes = Vec::new();
        squares(&mut table.tree().iter(), [0, 0, 32], &mut nodes);
        assert_eq!(nodes.len(), table.tree().len());
        let (wide, high) = (4 * table.width(), 4 * table.height());
        for (u0, u1) in (0..wide).flat_map(|u0| (u0 + 1..=wide).map(move |u1| (u0, u1))) {
            for (v0, v1) in (0..high).flat_map(|v0| (v0 + 1..=high).map(move |v1| (v0, v1))) {
                let levels = (u0..u1).flat_map(|u| (v0..v1).map(move |v| level_of(boxes, u, v)));
                let due = (levels.clone().min().unwrap(), levels.max().unwrap());
                let under = table.least_level(QuarterBox::new(u0, v0, u1, v1)).unwrap();
                assert_eq!((under.least, under.greatest), due, "{u0}, {v0} to {u1}, {v1}");
                // The nodes whose squares share area with the box: where a square does, its parents' do too.
                let shares = |[u, v, side]: [usize; 3]| u < u1 && u0 < u + side && v < v1 && v0 < v + side;
                assert_eq!(under.visited, nodes.iter().filter(|&&square| shares(square)).count());
                several += usize::from(due.0 < due.1);
            }
        }
    }
    assert!(several > 1_000, "{several}");
}

#[test]
fn the_nodes_visited_are_those_that_share_area_with_the_box() {
    // Splits of 32, 16 and 8 quarters a side, of whose corner four by four have level 1.
    let table = Table::fresh(2, 1, 0).unwrap().insert(QuarterBox::new(0, 0, 4, 4), 1).unwrap();
    for ([u0, v0, u1, v1], due) in
        [([0, 0, 4, 4], (1, 1, 4)), ([4, 0, 8, 4], (0, 0, 4)), ([3, 0, 5, 1], (0, 1, 5)), ([0, 0, 8, 4], (0, 1, 5))]
    {
        let under = table.least_level(QuarterBox::new(u0, v0, u1, v1)).unwrap();
        assert_eq!((under.least, under.greatest, under.visited), due);
    }
}

#[test]
fn a_box_with_no_area_or_past_the_sheet_is_refused() {
    for (table, _) in tables() {
        let (wide, high) = (4 * table.width(), 4 * table.height());
        for [u0, v0, u1, v1] in [
            [0, 0, wide + 1, high],
            [0, 0, wide, high + 1],
            [1, 0, 1, high],
            [0, 2, wide, 1],
            [wide, 0, wide + 1, 1],
            [0, 0, usize::MAX, usize::MAX],
        ] {
            assert_eq!(table.least_level(QuarterBox::new(u0, v0, u1, v1)), Err(Refusal::QuarterBox));
        }
    }
}

#[test]
fn of_the_quarters_that_touch_a_place_the_last_holds_it() {
    for side in 1..=8 {
        for steps in 0..=128 * side {
            let due = (0..4 * side).rfind(|q| (32 * q..=32 * (q + 1)).contains(&steps)).unwrap();
            let along_u = QuarterBox::holding(side, 1, Point::new(steps, 0)).unwrap();
            let along_v = QuarterBox::holding(1, side, Point::new(0, steps)).unwrap();
            assert_eq!(along_u, QuarterBox::new(due, 0, due + 1, 1));
            assert_eq!(along_v, QuarterBox::new(0, due, 1, due + 1));
        }
        for past in [128 * side + 1, 128 * side + 32, usize::MAX] {
            assert_eq!(QuarterBox::holding(side, 1, Point::new(past, 0)), None);
            assert_eq!(QuarterBox::holding(1, side, Point::new(0, past)), None);
        }
    }
    for (w, h) in [(0, 1), (1, 0), (9, 1), (1, 9), (usize::MAX, 1)] {
        assert_eq!(QuarterBox::holding(w, h, Point::new(0, 0)), None);
    }
}

#[test]
fn a_dot_is_drawn_from_a_box_s_low_edges_to_before_its_high_ones_and_at_far_edges() {
    let mut drawn = 0;
    for (table, boxes) in tables() {
        let (w, h) = (table.width(), table.height());
        // A high edge is in the box only where the sheet ends.
        let inside = |low: usize, high: usize, side: usize, steps: usize| {
            steps >= 32 * low && (steps < 32 * high || high == 4 * side && steps == 128 * side)
        };
        for (u, v) in (0..=128 * w).flat_map(|u| (0..=128 * h).step_by(8).map(move |v| (u, v))) {
            let dot = boxes.iter().any(|&([u0, v0, u1, v1], _)| inside(u0, u1, w, u) && inside(v0, v1, h, v));
            let quarter = QuarterBox::holding(w, h, Point::new(u, v)).unwrap();
            let under = table.least_level(quarter).unwrap();
            assert_eq!(under.greatest > 0, dot, "at {u} {v} of {w} by {h}");
            // One quarter square has one level.
            assert_eq!(under.least, under.greatest);
            drawn += usize::from(dot);
        }
    }
    assert!(drawn > 1_000, "{drawn}");
}
