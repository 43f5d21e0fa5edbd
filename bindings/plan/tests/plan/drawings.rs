//! Which drawings are read, as which cells, and what is said of those that are not.
use plan::drawing;
use runcedau::{Cell, Map, Refusal};

fn cells(text: &str) -> Vec<(i64, i64)> {
    let made = drawing::read(text.as_bytes()).unwrap_or_else(|wrong| panic!("{wrong}\n{text}"));
    made.cells.iter().map(|cell| (cell.x, cell.y)).collect()
}

#[test]
fn bare_rows_begin_at_the_bottom_left() {
    assert_eq!(cells("..#\n#..\n"), [(0, 0), (2, 1)]);
    assert_eq!(cells("from -5,7\n. . #\n# . .\n"), [(-5, 7), (-3, 8)]);
    assert_eq!(cells("\n\n#\n\n"), [(0, 0)]);
    assert_eq!(cells("#\r\n#\r\n"), [(0, 0), (0, 1)]);
    assert_eq!(cells("#.\n.\n##"), [(0, 0), (0, 2), (1, 0)]);
}

#[test]
fn labels_name_the_rows_and_columns() {
    assert_eq!(cells("7 #.\n-3 .#\n"), [(0, 7), (1, -3)]);
    assert_eq!(
        cells("columns 4 to 5\n 2 #.\n\n 1 .#\nx: 4 5\nq\n"),
        [(4, 2), (5, 1)]
    );
    let cut = "columns 0 to 1, 900 to 901\n 9 .#~#.\n   ~~~~~\n 1 #\n";
    assert_eq!(cells(cut), [(0, 1), (1, 9), (900, 9)]);
}

#[test]
fn every_mark_is_read() {
    assert_eq!(cells("#BOX.ox#"), [(0, 0), (1, 0), (2, 0), (3, 0), (7, 0)]);
}

#[test]
fn settings_are_read() {
    let made = drawing::read(b"cell size 0.1\n  radius 1e-300\n").unwrap();
    assert_eq!((made.size, made.radius), (Some(0.1), Some(1e-300)));
    assert!(made.cells.is_empty());
    assert_eq!(drawing::read(b"#").unwrap().size, None);
}

#[test]
fn what_is_wrong_is_told_with_its_place() {
    for (text, told) in [
        (
            "#.\n.q\n",
            "line 2, column 2: 'q' is no mark: # B O X are occupied, . o x are free",
        ),
        (
            "5 # é\n",
            "line 1, column 5: 'é' is no mark: # B O X are occupied, . o x are free",
        ),
        (
            "#\n\n#\n",
            "line 2, column 1: an empty line within the rows: write . for free cells",
        ),
        ("5 #\n5 .\n", "line 2, column 1: row 5 is there twice"),
        (
            "5 #\n#\n",
            "line 2, column 1: a row without a label after rows with one",
        ),
        (
            "#\n5 #\n",
            "line 2, column 1: a row with a label after rows without",
        ),
        ("#~#\n", "line 1, column 2: no columns are left out here"),
        (
            "columns 0 to 1\n5 ...\n",
            "line 2, column 5: the row has more marks than columns",
        ),
        (
            "columns 0 to 1, 9 to 9\n5 ...\n",
            "line 2, column 5: here columns are left out: write ~",
        ),
        (
            "columns 0 to 1\n#.\n",
            "line 2, column 1: a line 'columns' is for rows with labels",
        ),
        (
            "from 1,1\n5 #\n",
            "line 2, column 1: a line 'from' is for rows without labels",
        ),
        (
            "cell size big\n",
            "line 1, column 11: a number is wanted here, not 'big'",
        ),
        (
            "  radius\t1\n",
            "line 1, column 3: 'r' is no mark: # B O X are occupied, . o x are free",
        ),
        (
            "from 3\n",
            "line 1, column 6: a cell as X,Y is wanted here, not '3'",
        ),
        (
            "radius 1\nradius 2\n",
            "line 2, column 8: this is said a second time",
        ),
        (
            "columns 5 to 3\n",
            "line 1, column 9: 'X to X', ascending, is wanted here, not '5 to 3'",
        ),
    ] {
        let wrong = drawing::read(text.as_bytes()).expect_err(text);
        assert_eq!(wrong.to_string(), told, "{text}");
    }
    let wrong = drawing::read(b"#.\n.\xff").expect_err("no text");
    assert_eq!(
        wrong.to_string(),
        "line 2, column 2: this is no text, as a drawing is"
    );
}

#[test]
fn the_limits_are_those_of_the_library() {
    let cell = |x: i64, y: i64| Cell::new(x, y);
    let refused = |size, radius, cells: &[Cell]| Map::of_cells(size, radius, cells).err();
    assert_eq!(refused(0.0, 1.0, &[]), Some(Refusal::CellSize));
    assert_eq!(refused(1.0, -1.0, &[]), Some(Refusal::Radius));
    assert_eq!(
        refused(1.0, 1.0, &[cell(0, 1_048_577)]),
        Some(Refusal::Coordinate)
    );
    assert_eq!(
        refused(1.0, 1.0, &[cell(i64::MIN, i64::MAX)]),
        Some(Refusal::Coordinate)
    );
    let row: Vec<Cell> = (0..1025).map(|x| cell(x, 0)).collect();
    assert_eq!(refused(1.0, 1.0, &row), Some(Refusal::TooManyCells));
    assert_eq!(refused(1.0, 1.0, &row[1..]), None);
    let lone: Vec<Cell> = (0..17).map(|x| cell(9 * x, 5 * x)).collect();
    assert_eq!(refused(1.0, 1.0, &lone), Some(Refusal::TooManyPoints));
    assert_eq!(refused(1.0, 1.0, &lone[1..]), None);
}

/// No numbers overflow, and a long stretch takes no memory.
#[test]
fn rows_and_columns_at_the_ends_of_the_numbers() {
    let far = format!("from {0},{0}\n##\n##\n", i64::MAX);
    assert!(drawing::read(far.as_bytes()).is_err());
    let wide = format!("columns {} to {}\n{} #\n", i64::MIN, i64::MAX, i64::MIN);
    assert_eq!(cells(&wide), [(i64::MIN, i64::MIN)]);
}
