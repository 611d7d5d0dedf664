//! The fill sheet: whole sheets spelt out, its pages, what is refused, and what the other calls say of the same fill.
use lilacpliers::*;

fn matrix(n: usize, entries: &[(usize, usize)]) -> Matrix {
    let entries: Vec<_> = entries.iter().map(|&(i, j)| (i, j, if i == j { 4.0 } else { -1.0 })).collect();
    Matrix::from_triplets(n, &entries).unwrap()
}

fn unit(n: usize) -> Matrix {
    matrix(n, &(0..n).map(|k| (k, k)).collect::<Vec<_>>())
}

fn tridiagonal(n: usize) -> Matrix {
    let beside = (1..n).flat_map(|k| [(k - 1, k), (k, k - 1)]);
    matrix(n, &(0..n).map(|k| (k, k)).chain(beside).collect::<Vec<_>>())
}

/// A matrix with a full first row, first column and diagonal: everything fills.
fn arrow(n: usize) -> Matrix {
    let border = (1..n).flat_map(|k| [(0, k), (k, 0)]);
    matrix(n, &(0..n).map(|k| (k, k)).chain(border).collect::<Vec<_>>())
}

fn backwards(n: usize) -> Orders {
    let order: Vec<usize> = (0..n).rev().collect();
    Orders::new(&order, &order).unwrap()
}

fn sheet(matrix: &Matrix, orders: &Orders) -> String {
    Structure::fill_sheet(matrix, orders).unwrap().1
}

/// The five numbers of a line: place, own row, length of the lower row, length of the upper list, run start.
type Line = [usize; 5];

/// The sheet of these lines.
fn pages(lines: &[Line]) -> String {
    let mut text = String::new();
    for (number, page) in lines.chunks(49).enumerate() {
        text += &format!("FILL{:>36}\n", number + 1);
        text.extend(page.iter().map(|[k, own, lower, upper, run]| format!("{k:6}{own:8}{lower:8}{upper:8}{run:10}\n")));
        text += &format!("{:40}\n", "").repeat(49 - page.len());
    }
    text
}

/// The filled positions by place, by elimination on a table of truth values.
fn filled(matrix: &Matrix, orders: &Orders) -> Vec<Vec<bool>> {
    let n = matrix.rows();
    let mut table = vec![vec![false; n]; n];
    for (k, &own) in orders.rows().iter().enumerate() {
        for (column, _) in matrix.row(usize::from(own)) {
            let place = orders.columns().iter().position(|&own| usize::from(own) == column).unwrap();
            table[k][place] = true;
        }
    }
    for k in 0..n {
        let (above, below) = table.split_at_mut(k + 1);
        for row in below.iter_mut().filter(|row| row[k]) {
            row[k + 1..].iter_mut().zip(&above[k][k + 1..]).for_each(|(to, from)| *to |= from);
        }
    }
    table
}

/// Compares a sheet with the filled positions and with the run starts of the structure call.
fn check(matrix: &Matrix, orders: &Orders) {
    let (found, sheet) = Structure::fill_sheet(matrix, orders).unwrap();
    let structure = Structure::find(Form::Shared, matrix, orders).unwrap();
    assert_eq!(found, structure);
    let table = filled(matrix, orders);
    let count = |part: &[bool]| part.iter().filter(|&&filled| filled).count();
    let line = |k: usize| {
        let (lower, upper) = (count(&table[k][..k]), count(&table[k][k + 1..]));
        [k, usize::from(orders.rows()[k]), lower, upper, structure.run(Side::Upper, k)]
    };
    assert_eq!(sheet, pages(&(0..matrix.rows()).map(line).collect::<Vec<_>>()));
}

#[test]
fn five_places_whole() {
    // By place: row 0 has 0, 2, 3; row 1 has 1; row 2 has 0, 2; row 3 has 0, 1, 3, 4; row 4 has 2, 4. Filled are
    // besides (2, 3), (3, 2) and (4, 3). The upper lists 2 3, none, 3, 4, none stand in the slots 2 3 4.
    let (rows, columns) = ([2, 0, 4, 1, 3], [1, 3, 0, 2, 4]);
    let places = [(0, 0), (0, 2), (0, 3), (1, 1), (2, 0), (2, 2), (3, 0), (3, 1), (3, 3), (3, 4), (4, 2), (4, 4)];
    let matrix = matrix(5, &places.map(|(k, j)| (rows[k], columns[j])));
    let (structure, sheet) = Structure::fill_sheet(&matrix, &Orders::new(&rows, &columns).unwrap()).unwrap();
    let lines = [
        "FILL                                   1\n",
        "     0       2       0       2         0\n",
        "     1       0       0       0         2\n",
        "     2       4       1       1         1\n",
        "     3       1       3       1         2\n",
        "     4       3       2       0         3\n",
    ];
    let blank = "                                        \n";
    assert_eq!(sheet, lines.concat() + &blank.repeat(44));
    assert_eq!(sheet.len(), 2_050);
    assert_eq!(structure.counts(), Counts { lower: 6, upper: 4, products: 7 });
    assert_eq!(structure.form(), Form::Shared);
    assert_eq!(structure.slots(), Slots { lower_index: 3, lower_values: 6, upper_index: 3, upper_values: 4 });
}

#[test]
fn one_place() {
    let head = "FILL                                   1\n     0       0       0       0         0\n";
    let blank = "                                        \n";
    assert_eq!(sheet(&unit(1), &Orders::natural(1)), head.to_string() + &blank.repeat(48));
}

/// Each list of a tridiagonal matrix has a slot of its own, so run k is k.
#[test]
fn a_page_has_49_places() {
    for (n, count) in [(1, 1), (48, 1), (49, 1), (50, 2), (98, 2), (99, 3), (4_096, 84)] {
        let sheet = sheet(&tridiagonal(n), &Orders::natural(n));
        assert_eq!(sheet.len(), 2_050 * count, "n = {n}");
        let line = |k| [k, k, usize::from(k > 0), usize::from(k + 1 < n), k];
        assert_eq!(sheet, pages(&(0..n).map(line).collect::<Vec<_>>()), "n = {n}");
    }
}

#[test]
fn the_page_turns_behind_place_48() {
    let whole = sheet(&tridiagonal(49), &Orders::natural(49));
    assert_eq!(whole.lines().last(), Some("    48      48       1       0        48"));
    let two = sheet(&tridiagonal(50), &Orders::natural(50));
    let lines: Vec<&str> = two.lines().collect();
    assert_eq!(lines.len(), 100);
    let turn = [
        "    48      48       1       1        48",
        "FILL                                   2",
        "    49      49       1       0        49",
        "                                        ",
    ];
    assert_eq!(lines[49..53], turn);
    assert!(lines[53..].iter().all(|&line| line == turn[3]));
}

#[test]
fn every_line_has_40_characters() {
    for (matrix, orders) in [(tridiagonal(4_096), backwards(4_096)), (arrow(1_448), Orders::natural(1_448))] {
        let sheet = sheet(&matrix, &orders);
        assert!(sheet.split_terminator('\n').all(|line| line.len() == 40) && sheet.ends_with('\n'));
        assert_eq!(sheet.lines().count(), 50 * matrix.rows().div_ceil(49));
    }
}

/// All lists of the arrow are tails of the first; in the other order nothing fills, and all have one slot in common.
#[test]
fn stores_that_must_grow() {
    let n = 200;
    let (structure, sheet) = Structure::fill_sheet(&arrow(n), &Orders::natural(n)).unwrap();
    assert_eq!(sheet, pages(&(0..n).map(|k| [k, k, k, n - 1 - k, k]).collect::<Vec<_>>()));
    assert_eq!(structure.counts().lower, 199 * 200 / 2);
    let (structure, sheet) = Structure::fill_sheet(&arrow(n), &backwards(n)).unwrap();
    let line = |k| if k < n - 1 { [k, n - 1 - k, 0, 1, 0] } else { [k, 0, k, 0, 1] };
    assert_eq!(sheet, pages(&(0..n).map(line).collect::<Vec<_>>()));
    assert_eq!(structure.counts().lower, 199);
}

#[test]
fn values_do_not_matter() {
    let odd = arrow(9).with_values(vec![f64::NAN; 25]).unwrap();
    assert_eq!(sheet(&odd, &Orders::natural(9)), sheet(&arrow(9), &Orders::natural(9)));
}

#[test]
fn sheets_of_loads_in_several_orders() {
    for (n, seed) in [(1, 0), (2, 1), (5, 1), (48, 3), (49, 7), (50, 9), (98, 11), (150, 1), (256, 65_535)] {
        let System { matrix, orders, .. } = System::test_load(n, seed).unwrap();
        let odd_first: Vec<usize> = (1..n).step_by(2).chain((0..n).step_by(2)).collect();
        for orders in [orders, backwards(n), Orders::new(&odd_first, &odd_first).unwrap()] {
            check(&matrix, &orders);
        }
    }
}

/// The refusal of a sheet, which is that of the structure in the shared form.
fn refused(matrix: &Matrix, orders: &Orders) -> (u32, u64) {
    let error = Structure::fill_sheet(matrix, orders).unwrap_err();
    assert_eq!(Structure::find(Form::Shared, matrix, orders), Err(error.clone()));
    let Error::Refused(refusal) = error else { panic!("{error:?}") };
    (refusal.number(), refusal.place())
}

#[test]
fn rows_out_of_the_limits() {
    for n in [0, 4_097, 65_536, 70_000] {
        let empty = Matrix::from_rows(vec![0; n + 1], vec![], vec![]).unwrap();
        assert_eq!(refused(&empty, &Orders::natural(n)), (1, 0));
        let words = Structure::fill_sheet(&empty, &Orders::natural(n)).unwrap_err().to_string();
        assert_eq!(words, format!("the matrix has {n} rows; 1 to 4096 are taken"));
    }
}

#[test]
fn refusals_are_those_of_the_structure() {
    let natural = Orders::natural(2);
    assert_eq!(refused(&unit(2), &Orders::natural(3)), (2, 0));
    assert_eq!(refused(&matrix(1, &[(0, 0); 65_537]), &Orders::natural(1)), (2, 0));
    let starts = Matrix::from_rows(vec![0, 2, 1], vec![0, 1], vec![1.0; 2]).unwrap();
    assert_eq!(refused(&starts, &natural), (3, 1));
    assert_eq!(refused(&matrix(2, &[(0, 0), (1, 7)]), &natural), (4, 1));
    assert_eq!(refused(&unit(3), &Orders::new(&[0, 1, 2], &[0, 9, 1]).unwrap()), (5, 4));
    assert_eq!(refused(&matrix(3, &[(0, 0), (2, 2)]), &Orders::natural(3)), (7, 1));
    assert_eq!(refused(&matrix(2, &[(0, 1), (1, 0)]), &natural), (9, 0));
    let (number, _) = refused(&arrow(1_600), &Orders::natural(1_600));
    assert_eq!(number, 10);
}
