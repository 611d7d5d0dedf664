//! The fill sheet: its bytes wherever they go, other orders, its pages, and what is refused.
mod common;
use common::{command, done, example, failed, file, out, own, tridiagonal};
use std::fs::File;

const HEADER: &str = "%%MatrixMarket matrix coordinate real general\n";

/// By place: row 0 has 0, 2, 3; row 1 has 1; row 2 has 0, 2; row 3 has 0, 1, 3, 4; row 4 has 2, 4. Filled are besides
/// (2, 3), (3, 2) and (4, 3). The upper lists 2 3, none, 3, 4, none stand in the slots 2 3 4.
const FIVE: &str = "5 5 12\n3 2 1\n3 1 1\n3 3 1\n1 4 1\n5 2 1\n5 1 1\n2 2 1\n2 4 1\n2 3 1\n2 5 1\n4 1 1\n4 5 1\n";
const FIVE_ROWS: &str = "2 0 4 1 3\n";
const FIVE_COLUMNS: &str = "1 3 0 2 4\n";
const FIVE_LINES: [&str; 6] = [
    "FILL                                   1\n",
    "     0       2       0       2         0\n",
    "     1       0       0       0         2\n",
    "     2       4       1       1         1\n",
    "     3       1       3       1         2\n",
    "     4       3       2       0         3\n",
];

const GRID_LINES: [&str; 10] = [
    "FILL                                   1\n",
    "     0       0       0       2         0\n",
    "     1       1       1       3         2\n",
    "     2       2       1       3         3\n",
    "     3       3       3       3         4\n",
    "     4       4       3       3         5\n",
    "     5       5       3       3         6\n",
    "     6       6       3       2         7\n",
    "     7       7       3       1         8\n",
    "     8       8       3       0         9\n",
];

const BLANK: &str = "                                        \n";

/// The one page with these lines.
fn page(lines: &[&str]) -> String {
    lines.concat() + &BLANK.repeat(50 - lines.len())
}

fn read(path: &str) -> String {
    std::fs::read_to_string(path).expect("the file is there")
}

/// The matrix of five rows with its orders, in files of the test's own.
fn five(test: &str) -> [String; 3] {
    let matrix = file(&format!("{test}.mtx"), format!("{HEADER}{FIVE}"));
    [matrix, file(&format!("{test}_r.txt"), FIVE_ROWS), file(&format!("{test}_c.txt"), FIVE_COLUMNS)]
}

#[test]
fn a_sheet_byte_by_byte() {
    assert_eq!(done(&["sheet", &example("grid_3_by_3.mtx")]), page(&GRID_LINES));
    assert_eq!(done(&["sheet", &example("grid_3_by_3.lp")]), page(&GRID_LINES));
    let [matrix, rows, columns] = five("sheet_five");
    assert_eq!(done(&["sheet", &matrix, "--rows", &rows, "--columns", &columns]), page(&FIVE_LINES));
}

#[test]
fn the_orders_of_a_matrix_file_are_taken() {
    let [matrix, rows, columns] = five("sheet_ordered");
    let ordered = own("sheet_ordered.lp");
    done(&["convert", &matrix, &ordered, "--rows", &rows, "--columns", &columns]);
    assert_eq!(done(&["sheet", &ordered]), page(&FIVE_LINES));
}

#[test]
fn one_order_for_rows_and_columns() {
    // Row 0, column 0 and diagonal: all is filled. From the other end nothing is, and the lists are 2, 2 and none.
    let arrow = file("sheet_arrow.mtx", format!("{HEADER}3 3 7\n1 1 4\n1 2 1\n1 3 1\n2 1 1\n2 2 4\n3 1 1\n3 3 4\n"));
    let natural = [
        GRID_LINES[0],
        "     0       0       0       2         0\n",
        "     1       1       1       1         1\n",
        "     2       2       2       0         2\n",
    ];
    assert_eq!(done(&["sheet", &arrow]), page(&natural));
    let turned = [
        GRID_LINES[0],
        "     0       2       0       1         0\n",
        "     1       1       0       1         0\n",
        "     2       0       2       0         1\n",
    ];
    assert_eq!(done(&["sheet", &arrow, "--order", &file("sheet_turned.txt", "2 1 0")]), page(&turned));
}

#[test]
fn a_file_and_standard_output_have_the_same_bytes() {
    let (grid, path) = (example("grid_3_by_3.mtx"), own("sheet.txt"));
    assert_eq!(done(&["sheet", &grid, "-o", &path]), "");
    assert_eq!(read(&path), page(&GRID_LINES));
    assert_eq!(done(&["sheet", &grid, "-o", "-"]), page(&GRID_LINES));
    // An older and longer file is replaced.
    let path = file("sheet_old.txt", "x".repeat(5000));
    done(&["sheet", "--output", &path, &grid]);
    assert_eq!(read(&path), page(&GRID_LINES));
}

#[test]
fn standard_input_is_a_file() {
    for name in ["grid_3_by_3.lp", "grid_3_by_3.mtx"] {
        let input = File::open(example(name)).expect("the example is there");
        let output = command().args(["sheet", "-"]).stdin(input).output().expect("the command runs");
        assert_eq!((output.status.code(), out(&output)), (Some(0), page(&GRID_LINES)), "{name}");
    }
    let order = File::open(file("sheet_piped.txt", "1 0")).expect("the order is there");
    let words = ["sheet", &example("two_by_two.mtx"), "--order", "-"];
    let output = command().args(words).stdin(order).output().expect("the command runs");
    let lines = ["     0       1       0       1         0\n", "     1       0       1       0         1\n"];
    assert_eq!(out(&output), page(&[GRID_LINES[0], lines[0], lines[1]]));
}

#[test]
fn a_page_has_50_lines() {
    for (n, pages) in [(1, 1), (49, 1), (50, 2), (98, 2), (99, 3), (4096, 84)] {
        let sheet = done(&["sheet", &file(&format!("sheet_{n}.mtx"), tridiagonal(n))]);
        assert_eq!(sheet.len(), 2050 * pages, "{n}");
        let lines: Vec<&str> = sheet.split_terminator('\n').collect();
        assert!(lines.len() == 50 * pages && lines.iter().all(|line| line.len() == 40), "{n}");
        let heads: Vec<&str> = lines.iter().step_by(50).copied().collect();
        assert_eq!(heads, (1..=pages).map(|number| format!("FILL{number:36}")).collect::<Vec<_>>(), "{n}");
        assert_eq!(lines.iter().filter(|line| line.trim().is_empty()).count(), 49 * pages - n, "{n}");
    }
}

#[test]
fn the_second_page_has_place_49() {
    let sheet = done(&["sheet", &file("sheet_turn.mtx", tridiagonal(50))]);
    let turn = [
        "    48      48       1       1        48\n",
        "FILL                                   2\n",
        "    49      49       1       0        49\n",
    ];
    assert_eq!(sheet[49 * 41..], turn.concat() + &BLANK.repeat(48));
}

#[test]
fn the_values_play_no_part() {
    let zeros = file("sheet_zeros.mtx", format!("{HEADER}2 2 3\n1 1 0\n1 2 -0\n2 2 0\n"));
    let lines = ["     0       0       0       1         0\n", "     1       1       0       0         1\n"];
    assert_eq!(done(&["sheet", &zeros]), page(&[GRID_LINES[0], lines[0], lines[1]]));
}

#[test]
fn refusals_in_words_and_in_numbers() {
    let crossed = file("sheet_crossed.mtx", format!("{HEADER}2 2 3\n1 2 1\n2 1 1\n2 2 1\n"));
    let empty_row = file("sheet_empty_row.mtx", format!("{HEADER}2 2 1\n1 1 1\n"));
    let no_order = file("sheet_no_order.txt", "1 1\n");
    let two = example("two_by_two.lp");
    let cases: [(&str, &str, &[&str]); 3] = [
        ("refused 9 0\n", "the pivot at place 0 (row 0) has no entry and no fill", &["sheet", &crossed]),
        ("refused 7 1\n", "row 1 has no entry", &["sheet", &empty_row]),
        ("refused 5 1\n", "the row order is wrong at place 1", &["sheet", &two, "--order", &no_order]),
    ];
    for (numbers, words, asked) in cases {
        assert_eq!(failed(1, &[asked, &["--refusals", "numbers"]].concat()), numbers);
        for refusals in [&[][..], &["--refusals", "words"]] {
            let line = failed(1, &[asked, refusals].concat());
            assert!(line.starts_with("lilac: ") && line.contains(words), "{line}");
        }
    }
    // The words name the row as a Matrix Market file counts it, and another order avoids the refusal.
    assert!(failed(1, &["sheet", &crossed]).contains("row 1 of the file"));
    done(&["sheet", &crossed, "--order", &file("sheet_uncrossed.txt", "1 0")]);
}

#[test]
fn a_refusal_touches_no_file() {
    let empty_row = file("sheet_refused.mtx", format!("{HEADER}2 2 1\n1 1 1\n"));
    let (new, old) = (own("sheet_never.txt"), file("sheet_kept.txt", "kept"));
    for path in [&new, &old] {
        assert_eq!(failed(1, &["sheet", &empty_row, "-o", path, "--refusals", "numbers"]), "refused 7 1\n");
    }
    assert!(!std::path::Path::new(&new).exists());
    assert_eq!(read(&old), "kept");
}

#[test]
fn bad_usage_is_named() {
    let two = example("two_by_two.lp");
    assert!(failed(2, &["sheet"]).contains("sheet needs a file"));
    assert!(failed(2, &["sheet", &two, "more"]).contains("\"more\" is one too many"));
    assert!(failed(2, &["sheet", &two, "--form", "row"]).contains("\"--form\" is no option of sheet"));
    assert!(failed(2, &["sheet", &two, "-o"]).contains("--output needs a word"));
    assert!(failed(2, &["sheet", &two, "--order", "a", "--rows", "b"]).contains("neither --rows nor --columns"));
    assert!(failed(2, &["sheet", &two, "--refusals", "loud"]).contains("words or numbers"));
    let short = file("sheet_short.txt", "0");
    assert!(failed(2, &["sheet", &two, "--order", &short]).contains("this file has 1 numbers"));
}

#[test]
fn help_tells_of_it() {
    assert!(done(&["--help"]).contains("lilac sheet FILE"));
    let text = done(&["help", "sheet"]);
    assert!(text.starts_with("lilac sheet FILE [options]\n") && text.contains("50 lines, each of 40 characters"));
    for columns in ["1 to 6 ", "7 to 14 ", "15 to 22 ", "23 to 30 ", "31 to 40 "] {
        assert!(text.contains(&format!("  columns {columns}")), "{columns}");
    }
    assert_eq!(done(&["sheet", "--help"]), text);
    assert!(failed(2, &["shet", "a.mtx"]).contains("picture, sheet or load"));
}
