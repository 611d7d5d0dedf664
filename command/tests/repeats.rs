//! Files in which a position has several entries: every command takes them, and a solve adds the values in the order of
//! the file.
mod common;
use common::{done, err, failed, file, lilac, out, own, tridiagonal};
use lilacpliers::System;

const HEADER: &str = "%%MatrixMarket matrix coordinate real general\n";
/// Rows (1 + 1, 4), (1, 1 + 3): with b = (10, 9) the solution is (1, 2).
const CITED: &str = "2 2 6\n1 1 1\n2 1 1\n1 2 4\n2 2 1\n1 1 1\n2 2 3\n";
/// The same positions with one entry each.
const ONCE: &str = "2 2 4\n1 1 2\n1 2 4\n2 1 1\n2 2 4\n";

fn read(path: &str) -> Vec<u8> {
    std::fs::read(path).expect("the file is there")
}

fn matrix(name: &str, body: &str) -> String {
    file(name, format!("{HEADER}{body}"))
}

#[test]
fn solving_adds_the_values_up() {
    let (cited, right) = (matrix("cited.mtx", CITED), file("cited_b.txt", "10 9"));
    for form in ["plain", "shared", "row"] {
        assert_eq!(done(&["solve", &cited, "--right", &right, "--form", form]), "1\n2\n");
    }
}

#[test]
fn the_order_of_the_file_is_the_order_of_the_sum() {
    let one = |name: &str, values: [&str; 3]| {
        let lines = values.map(|value| format!("1 1 {value}\n")).concat();
        done(&["solve", &matrix(name, &format!("1 1 3\n{lines}")), "--hex"])
    };
    assert_eq!(one("rising.mtx", ["0.1", "0.2", "0.3"]), "3FFAAAAAAAAAAAAA\n");
    assert_eq!(one("falling.mtx", ["0.3", "0.2", "0.1"]), "3FFAAAAAAAAAAAAB\n");
    assert_eq!(one("cancelled.mtx", ["9007199254740992", "-9007199254740992", "1"]), "3FF0000000000000\n");
}

#[test]
fn entries_of_every_kind_are_added_up() {
    let kinds = [
        ("real symmetric", "2 2 5\n1 1 1\n2 1 0.5\n1 1 1\n2 2 3\n2 1 0.5\n", "0.4\n0.2\n"),
        ("integer general", "2 2 5\n1 1 1\n1 2 -3\n1 1 1\n2 2 4\n1 2 2\n", "0.625\n0.25\n"),
        ("pattern general", "1 1 4\n1 1\n1 1\n1 1\n1 1\n", "0.25\n"),
    ];
    for (k, (kind, body, due)) in kinds.iter().enumerate() {
        let path = file(&format!("cited_kind_{k}.mtx"), format!("%%MatrixMarket matrix coordinate {kind}\n{body}"));
        assert_eq!(done(&["solve", &path]), *due, "{kind}");
    }
}

#[test]
fn a_sum_that_is_not_finite_is_refused() {
    let path = matrix("overflow.mtx", "2 2 4\n1 1 1\n2 2 1e308\n2 2 1e308\n2 2 -1e308\n");
    assert_eq!(failed(1, &["solve", &path, "--refusals", "numbers"]), "refused 13 1\n");
    let line = failed(1, &["solve", &path]);
    assert!(line.contains("a result at place 1 (row 1) is not finite"), "{line}");
    assert!(line.ends_with("(counted from 0; row 2 of the file)\n"), "{line}");
    // What an earlier place refuses comes first.
    let path = matrix("overflow_behind.mtx", "2 2 4\n1 1 1\n1 1 -1\n2 2 1e308\n2 2 1e308\n");
    assert_eq!(failed(1, &["solve", &path, "--refusals", "numbers"]), "refused 12 0\n");
}

#[test]
fn the_table_counts_entries_and_positions() {
    let table = done(&["structure", &matrix("counted.mtx", CITED)]);
    let due = [
        "rows                                   2",
        "stored entries                         6",
        "stored positions                       4",
        "fill                                   0",
        "filled below the diagonal              1",
        "filled above the diagonal              1",
        "products                               1",
    ];
    assert_eq!(table.lines().take(7).collect::<Vec<_>>(), due);
    // Where each position has one entry there is nothing to tell apart, and all else is the same.
    let once = done(&["structure", &matrix("counted_once.mtx", ONCE)]);
    assert!(!once.contains("stored positions"), "{once}");
    assert_eq!(table.lines().skip(3).collect::<Vec<_>>(), once.lines().skip(2).collect::<Vec<_>>());
}

/// A row that has one of its positions a hundred times over, and fill beside it.
#[test]
fn fill_is_not_what_is_stored_several_times() {
    let mut lines = "2 1 1\n1 1 4\n".to_string();
    lines.push_str(&"1 2 0.01\n".repeat(100));
    let table = done(&["structure", &matrix("hundred.mtx", &format!("2 2 102\n{lines}"))]);
    let numbers: Vec<&str> = table.lines().take(4).filter_map(|line| line.split_whitespace().last()).collect();
    assert_eq!(numbers, ["2", "102", "3", "1"]);
}

#[test]
fn the_sheet_is_that_of_the_positions() {
    let sheet = done(&["sheet", &matrix("cited_sheet.mtx", CITED)]);
    assert_eq!(sheet, done(&["sheet", &matrix("cited_sheet_once.mtx", ONCE)]));
    assert!(sheet.contains("     0       0       0       1         0\n     1       1       1       0         1\n"));
}

/// The cells of a picture, without its title and its table.
fn cells(picture: &str) -> &str {
    let (_, behind) = picture.split_once("<g id=\"cells\"").expect("cells");
    behind.split_once("</g>").expect("their end").0
}

#[test]
fn the_picture_has_one_cell_for_a_position() {
    let picture = done(&["picture", &matrix("cited_picture.mtx", CITED)]);
    assert_eq!((picture.matches("class=\"stored\"").count(), picture.matches("class=\"fill\"").count()), (4, 0));
    assert!(picture.contains(">stored positions</text>"), "{picture}");
    assert_eq!(cells(&picture), cells(&done(&["picture", &matrix("cited_picture_once.mtx", ONCE)])));
    // A cell that stands for a square of positions is not darker either.
    let large = tridiagonal(300);
    let twice = large.replace("300 300 898\n", "300 300 1198\n")
        + &(1..=300).map(|k| format!("{k} {k} 0\n")).collect::<String>();
    let [large, twice] = [("once", large), ("twice", twice)].map(|(name, text)| {
        let path = file(&format!("cited_squares_{name}.mtx"), text);
        done(&["picture", &path])
    });
    assert_eq!(cells(&large), cells(&twice));
}

#[test]
fn converting_keeps_each_entry_in_its_order() {
    let (cited, made, back) = (matrix("cited_there.mtx", CITED), own("cited_there.lp"), own("cited_back.mtx"));
    done(&["convert", &cited, &made]);
    let system = System::read(&read(&made)).expect("a matrix file");
    assert_eq!(system.matrix.starts(), [0, 3, 6]);
    assert_eq!(system.matrix.columns(), [0, 1, 0, 0, 1, 1]);
    assert_eq!(system.matrix.values(), [1.0, 4.0, 1.0, 1.0, 1.0, 3.0]);
    done(&["convert", &made, &back]);
    let lines = "2 2 6\n1 1 1.0\n1 2 4.0\n1 1 1.0\n2 1 1.0\n2 2 1.0\n2 2 3.0\n";
    assert_eq!(String::from_utf8(read(&back)).expect("text"), format!("{HEADER}{lines}"));
    let again = own("cited_again.lp");
    done(&["convert", &back, &again]);
    assert!(read(&again) == read(&made));
    let right = file("cited_there_b.txt", "10 9");
    for path in [&cited, &made, &back] {
        assert_eq!(done(&["solve", path, "--right", &right]), "1\n2\n");
    }
}

#[test]
fn as_many_entries_as_there_may_be() {
    let many = |e: usize| format!("1 1 {e}\n{}", "1 1 0.0000152587890625\n".repeat(e));
    assert_eq!(done(&["solve", &matrix("most.mtx", &many(65_536))]), "1\n");
    let more = matrix("more.mtx", &many(65_537));
    assert_eq!(failed(1, &["solve", &more, "--refusals", "numbers"]), "refused 2 0\n");
    assert!(failed(1, &["solve", &more]).contains("65537 entries; up to 65536 are taken"));
}

/// A right side has one number for each row, so there is nothing to add up.
#[test]
fn a_right_side_has_no_repeats() {
    let cited = matrix("cited_right.mtx", CITED);
    let right = matrix("cited_right_b.mtx", "2 1 3\n1 1 1\n2 1 1\n1 1 1\n");
    assert!(failed(2, &["solve", &cited, "--right", &right]).contains("row 1 is given twice"));
}

#[test]
fn help_tells_of_it() {
    assert!(done(&["--help"]).contains("A position may have several"));
    for (name, words) in [
        ("structure", "the stored positions are counted besides"),
        ("convert", "A position with several entries keeps them all"),
        ("picture", "is one cell"),
    ] {
        let output = lilac(&[name, "--help"]);
        assert!(out(&output).contains(words) && err(&output).is_empty(), "{name}");
    }
}
