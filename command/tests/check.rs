//! How far off scores are: the lines, which neighbours cannot be told apart, and what is refused.
mod common;
use common::{done, example, failed, file};

const HEADER: &str = "%%MatrixMarket matrix coordinate real general\n";

/// The words of each line.
fn words(text: &str) -> Vec<Vec<&str>> {
    text.lines().map(|line| line.split_whitespace().collect()).collect()
}

#[test]
fn a_solution_line_by_line() {
    let scores = file("check_two.txt", "1\n2\n");
    let text = done(&["check", &example("two_by_two.lp"), &scores]);
    let expected = [
        vec!["row", "score", "residual", "width"],
        vec!["1", "2", "0", "1.5987211554602254e-14"],
        vec!["0", "1", "0", "1.7763568394002505e-14"],
        vec!["row", "0", "has", "the", "largest", "residual", "for", "its", "width:", "0", "widths"],
    ];
    assert_eq!(words(&text), expected);
    assert!(text.starts_with("  row                    score                 residual                    width\n"));
}

#[test]
fn close_scores_cannot_be_told_apart() {
    let matrix = file("check_close.mtx", format!("{HEADER}4 4 4\n1 1 1\n2 2 1\n3 3 1\n4 4 1\n"));
    let right = file("check_close_b.txt", "0.5\n1\n1.0000000000000002\n0.25\n");
    let scores = file("check_close_x.txt", "0.5\n1\n1.0000000000000002\n0.25\n");
    let text = done(&["check", &matrix, &scores, "--right", &right]);
    let rows: Vec<&str> = text.lines().filter_map(|line| line.split_whitespace().next()).collect();
    assert_eq!(rows, ["row", "2", "cannot", "1", "0", "3", "row"]);
    // Off by more than the scores are apart.
    let worse = file("check_worse_x.txt", "0.5\n1\n1.0000000000000002\n0.75\n");
    let text = done(&["check", &matrix, &worse, "--right", &right]);
    let rows: Vec<&str> = text.lines().filter_map(|line| line.split_whitespace().next()).collect();
    assert_eq!(rows, ["row", "2", "cannot", "1", "cannot", "3", "cannot", "0", "row"]);
    assert!(text.ends_with("row 3 has the largest residual for its width: 750599937895082.6 widths\n"), "{text}");
}

/// Whether two scores are told apart: those of a matrix of two rows with these lines of entries.
fn told_apart(name: &str, entries: &[&str], right: &str, scores: &str) -> bool {
    let lines = entries.join("\n");
    let matrix = file(&format!("{name}.mtx"), format!("{HEADER}2 2 {}\n{lines}\n", entries.len()));
    let right = file(&format!("{name}_b.txt"), right);
    let scores = file(&format!("{name}_x.txt"), scores);
    let text = done(&["check", &matrix, &scores, "--right", &right]);
    match text.lines().count() {
        4 => true,
        5 => {
            assert_eq!(words(&text)[2], ["cannot", "be", "told", "apart"]);
            false
        }
        lines => panic!("{lines} lines"),
    }
}

#[test]
fn a_row_without_its_own_column() {
    // Both equations are met, so that only the missing values on the diagonal leave the scores any range.
    assert!(!told_apart("check_turned", &["1 2 1", "2 1 1"], "9\n1\n", "1\n9\n"));
}

#[test]
fn a_residual_is_divided_by_the_diagonal() {
    // Row 0 is off by 0.5 and by 0.75: its score can move by 2, and by 3, up to the next one.
    let quarters = ["1 1 -0.25", "2 2 -0.25"];
    assert!(told_apart("check_quarter", &quarters, "0.25\n-1\n", "1\n4\n"));
    assert!(!told_apart("check_quarters", &quarters, "0.5\n-1\n", "1\n4\n"));
}

#[test]
fn a_diagonal_of_two_entries() {
    // Off by 8, and 4 on the diagonal: the score can move by 2. Neither entry alone keeps it below the next score.
    assert!(told_apart("check_sum", &["1 1 1", "1 1 3", "2 2 1"], "12\n3.5\n", "1\n3.5\n"));
    assert!(!told_apart("check_sums", &["1 1 1", "1 1 3", "2 2 1"], "12\n3\n", "1\n3\n"));
    // The sum is over the greatest number.
    let large = ["1 1 1.5e308", "1 1 1.5e308", "2 2 1"];
    assert!(!told_apart("check_large_sum", &large, "3e8\n5\n", "1e-300\n5\n"));
}

#[test]
fn bits_and_another_place() {
    let scores = file("check_bits.txt", "1\n2\n");
    let out = common::own("check_bits_out.txt");
    assert_eq!(done(&["check", &example("two_by_two.lp"), &scores, "--hex", "-o", &out]), "");
    let text = std::fs::read_to_string(&out).expect("the file is there");
    assert_eq!(words(&text)[1], ["1", "4000000000000000", "0000000000000000", "3D12000000000000"]);
}

#[test]
fn what_is_refused() {
    let scores = file("check_refused.txt", "1\ninf\n");
    let two = example("two_by_two.lp");
    assert_eq!(failed(1, &["check", &two, &scores, "--refusals", "numbers"]), "refused 6 7\n");
    assert!(failed(1, &["check", &two, &scores]).contains("check_refused.txt: number 1 of the solution is not finite"));
    let large = file("check_large.txt", "1e308\n1e308\n");
    assert_eq!(failed(1, &["check", &two, &large, "--refusals", "numbers"]), "refused 22 0\n");
    let one = file("check_one.txt", "1\n");
    assert!(failed(2, &["check", &two, &one]).contains("has 2 rows, but this file has 1 numbers"));
    assert!(failed(2, &["check", &two]).contains("check needs two files, not 1"));
}
