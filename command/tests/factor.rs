//! Factors kept in a file: solves with them have the bits of a solve, and what is refused.
mod common;
use common::{command, done, err, example, failed, file, lilac, own, tridiagonal};
use lilacpliers::{Factors, Form, System};
use std::fs::File;
use std::process::Stdio;

const HEADER: &str = "%%MatrixMarket matrix coordinate real general\n";

fn read(path: &str) -> Vec<u8> {
    std::fs::read(path).expect("the file is there")
}

/// A test load in a file of the test's own.
fn load(name: &str, n: &str, seed: &str) -> String {
    let path = own(name);
    done(&["load", n, seed, "-o", &path]);
    path
}

/// The factors of a file, in one of the test's own.
fn factors(name: &str, words: &[&str]) -> String {
    let path = own(name);
    assert_eq!(done(&[&["factor"], words, &["-o", &path]].concat()), "");
    path
}

#[test]
fn kept_factors_solve_to_the_same_bits() {
    for (n, seed) in [("1", "0"), ("5", "1"), ("120", "9")] {
        let matrix = load(&format!("kept_{n}.lp"), n, seed);
        let kept = factors(&format!("kept_{n}.lf"), &[&matrix]);
        let rows: usize = n.parse().expect("a number");
        let numbers: Vec<String> = (0..rows).map(|k| format!("{}", 1.0 / (k as f64 + 3.0) - 0.25)).collect();
        let right = file(&format!("kept_{n}.txt"), numbers.join("\n"));
        let due = done(&["solve", &matrix, "--right", &right, "--hex"]);
        assert_eq!(due.lines().count(), rows);
        assert_eq!(done(&["solve", &kept, "--right", &right, "--hex"]), due);
        assert_eq!(done(&["solve", &kept, "--right", &right]), done(&["solve", &matrix, "--right", &right]));
    }
}

#[test]
fn a_file_and_standard_output_have_the_librarys_bytes() {
    let matrix = example("grid_3_by_3.lp");
    let System { matrix: entries, orders, right } = System::read(&read(&matrix)).expect("a system");
    let (found, _) = Factors::solve(Form::Plain, &entries, &orders, &right).expect("factors");
    let due = found.save().expect("a file");
    assert!(read(&factors("grid.lf", &[&matrix])) == due);
    assert!(read(&factors("grid.LF", &[&example("grid_3_by_3.mtx")])) == due);
    for words in [&["factor", &matrix][..], &["factor", &matrix, "-o", "-"]] {
        let output = lilac(words);
        assert_eq!((output.status.code(), err(&output).as_str()), (Some(0), ""), "{words:?}");
        assert!(output.stdout == due, "{words:?}");
    }
}

#[test]
fn orders_are_kept() {
    let matrix = file("ordered.mtx", tridiagonal(6));
    let order = file("ordered.txt", "5 3 1 0 2 4");
    let right = file("ordered_right.txt", "1 2 3 4 5 6");
    let kept = factors("ordered.lf", &[&matrix, "--order", &order]);
    let due = done(&["solve", &matrix, "--order", &order, "--right", &right, "--hex"]);
    assert_eq!(done(&["solve", &kept, "--right", &right, "--hex"]), due);
    let natural = factors("natural.lf", &[&matrix]);
    assert!(read(&natural) != read(&kept));
}

/// The right side of the file is not looked at.
#[test]
fn no_right_side_is_judged() {
    let mut system = System::read(&read(&example("grid_3_by_3.lp"))).expect("a system");
    system.right = vec![1.0; 9];
    let due = read(&factors("ones.lf", &[&file("ones.lp", system.write().expect("a file"))]));
    for (name, number) in [("infinite", f64::INFINITY), ("negative", f64::NEG_INFINITY), ("nan", f64::NAN)] {
        system.right[4] = number;
        let matrix = file(&format!("{name}.lp"), system.write().expect("a file"));
        assert_eq!(failed(1, &["solve", &matrix, "--refusals", "numbers"]), "refused 6 37\n", "{name}");
        assert!(read(&factors(&format!("{name}.lf"), &[&matrix])) == due, "{name}");
    }
    let tiny = file("small.mtx", format!("{HEADER}1 1 1\n1 1 {:e}\n", f64::from_bits(1 << 51)));
    let (matrix, one) = (own("small.lp"), file("one.txt", "1"));
    done(&["convert", &tiny, &matrix, "--right", &file("four.txt", "4")]);
    assert_eq!(failed(1, &["solve", &matrix, "--refusals", "numbers"]), "refused 13 0\n");
    let kept = factors("small.lf", &[&matrix]);
    assert_eq!(done(&["solve", &kept, "--right", &one, "--hex"]), done(&["solve", &tiny, "--hex"]));
}

#[test]
fn what_cannot_be_factored_is_refused() {
    let zero = file("zero_pivot.mtx", format!("{HEADER}1 1 1\n1 1 0\n"));
    let out = own("refused.lf");
    assert!(failed(1, &["factor", &zero, "-o", &out]).contains("the pivot at place 0 (row 0) is zero"));
    assert_eq!(failed(1, &["factor", &zero, "-o", &out, "--refusals", "numbers"]), "refused 12 0\n");
    let two = example("two_by_two.mtx");
    assert_eq!(failed(1, &["factor", &two, "--floor", "2", "-o", &out, "--refusals", "numbers"]), "refused 12 0\n");
    assert_eq!(failed(1, &["factor", &two, "--floor", "inf", "-o", &out, "--refusals", "numbers"]), "refused 19 0\n");
    assert!(!std::path::Path::new(&out).exists());
}

#[test]
fn bad_factor_files_have_status_2() {
    let two = example("two_by_two.lp");
    let whole = read(&factors("whole.lf", &[&two]));
    let right = file("bad_kept.txt", "1 2");
    let mut turned = whole.clone();
    turned[50] ^= 1;
    // The blocks of a matrix file are right: what they hold is refused.
    let cases: [(&str, &[u8], u32, u64); 5] = [
        ("cut.lf", &whole[..500], 16, 0),
        ("turned.lf", &turned, 17, 0),
        ("twice.lf", &[&whole[..], &whole].concat(), 17, 1),
        ("matrix.lf", &read(&load("other.lp", "40", "1")), 5, 1),
        ("long_matrix.lf", &read(&load("long.lp", "200", "1")), 20, 0),
    ];
    for (name, bytes, number, place) in cases {
        let path = file(&format!("bad_{name}"), bytes);
        failed(2, &["solve", &path, "--right", &right]);
        let line = failed(2, &["solve", &path, "--right", &right, "--refusals", "numbers"]);
        assert_eq!(line, format!("refused {number} {place}\n"), "{name}");
    }
    assert!(failed(2, &["solve", &own("none.lf"), "--right", &right]).contains("cannot read"));
}

#[test]
fn factors_have_no_other_right_side_form_orders_or_floor() {
    let kept = factors("only.lf", &[&example("two_by_two.lp")]);
    let right = file("only.txt", "1 2");
    assert!(failed(2, &["solve", &kept]).contains("holds factors and no right side: give one with --right"));
    for words in [["--form", "row"], ["--form", "shared"], ["--floor", "0.5"], ["--order", &right]] {
        let line = failed(2, &[&["solve", &kept, "--right", &right][..], &words].concat());
        assert!(line.contains("form, orders and floor are those that they were found by"), "{line}");
    }
    let long = file("long.txt", "1 2 3");
    failed(2, &["solve", &kept, "--right", &long]);
    let infinite = file("infinite.txt", "1 inf");
    assert_eq!(failed(1, &["solve", &kept, "--right", &infinite, "--refusals", "numbers"]), "refused 6 1\n");
    done(&["solve", &kept, "--right", &right, "--form", "plain", "--floor", "0"]);
}

#[test]
fn names_tell_factor_files_apart() {
    let two = example("two_by_two.lp");
    for name in ["factors", "factors.lp", "factors.mtx", "factors.lf.txt"] {
        let out = own(name);
        let line = failed(2, &["factor", &two, "-o", &out]);
        assert!(line.contains("the name of a factor file should end in .lf"), "{line}");
        assert!(!std::path::Path::new(&out).exists(), "{name}");
    }
    let kept = factors("apart.lf", &[&two]);
    assert!(failed(2, &["factor", &kept, "-o", &kept]).contains("apart.lf is named twice"));
}

/// Its blocks are those of a matrix file, so its name is looked at.
#[test]
fn no_other_command_takes_a_factor_file() {
    let kept = factors("no_matrix.lf", &[&example("two_by_two.lp")]);
    let (market, other) = (own("no_matrix.mtx"), own("other.lf"));
    let words: [&[&str]; 5] = [
        &["structure", &kept],
        &["sheet", &kept],
        &["picture", &kept],
        &["factor", &kept, "-o", &other],
        &["convert", &kept, &market],
    ];
    for words in words {
        let line = failed(2, words);
        assert!(line.ends_with("no_matrix.lf holds factors and no matrix\n"), "{line}");
    }
    for path in [market, other] {
        assert!(!std::path::Path::new(&path).exists(), "{path}");
    }
    let line = failed(2, &["convert", &example("two_by_two.lp"), &own("converted.lf")]);
    assert!(line.contains("convert goes from .mtx to .lp or from .lp to .mtx"), "{line}");
}

/// The master of a new terminal counts as one. A machine without terminals has none to be spared.
#[test]
fn a_terminal_gets_no_factor_file() {
    let Ok(terminal) = File::options().read(true).write(true).open("/dev/ptmx") else { return };
    let words = ["factor", &example("two_by_two.lp")];
    let child = command().args(words).stdout(terminal).stderr(Stdio::piped()).spawn().expect("the command runs");
    let output = child.wait_with_output().expect("the command ends");
    assert_eq!(output.status.code(), Some(2));
    assert_eq!(err(&output), "lilac: a factor file is no text for a terminal: -o FILE writes it to a file\n");
}

#[test]
fn help_tells_of_it() {
    let all = done(&["--help"]);
    assert!(all.contains("lilac factor FILE") && all.contains("FILE of solve may be a factor file too"));
    let solve = done(&["solve", "--help"]);
    assert!(solve.contains("FILE may be a factor file, which `lilac factor` makes, if its name ends in .lf."));
    assert!(solve.contains("Then --right is due, and form, orders\nand floor are those that it was made with."));
    assert!(solve.contains("A factor file that is refused has exit status 2."));
    assert!(done(&["help", "factor"]).starts_with("lilac factor FILE -o F.lf [options]\n"));
    assert_eq!(done(&["factor", "--help"]), done(&["help", "factor"]));
    assert!(failed(2, &["factor"]).contains("factor needs a file"));
    assert!(failed(2, &["facter", "a.lp"]).contains("solve, factor, structure"));
    assert!(failed(2, &["factor", "a.lp", "--right", "b.txt"]).contains("\"--right\" is no option of factor"));
}
