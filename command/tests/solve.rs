//! Solving: what is printed, in every form, and what is refused.
mod common;
use common::{done, example, failed, file, lilac, out, own};

const HEADER: &str = "%%MatrixMarket matrix coordinate real general\n";

#[test]
fn the_grid_has_nine_numbers() {
    let numbers = done(&["solve", &example("grid_3_by_3.mtx")]);
    assert_eq!(numbers.lines().count(), 9);
    assert!(numbers.lines().all(|line| line.parse::<f64>().is_ok_and(f64::is_finite)), "{numbers}");
}

#[test]
fn the_right_side_is_taken() {
    let right = example("grid_3_by_3_right.txt");
    let numbers = done(&["solve", &example("grid_3_by_3.mtx"), "--right", &right]);
    for (k, line) in numbers.lines().enumerate() {
        let number: f64 = line.parse().expect("a number");
        assert!((number - (k + 1) as f64).abs() < 1e-12, "{numbers}");
    }
    // The matrix file has the same right side in it.
    assert_eq!(numbers, done(&["solve", &example("grid_3_by_3.lp")]));
}

#[test]
fn the_papers_example_has_its_digits() {
    let digits = "3FF0000000000000\n4000000000000000\n";
    assert_eq!(done(&["solve", &example("two_by_two.lp"), "--hex"]), digits);
    assert_eq!(done(&["solve", &example("two_by_two.lp")]), "1\n2\n");
    let right = example("two_by_two_right.txt");
    assert_eq!(done(&["solve", "--hex", "--right", &right, &example("two_by_two.mtx")]), digits);
}

#[test]
fn all_forms_print_the_same() {
    let file = example("grid_3_by_3.lp");
    let plain = done(&["solve", &file, "--hex", "--form", "plain"]);
    assert_eq!(plain, done(&["solve", &file, "--hex", "--form", "shared"]));
    assert_eq!(plain, done(&["solve", &file, "--hex", "--form=row"]));
}

#[test]
fn printed_numbers_have_the_same_bits() {
    let grid = example("grid_3_by_3.mtx");
    let digits: Vec<String> = done(&["solve", &grid])
        .lines()
        .map(|line| format!("{:016X}", line.parse::<f64>().expect("a number").to_bits()))
        .collect();
    assert_eq!(digits, done(&["solve", &grid, "--hex"]).lines().collect::<Vec<_>>());
}

#[test]
fn an_order_turns_a_null_pivot_into_a_solution() {
    // Rows (0 1), (1 1): in the natural order place 0 has no pivot, in the other one it has.
    let matrix = file("turned.mtx", format!("{HEADER}2 2 3\n1 2 1\n2 1 1\n2 2 1\n"));
    let order = file("turned.txt", "1 0\n");
    assert_eq!(failed(1, &["solve", &matrix, "--refusals", "numbers"]), "refused 9 0\n");
    // x(0) is +0 times the reciprocal pivot -1: its sign is kept.
    assert_eq!(done(&["solve", &matrix, "--order", &order]), "-0\n1\n");
}

#[test]
fn output_goes_to_a_file() {
    let path = own("solution.txt");
    assert_eq!(done(&["solve", &example("two_by_two.lp"), "-o", &path]), "");
    assert_eq!(std::fs::read_to_string(&path).expect("the file is there"), "1\n2\n");
}

#[test]
fn standard_input_is_a_file() {
    let input = std::fs::File::open(example("two_by_two.lp")).expect("the example is there");
    let output = common::command().args(["solve", "-", "-o", "-"]).stdin(input).output().expect("the command runs");
    assert_eq!(out(&output), "1\n2\n");
    let two = example("two_by_two.lp");
    assert_eq!(done(&["convert", &two, &own("streamed.mtx"), "--right", "-"]), "10\n9\n");
    failed(2, &["convert", &two, &own("streamed.mtx"), "--right", "-", "--order", "-"]);
}

/// A pipe with a name, behind which the command waits.
fn pipe(name: &str) -> String {
    let path = own(name);
    let made = std::process::Command::new("mkfifo").arg(&path).status().expect("mkfifo runs");
    assert!(made.success());
    path
}

#[test]
fn long_work_gives_signs_of_life() {
    use std::{io::Write, process::Stdio, thread::sleep, time::Duration};
    let target = own("slow.lp");
    let cases = [
        ("solve", "solving"),
        ("structure", "finding"),
        ("picture", "drawing"),
        ("sheet", "printing"),
        ("convert", "converting"),
    ];
    let waiting = cases.map(|(name, word)| {
        let path = pipe(&format!("slow_{name}.mtx"));
        let mut command = common::command();
        command.args([name, &path]).stdout(Stdio::piped()).stderr(Stdio::piped());
        command.args((name == "convert").then_some(&target));
        (command.spawn().expect("the command runs"), path, word)
    });
    sleep(Duration::from_millis(2500));
    let matrix = std::fs::read(example("two_by_two.mtx")).expect("the example is there");
    for (child, path, word) in waiting {
        // Opened both ways a pipe waits for nobody, not even for a command that has ended.
        let mut pipe = std::fs::File::options().read(true).write(true).open(&path).expect("the pipe");
        pipe.write_all(&matrix).expect("it reads");
        drop(pipe);
        let output = child.wait_with_output().expect("it ends");
        let sign = common::err(&output);
        assert_eq!(output.status.code(), Some(0), "{sign}");
        assert!(sign.starts_with(&format!("lilac: {word} ")) && sign.lines().count() == 1, "{sign}");
    }
}

#[test]
fn every_kind_of_market_file_is_solved() {
    let kinds = [
        ("coordinate real symmetric", "2 2 3\n1 1 2\n2 1 1\n2 2 3\n", "0.4\n0.2\n"),
        ("coordinate integer symmetric", "2 2 3\n1 1 2\n2 1 1\n2 2 3\n", "0.4\n0.2\n"),
        ("coordinate integer general", "2 2 3\n1 1 +2\n1 2 -1\n2 2 4\n", "0.625\n0.25\n"),
        ("coordinate pattern general", "2 2 3\n1 1\n1 2\n2 2\n", "0\n1\n"),
        ("coordinate pattern symmetric", "3 3 4\n1 1\n2 1\n3 2\n3 3\n", "0.5\n0.5\n0.5\n"),
        ("array real general", "2 2\n2\n0\n-1\n4\n", "0.625\n0.25\n"),
        ("array integer symmetric", "2 2\n2\n1\n3\n", "0.4\n0.2\n"),
    ];
    for (k, (kind, body, due)) in kinds.iter().enumerate() {
        let matrix = file(&format!("kind_{k}.mtx"), format!("%%MatrixMarket matrix {kind}\n{body}"));
        let numbers = |text: &str| text.lines().map(|line| line.parse().expect("a number")).collect::<Vec<f64>>();
        let (found, due) = (numbers(&done(&["solve", &matrix])), numbers(due));
        assert_eq!(found.len(), due.len(), "{kind}");
        assert!(found.iter().zip(&due).all(|(a, b)| (a - b).abs() < 1e-15), "{kind}: {found:?}");
    }
}

#[test]
fn numbers_of_every_size_read_back_to_the_same_bits() {
    let numbers =
        ["-0", "5e-324", "2.2250738585072014e-308", "1.7976931348623157e308", "-1e-5", "1e16", "0.1", "-123.5"];
    let n = numbers.len();
    let unit: String = (1..=n).map(|k| format!("{k} {k} 1\n")).collect();
    let matrix = file("unit.mtx", format!("{HEADER}{n} {n} {n}\n{unit}"));
    let right = file("unit.txt", numbers.join("\n"));
    let read = |text: &str| format!("{:016X}", text.parse::<f64>().expect("a number").to_bits());
    let digits = done(&["solve", &matrix, "--right", &right, "--hex"]);
    let printed = done(&["solve", &matrix, "--right", &right]);
    assert_eq!(printed.lines().map(read).collect::<Vec<_>>(), digits.lines().collect::<Vec<_>>());
    // The unit matrix gives its right side back, but for the sign of a zero.
    assert_eq!(
        digits.lines().skip(1).collect::<Vec<_>>(),
        numbers[1..].iter().map(|word| read(word)).collect::<Vec<_>>()
    );
}

#[test]
fn refusals_have_status_1() {
    let zero = file("zero.mtx", format!("{HEADER}1 1 1\n1 1 -0\n"));
    let empty_row = file("empty_row.mtx", format!("{HEADER}2 2 1\n1 1 1\n"));
    let tiny = file("tiny.mtx", format!("{HEADER}1 1 1\n1 1 5e-324\n"));
    let no_order = file("no_order.txt", "1 1\n");
    let two = example("two_by_two.lp");
    let cases: [(&str, &[&str]); 4] = [
        ("refused 12 0\n", &["solve", &zero]),
        ("refused 7 1\n", &["solve", &empty_row]),
        ("refused 13 0\n", &["solve", &tiny]),
        ("refused 5 1\n", &["solve", &two, "--order", &no_order]),
    ];
    for (numbers, words) in cases {
        for form in ["plain", "shared", "row"] {
            let with = |refusals| [words, &["--form", form, "--refusals", refusals]].concat();
            assert_eq!(failed(1, &with("numbers")), numbers);
            let line = failed(1, &with("words"));
            assert!(line.starts_with("lilac: ") && !line.contains("refused "), "{line}");
        }
    }
}

/// Pivots 4 and -3, and the solution (-1, 2) for the right side (12, -3).
fn four_and_three(name: &str) -> [String; 4] {
    let matrix = file(&format!("{name}.mtx"), format!("{HEADER}2 2 4\n1 1 4\n1 2 8\n2 1 1\n2 2 -1\n"));
    ["solve".into(), matrix, "--right".into(), file(&format!("{name}.txt"), "12 -3\n")]
}

#[test]
fn a_floor_refuses_pivots_of_at_most_its_magnitude() {
    let asked = four_and_three("floor");
    for form in ["plain", "shared", "row"] {
        let with = |floor, refusals| {
            let words = ["--form", form, "--refusals", refusals, "--floor", floor];
            asked.iter().map(String::as_str).chain(words).collect::<Vec<_>>()
        };
        for floor in ["0", "-0", "5e-324", "1e-400", "2.9999999999999996"] {
            assert_eq!(done(&with(floor, "numbers")), "-1\n2\n");
        }
        for (floor, place) in [("3", 1), ("3.0000000000000004", 1), ("3.9999999999999996", 1), ("4e0", 0), ("1e308", 0)]
        {
            assert_eq!(failed(1, &with(floor, "numbers")), format!("refused 12 {place}\n"));
        }
        let words = "the magnitude of the pivot at place 1 (row 1) is at most the floor; another order or a lower floor may avoid it";
        let line = format!("lilac: {}: {words} (counted from 0; row 2 of the file)\n", asked[1]);
        assert_eq!(failed(1, &with("3", "words")), line);
    }
}

#[test]
fn what_is_no_floor_is_refused() {
    let asked = four_and_three("no_floor");
    let path = own("no_floor_solution.txt");
    for floor in ["-1", "-5e-324", "nan", "NaN", "inf", "-inf", "1e999"] {
        for form in ["plain", "shared", "row"] {
            let with = |refusals| {
                let words = ["--form", form, "--refusals", refusals, "-o", &path, "--floor", floor];
                asked.iter().map(String::as_str).chain(words).collect::<Vec<_>>()
            };
            assert_eq!(failed(1, &with("numbers")), "refused 19 0\n");
            let words = "the floor under pivots must be a finite number, zero or greater";
            assert_eq!(failed(1, &with("words")), format!("lilac: {}: {words}\n", asked[1]));
            assert!(!std::path::Path::new(&path).exists());
        }
    }
}

#[test]
fn a_floor_is_asked_between_the_values_and_the_rows() {
    let not_finite = file("floor_6.mtx", format!("{HEADER}2 2 1\n1 1 inf\n"));
    let empty_row = file("floor_7.mtx", format!("{HEADER}2 2 1\n1 1 1\n"));
    let with = |matrix, floor| failed(1, &["solve", matrix, "--refusals", "numbers", "--floor", floor]);
    assert_eq!([with(&not_finite, "-1"), with(&not_finite, "1")], ["refused 6 0\n"; 2]);
    assert_eq!([with(&empty_row, "-1"), with(&empty_row, "1")], ["refused 19 0\n", "refused 7 1\n"]);
}

#[test]
fn matrices_out_of_the_limits_are_refused() {
    for (k, body) in ["0 0 0\n", "4097 4097 1\n1 1 1\n", "4000000000 4000000000 1\n1 1 1\n"].iter().enumerate() {
        let matrix = file(&format!("limits_{k}.mtx"), format!("{HEADER}{body}"));
        for name in ["solve", "structure", "picture", "sheet"] {
            assert_eq!(failed(1, &[name, &matrix, "--refusals", "numbers"]), "refused 1 0\n");
        }
    }
    // A block of zeros has right checks, and says n = 0.
    assert_eq!(failed(1, &["solve", &file("zeros.lp", [0; 512]), "--refusals", "numbers"]), "refused 1 0\n");
    let mut full = format!("{HEADER}257 257 {}\n", 257 * 257);
    for k in 0..257 * 257 {
        full.push_str(&format!("{} {} 1\n", k / 257 + 1, k % 257 + 1));
    }
    assert_eq!(failed(1, &["solve", &file("full.mtx", full), "--refusals", "numbers"]), "refused 2 0\n");
}

#[test]
fn rows_of_a_market_file_are_named_as_it_counts_them() {
    let matrix = file("second_row.mtx", format!("{HEADER}2 2 1\n1 1 1\n"));
    assert!(failed(1, &["solve", &matrix]).contains("row 2 of the file"));
    let words = file("words.txt", "hello\n");
    assert!(failed(2, &["solve", &words]).contains("%%MatrixMarket"));
}

#[test]
fn a_refusal_leaves_no_file() {
    let zero = file("zero_again.mtx", format!("{HEADER}1 1 1\n1 1 0\n"));
    let path = own("never.txt");
    failed(1, &["solve", &zero, "-o", &path]);
    assert!(!std::path::Path::new(&path).exists());
}

#[test]
fn help_is_printed() {
    for words in
        [&["--help"][..], &["solve", "--help"], &["structure", "-h"], &["convert", "--help"], &["help", "picture"]]
    {
        assert!(done(words).starts_with("lilac "), "{words:?}");
    }
    assert!(out(&lilac(&["--version"])).starts_with("lilac "));
}

#[test]
fn help_names_every_option() {
    let orders = ["--order", "--rows", "--columns", "--refusals"];
    let more: [(&str, &[&str]); 5] = [
        ("solve", &["--form", "--right", "--floor F", "--hex", "-o FILE"]),
        ("structure", &[]),
        ("convert", &["--right"]),
        ("picture", &["-o FILE"]),
        ("sheet", &["-o FILE"]),
    ];
    for (name, own) in more {
        let text = done(&[name, "--help"]);
        assert!(orders.iter().chain(own).all(|option| text.contains(&format!("  {option}"))), "{text}");
        assert!(text.lines().all(|line| line.len() <= 120), "{name}");
    }
}
