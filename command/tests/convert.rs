//! Converting: every field of a matrix file, orders and right sides there and back, and every fault in plain words.
mod common;
use common::{done, err, example, failed, file, lilac, own};
use lilacpliers::{Matrix, Orders, System};

const HEADER: &str = "%%MatrixMarket matrix coordinate real general\n";
const TWO: &str = "2 2 4\n1 1 2\n1 2 4\n2 1 1\n2 2 4\n";

fn read(path: &str) -> Vec<u8> {
    std::fs::read(path).expect("the file is there")
}

fn text(path: &str) -> String {
    String::from_utf8(read(path)).expect("the file is text")
}

fn system(path: &str) -> System {
    System::read(&read(path)).expect("the file is a matrix file")
}

#[test]
fn the_examples_are_what_convert_makes() {
    for name in ["two_by_two", "grid_3_by_3"] {
        let made = own(&format!("made_{name}.lp"));
        let right = example(&format!("{name}_right.txt"));
        done(&["convert", &example(&format!("{name}.mtx")), &made, "--right", &right]);
        assert!(read(&made) == read(&example(&format!("{name}.lp"))), "{name}");
    }
}

/// The bytes of numbers, each of so many, lowest byte first.
fn bytes_of(numbers: &[u64], width: usize) -> Vec<u8> {
    numbers.iter().flat_map(|number| number.to_le_bytes().into_iter().take(width)).collect()
}

fn bits(numbers: &[f64]) -> Vec<u64> {
    numbers.iter().map(|number| number.to_bits()).collect()
}

#[test]
fn the_papers_file_field_by_field() {
    let (matrix, made) = (file("paper.mtx", format!("{HEADER}{TWO}")), own("paper.lp"));
    done(&["convert", &matrix, &made, "--right", &file("paper.txt", "10 9")]);
    let found = read(&made);
    let fields = [
        bytes_of(&[2, 4, 0, 2, 4], 4),
        bytes_of(&[0, 1, 0, 1], 2),
        bytes_of(&bits(&[2.0, 4.0, 1.0, 4.0]), 8),
        bytes_of(&[0, 1, 0, 1], 2),
        bytes_of(&bits(&[10.0, 9.0]), 8),
    ];
    let mut due = fields.concat();
    assert_eq!(due.len(), 12 + 16 * 2 + 10 * 4);
    // Zeros up to the number of the block, which is 0 too; then the two checks.
    due.resize(508, 0);
    let first: u64 = due.iter().map(|&byte| u64::from(byte)).sum();
    let second: u64 = (1..).zip(due.iter().rev()).map(|(weight, &byte)| weight * u64::from(byte)).sum();
    due.extend(bytes_of(&[first % 65521, second % 65521], 2));
    assert_eq!(found, due);
}

#[test]
fn without_options_the_right_side_is_ones_and_the_orders_are_natural() {
    let (matrix, made) = (file("bare.mtx", format!("{HEADER}{TWO}")), own("bare.lp"));
    done(&["convert", &matrix, &made]);
    let found = system(&made);
    assert_eq!((found.orders, found.right), (Orders::natural(2), vec![1.0, 1.0]));
}

#[test]
fn right_side_and_orders_there_and_back() {
    let (matrix, made) = (file("there.mtx", format!("{HEADER}{TWO}")), own("there_and.lp"));
    let (right, rows) = (file("there_b.txt", "10 9"), file("there_r.txt", "1 0"));
    done(&["convert", &matrix, &made, "--right", &right, "--rows", &rows]);
    let found = system(&made);
    assert_eq!((found.orders.rows(), found.orders.columns()), (&[1, 0][..], &[0, 1][..]));
    let (back, b, r, c) = (own("back_m.mtx"), own("back_b.mtx"), own("back_r.txt"), own("back_c.txt"));
    done(&["convert", &made, &back, "--right", &b, "--rows", &r, "--columns", &c]);
    assert_eq!((text(&r).as_str(), text(&c).as_str()), ("1\n0\n", "0\n1\n"));
    assert_eq!(text(&b), "%%MatrixMarket matrix array real general\n2 1\n10\n9\n");
    let again = own("again_there.lp");
    done(&["convert", &back, &again, "--right", &b, "--rows", &r, "--columns", &c]);
    assert!(read(&made) == read(&again));
}

/// A plain generator.
struct Random(u64);

impl Random {
    fn below(&mut self, limit: usize) -> usize {
        self.0 = self.0.wrapping_mul(6364136223846793005).wrapping_add(1442695040888963407);
        (self.0 >> 33) as usize % limit
    }

    /// A number of any size.
    fn number(&mut self) -> f64 {
        (self.below(2_000_001) as f64 / 1e6 - 1.0) * 10f64.powi(self.below(601) as i32 - 300)
    }

    fn order(&mut self, n: usize) -> Vec<usize> {
        let mut order: Vec<usize> = (0..n).collect();
        for k in 0..n {
            order.swap(k, self.below(n));
        }
        order
    }
}

/// A system with odd numbers, columns in falling order, empty rows, and orders of its own for rows and columns.
fn odd_system(n: usize) -> System {
    let mut random = Random(n as u64);
    let mut entries = Vec::new();
    for k in (0..n * n).rev() {
        if random.below(n.min(9)) == 0 {
            entries.push((k / n, k % n, random.number()));
        }
    }
    let matrix = Matrix::from_triplets(n, &entries).expect("a matrix");
    let orders = Orders::new(&random.order(n), &random.order(n)).expect("orders");
    System { matrix, orders, right: (0..n).map(|_| random.number()).collect() }
}

#[test]
fn odd_systems_come_back_bit_for_bit() {
    for n in [1, 2, 5, 30, 70] {
        let bytes = odd_system(n).write().expect("a file");
        let first = file(&format!("odd_{n}.lp"), &bytes);
        let name = |what: &str| own(&format!("odd_{n}_{what}"));
        let (matrix, b, r, c, second) = (name("m.mtx"), name("b.txt"), name("r.txt"), name("c.txt"), name("again.lp"));
        done(&["convert", &first, &matrix, "--right", &b, "--rows", &r, "--columns", &c]);
        done(&["convert", &matrix, &second, "--right", &b, "--rows", &r, "--columns", &c]);
        assert!(read(&second) == bytes, "{n}");
    }
}

#[test]
fn special_numbers_come_back() {
    let entries = [(0, 0, -0.0), (1, 1, f64::INFINITY), (2, 2, f64::from_bits(0xFFF8_0000_0000_0001))];
    let matrix = Matrix::from_triplets(3, &entries).expect("a matrix");
    let right = vec![f64::NEG_INFINITY, 5e-324, -0.0];
    let bytes = System { matrix, orders: Orders::natural(3), right }.write().expect("a file");
    let (first, back, b) = (file("special.lp", &bytes), own("special.mtx"), own("special_b.mtx"));
    let second = own("special_again.lp");
    done(&["convert", &first, &back, "--right", &b]);
    done(&["convert", &back, &second, "--right", &b]);
    assert!(read(&second) == bytes);
    let found = system(&second);
    assert_eq!(bits(&found.matrix.values()[..2]), bits(&[-0.0, f64::INFINITY]));
    assert!(read(&second).windows(8).any(|part| part == 0x7FF8_0000_0000_0000_u64.to_le_bytes()));
}

#[test]
fn what_is_left_behind_is_named() {
    let left = |order: &str| {
        let made = own(&format!("left_{order}.lp"));
        let order = file(&format!("left_{order}.txt"), "1 0");
        (made, order)
    };
    let two = file("left_two.mtx", format!("{HEADER}{TWO}"));
    for (option, words) in [("order", "--order FILE"), ("rows", "--rows FILE"), ("columns", "--columns FILE")] {
        let (made, order) = left(option);
        done(&["convert", &two, &made, &format!("--{option}"), &order]);
        let output = lilac(&["convert", &made, &own(&format!("left_{option}.mtx"))]);
        assert!(err(&output).contains(words) && err(&output).lines().count() == 1, "{}", err(&output));
        assert_eq!(output.status.code(), Some(0));
        let kept = own(&format!("left_{option}_kept.txt"));
        done(&["convert", &made, &own(&format!("left_{option}.mtx")), &format!("--{option}"), &kept]);
        assert_eq!(text(&kept), "1\n0\n");
    }
    // One file cannot hold two orders.
    let (made, order) = left("rows_again");
    done(&["convert", &two, &made, "--rows", &order]);
    let words = failed(2, &["convert", &made, &own("left_again.mtx"), "--order", &own("left_o.txt")]);
    assert!(words.contains("--rows and --columns"), "{words}");
}

#[test]
fn faults_in_plain_words() {
    let faults = [
        ("", "empty"),
        ("hello\n", "%%MatrixMarket"),
        ("%%MatrixMarket matrix coordinate complex general\n", "complex"),
        ("%%MatrixMarket matrix coordinate real hermitian\n", "hermitian"),
        ("%%MatrixMarket matrix coordinate real skew-symmetric\n", "skew-symmetric"),
        ("+", "sizes"),
        ("+2 2\n", "sizes"),
        ("+2 3 0\n", "not square"),
        ("+2 2 1\n1 3 1\n", "out of range"),
        ("+2 2 1\n1 x 1\n", "whole number"),
        ("+2 2 1\n1 1 one\n", "no number"),
        ("+2 2 1\n1 1\n", "row, column and value"),
        ("+2 2 2\n1 1 1\n", "entries"),
    ];
    for (k, (contents, words)) in faults.iter().enumerate() {
        let path = file(&format!("fault_{k}.mtx"), contents.replace('+', HEADER));
        let line = failed(2, &["convert", &path, &own(&format!("fault_{k}.lp"))]);
        assert!(line.contains(words), "{contents:?}: {line}");
    }
    // The library's own limits have its refusal.
    for (k, sizes) in ["0 0 0\n", "4097 4097 0\n"].iter().enumerate() {
        let path = file(&format!("limit_{k}.mtx"), format!("{HEADER}{sizes}"));
        assert!(failed(1, &["convert", &path, &own("limit.lp")]).contains("rows"));
    }
    let line = failed(2, &["convert", &own("is_missing.mtx"), &own("is_missing.lp")]);
    assert!(line.contains("No such file"), "{line}");
}

#[test]
fn right_sides_and_orders_that_do_not_fit() {
    let (two, made) = (file("unfit.mtx", format!("{HEADER}{TWO}")), own("unfit.lp"));
    let cases = [
        ("--right", "1 2 3".to_string(), "2 rows, but this file has 3 numbers"),
        ("--right", format!("{HEADER}3 1 0\n"), "2 rows, but this file has 3 numbers"),
        ("--right", format!("{HEADER}2 2 0\n"), "one column"),
        ("--rows", "1 1".to_string(), "the row order is no order"),
        ("--columns", "0 2".to_string(), "the column order is no order"),
        ("--order", "0 0".to_string(), "the row order is no order"),
        ("--rows", "0".to_string(), "2 rows, but this file has 1 numbers"),
        ("--columns", "0 70000".to_string(), "70000"),
    ];
    for (k, (option, contents, words)) in cases.iter().enumerate() {
        let path = file(&format!("unfit_{k}.txt"), contents);
        let line = failed(2, &["convert", &two, &made, option, &path]);
        assert!(line.contains(words) && !std::path::Path::new(&made).exists(), "{line}");
    }
    let bad = System { orders: Orders::new(&[0, 1], &[1, 1]).expect("numbers"), ..system(&example("two_by_two.lp")) };
    let path = file("bad_orders.lp", bad.write().expect("a file"));
    assert!(failed(2, &["convert", &path, &own("bad_orders.mtx")]).contains("the column order is no order"));
}

#[test]
fn orders_apart_solve_what_one_order_cannot() {
    // Rows (0 1), (1 0): whatever the one order, both pivots are null; with the rows turned there are two.
    let crossed = file("crossed.mtx", format!("{HEADER}2 2 2\n1 2 1\n2 1 1\n"));
    let turned = file("crossed.txt", "1 0");
    let right = file("crossed_b.txt", "3 5");
    assert_eq!(failed(1, &["solve", &crossed, "--order", &turned, "--refusals", "numbers"]), "refused 9 0\n");
    assert_eq!(done(&["solve", &crossed, "--right", &right, "--rows", &turned]), "5\n3\n");
    assert_eq!(done(&["solve", &crossed, "--right", &right, "--columns", &turned]), "5\n3\n");
    assert!(done(&["structure", &crossed, "--rows", &turned]).contains("row form, slots"));
    assert!(done(&["picture", &crossed, "--columns", &turned]).contains("</svg>"));
    failed(2, &["solve", &crossed, "--order", &turned, "--rows", &turned]);
}
