//! The test load: its rule, its figures, what is refused, and what the calls make of it.
use lilacpliers::*;

const FORMS: [Form; 3] = [Form::Plain, Form::Shared, Form::Row];

fn load(n: usize, seed: u16) -> System {
    System::test_load(n, seed).unwrap()
}

fn bits(numbers: &[f64]) -> Vec<u64> {
    numbers.iter().map(|number| number.to_bits()).collect()
}

/// The columns of each row, drawn anew by the rule.
fn drawn(n: usize, seed: u16) -> Vec<Vec<usize>> {
    let mut seed = u32::from(seed);
    let mut draw = || {
        seed = (seed * 25_173 + 13_849) % 65_536;
        seed as usize / 16 % n
    };
    let row = |k| {
        let mut columns = vec![k];
        for column in [draw(), draw(), draw()] {
            if !columns.contains(&column) {
                columns.push(column);
            }
        }
        columns
    };
    (0..n).map(row).collect()
}

/// Compares a load with the rule, every part of it.
fn check(n: usize, seed: u16) {
    let System { matrix, orders, right } = load(n, seed);
    let (mut end, mut columns, mut values) = (0, Vec::new(), Vec::new());
    assert_eq!((matrix.starts().len(), matrix.starts()[0]), (n + 1, 0));
    for (k, row) in drawn(n, seed).into_iter().enumerate() {
        end += row.len();
        assert_eq!(matrix.starts()[k + 1] as usize, end, "n = {n}, seed {seed}, row {k}");
        values.extend(row.iter().map(|&column| if column == k { 4.0 } else { -1.0 }));
        columns.extend(row.into_iter().map(|column| column as u16));
    }
    assert!(matrix.columns() == columns && bits(matrix.values()) == bits(&values), "n = {n}, seed {seed}");
    assert_eq!((orders, right), (Orders::natural(n), vec![1.0; n]));
}

#[test]
fn counts_of_entries() {
    let figures =
        [(1, 0, 1), (2, 1, 4), (9, 1, 29), (64, 1, 252), (256, 1, 1_018), (1_024, 1, 4_091), (4_096, 1, 16_377)];
    for (n, seed, e) in figures {
        let System { matrix, .. } = load(n, seed);
        assert_eq!((matrix.rows(), matrix.entries(), matrix.values().len()), (n, e, e), "n = {n}, seed {seed}");
    }
}

#[test]
fn five_rows_whole() {
    let values = [4.0, -1.0, -1.0, 4.0, -1.0, -1.0, 4.0, -1.0, -1.0, 4.0, -1.0, -1.0, -1.0, 4.0, -1.0, -1.0];
    let columns = [0, 3, 2, 1, 2, 3, 2, 1, 3, 3, 2, 4, 1, 4, 3, 1];
    let matrix = Matrix::from_rows(vec![0, 3, 6, 9, 13, 16], columns.to_vec(), values.to_vec()).unwrap();
    assert_eq!(load(5, 1), System { matrix, orders: Orders::natural(5), right: vec![1.0; 5] });
}

#[test]
fn one_row_has_one_entry_whatever_the_seed() {
    let matrix = Matrix::from_rows(vec![0, 1], vec![0], vec![4.0]).unwrap();
    let due = System { matrix, orders: Orders::natural(1), right: vec![1.0] };
    for seed in [0, 1, 2, 15, 16, 32_768, 65_535] {
        assert_eq!(load(1, seed), due);
    }
}

#[test]
fn loads_follow_the_rule() {
    for n in [1, 2, 3, 4, 5, 9, 64, 1_000, 4_095, 4_096] {
        for seed in [0, 1, 7, 25_173, 51_687, 65_535] {
            check(n, seed);
        }
    }
}

#[test]
fn rows_out_of_the_limits() {
    for n in [0, 4_097, 65_536, 65_537, usize::MAX / 4 + 2, usize::MAX - 1, usize::MAX] {
        for seed in [0, 1, 65_535] {
            let Err(Error::Refused(refusal)) = System::test_load(n, seed) else { panic!("{n}") };
            assert_eq!((refusal.number(), refusal.place(), refusal.row()), (1, 0, None));
            assert_eq!(refusal.to_string(), format!("a test load has 1 to 4096 rows, not {n}"));
        }
    }
}

#[test]
fn a_load_is_written_and_read_back() {
    for (n, seed) in [(1, 0), (2, 1), (5, 1), (256, 9), (4_096, 65_535)] {
        let made = load(n, seed);
        let file = made.write().unwrap();
        let back = System::read(&file).unwrap();
        assert_eq!(back, made);
        assert_eq!(back.write().unwrap(), file);
        let text = made.matrix.to_matrix_market();
        assert_eq!(Matrix::from_matrix_market(&text).unwrap(), made.matrix);
    }
}

#[test]
fn three_forms_give_the_same_bits() {
    for (n, seed) in [(1, 3), (2, 1), (5, 1), (64, 0), (256, 1), (300, 65_535)] {
        let System { matrix, orders, right } = load(n, seed);
        let [plain, shared, row] = FORMS.map(|form| solve(form, &matrix, &orders, &right).unwrap());
        assert_eq!(bits(&plain.x), bits(&shared.x));
        assert_eq!(bits(&plain.x), bits(&row.x));
        assert!(plain.counts == shared.counts && plain.counts == row.counts);
    }
}

/// Counts and shared index slots of a load in its own order.
fn fill(n: usize, seed: u16) -> (Counts, [usize; 2]) {
    let System { matrix, orders, .. } = load(n, seed);
    let plain = Structure::find(Form::Plain, &matrix, &orders).unwrap();
    let shared = Structure::find(Form::Shared, &matrix, &orders).unwrap();
    assert_eq!(plain.counts(), shared.counts());
    (plain.counts(), [shared.slots().lower_index, shared.slots().upper_index])
}

#[test]
fn the_fill_of_known_loads() {
    let counts = Counts { lower: 7_513, upper: 7_515, products: 368_580 };
    assert_eq!(fill(256, 1), (counts, [2_946, 3_744]));
    let counts = Counts { lower: 113_878, upper: 112_859, products: 24_233_048 };
    assert_eq!(fill(1_024, 1), (counts, [40_691, 45_114]));
}
