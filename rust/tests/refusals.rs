//! What is refused, with which number, place and words.
use lilacpliers::*;

const FORMS: [Form; 3] = [Form::Plain, Form::Shared, Form::Row];

/// The refusal that the three forms give alike.
fn refusal(matrix: &Matrix, orders: &Orders, right: &[f64]) -> (u32, u64, String) {
    let [one, two, three] = FORMS.map(|form| match solve(form, matrix, orders, right) {
        Err(Error::Refused(refusal)) => (refusal.number(), refusal.place(), refusal.to_string()),
        other => panic!("{other:?}"),
    });
    assert!(one == two && two == three);
    one
}

fn check(matrix: &Matrix, orders: &Orders, right: &[f64], number: u32, place: u64, words: &str) {
    let found = refusal(matrix, orders, right);
    assert_eq!((found.0, found.1), (number, place), "{}", found.2);
    assert!(found.2.contains(words), "{}", found.2);
}

fn matrix(n: usize, entries: &[(usize, usize, f64)]) -> Matrix {
    Matrix::from_triplets(n, entries).unwrap()
}

fn unit(n: usize) -> Matrix {
    matrix(n, &(0..n).map(|k| (k, k, 1.0)).collect::<Vec<_>>())
}

#[test]
fn rows_out_of_the_limits() {
    for n in [0, 4097, 70_000, usize::MAX] {
        let Err(Error::Refused(refusal)) = Matrix::from_triplets(n, &[]) else { panic!() };
        assert_eq!((refusal.number(), refusal.place()), (1, 0));
        assert_eq!(refusal.to_string(), format!("the matrix has {n} rows; 1 to 4096 are taken"));
    }
    for n in [0usize, 4097, 70_000] {
        let empty = Matrix::from_rows(vec![0; n + 1], vec![], vec![]).unwrap();
        check(&empty, &Orders::natural(n), &vec![0.0; n], 1, 0, "1 to 4096 are taken");
        let Err(Error::Refused(refusal)) = Structure::find(Form::Plain, &empty, &Orders::natural(n)) else { panic!() };
        assert_eq!(refusal.number(), 1);
        let system = System { matrix: empty, orders: Orders::natural(n), right: vec![0.0; n] };
        let Err(Error::Refused(refusal)) = system.write() else { panic!() };
        assert_eq!(refusal.number(), 1);
    }
}

#[test]
fn lengths() {
    let natural = Orders::natural(2);
    check(&unit(2), &natural, &[1.0], 2, 0, "the right side has 1 numbers where the matrix has 2 rows");
    check(&unit(2), &Orders::natural(3), &[1.0; 2], 2, 0, "the row order has 3 numbers");
    let orders = Orders::new(&[0, 1], &[0]).unwrap();
    check(&unit(2), &orders, &[1.0; 2], 2, 0, "the column order has 1 numbers");
    let many = matrix(1, &vec![(0, 0, 1.0); 65_537]);
    check(&many, &Orders::natural(1), &[1.0], 2, 0, "the matrix has 65537 entries; up to 65536 are taken");
}

#[test]
fn row_starts() {
    let natural = Orders::natural(2);
    for (starts, place) in [(vec![1, 1, 2], 0), (vec![0, 2, 1], 1), (vec![0, 1, 1], 1), (vec![0, 9, 2], 1)] {
        let wrong = Matrix::from_rows(starts, vec![0, 1], vec![1.0, 1.0]).unwrap();
        check(&wrong, &natural, &[1.0; 2], 3, place, &format!("the row starts are wrong at row {place}"));
        assert!(wrong.to_matrix_market().starts_with("%%MatrixMarket"));
    }
}

#[test]
fn column_out_of_range() {
    let wrong = matrix(2, &[(0, 0, 1.0), (1, 7, 1.0)]);
    let words = "entry 1 (row 1) has column 7, where columns are 0 to 1";
    check(&wrong, &Orders::natural(2), &[1.0; 2], 4, 1, words);
}

#[test]
fn bad_orders() {
    let natural = [0, 1, 2];
    let words = "the row order is wrong at place 2: 1 stands there before; each of 0 to 2 is due once";
    check(&unit(3), &Orders::new(&[0, 1, 1], &natural).unwrap(), &[1.0; 3], 5, 2, words);
    let words = "the column order is wrong at place 1: 9 is out of range";
    check(&unit(3), &Orders::new(&natural, &[0, 9, 1]).unwrap(), &[1.0; 3], 5, 4, words);
    let words = "the column order is wrong at place 0: 9 is out of range";
    check(&unit(3), &Orders::new(&natural, &[9, 0, 1]).unwrap(), &[1.0; 3], 5, 3, words);
    let error = Orders::new(&natural, &[0, 70_000, 1]).unwrap_err();
    assert_eq!(error.to_string(), "the column order has 70000 at place 1, which is out of range");
}

#[test]
fn not_finite() {
    let natural = Orders::natural(2);
    let wrong = unit(2).with_values(vec![1.0, f64::NAN]).unwrap();
    check(&wrong, &natural, &[1.0; 2], 6, 1, "the value of entry 1 is not finite (row 1)");
    check(&unit(2), &natural, &[1.0, f64::INFINITY], 6, 3, "number 1 of the right side is not finite");
    let (factors, _) = Factors::solve(Form::Plain, &unit(2), &natural, &[1.0; 2]).unwrap();
    let Err(Error::Refused(refusal)) = factors.solve_again(&[1.0, f64::NAN]) else { panic!() };
    assert_eq!((refusal.number(), refusal.place(), refusal.row()), (6, 1, Some(1)));
    assert_eq!(refusal.to_string(), "number 1 of the right side is not finite");
}

#[test]
fn values_are_asked_before_rows() {
    let wrong = matrix(2, &[(0, 0, f64::NAN)]);
    check(&wrong, &Orders::natural(2), &[1.0; 2], 6, 0, "not finite");
}

#[test]
fn empty_row() {
    check(&matrix(3, &[(0, 0, 1.0), (2, 2, 1.0)]), &Orders::natural(3), &[1.0; 3], 7, 1, "row 1 has no entry");
}

#[test]
fn missing_diagonal_and_zero_pivot() {
    let crossed = matrix(2, &[(0, 1, 1.0), (1, 0, 1.0)]);
    let words = "the pivot at place 0 (row 0) has no entry and no fill; another order may avoid it";
    check(&crossed, &Orders::natural(2), &[1.0; 2], 9, 0, words);
    let turned = Orders::new(&[1, 0], &[0, 1]).unwrap();
    assert_eq!(solve(Form::Plain, &crossed, &turned, &[1.0, 2.0]).unwrap().x, [2.0, 1.0]);
    let ones = matrix(2, &[(0, 0, 1.0), (0, 1, 1.0), (1, 0, 1.0), (1, 1, 1.0)]);
    let words = "the pivot at place 1 (row 0, column 1) is zero; another order may avoid it";
    check(&ones, &turned, &[1.0; 2], 12, 1, words);
    check(
        &ones,
        &Orders::natural(2),
        &[1.0; 2],
        12,
        1,
        "the pivot at place 1 (row 1) is zero; another order may avoid it",
    );
    check(&matrix(1, &[(0, 0, -0.0)]), &Orders::natural(1), &[1.0], 12, 0, "is zero");
}

#[test]
fn overflow() {
    let tiny = matrix(1, &[(0, 0, f64::from_bits(1 << 50))]);
    check(&tiny, &Orders::natural(1), &[1.0], 13, 0, "a result at place 0 (row 0) is not finite");
}

#[test]
fn more_slots_than_there_are() {
    let n = 1600;
    let mut entries: Vec<_> = (0..n).map(|k| (k, k, 4.0)).collect();
    entries.extend((1..n).flat_map(|k| [(0, k, 0.1), (k, 0, 0.1)]));
    let arrow = matrix(n, &entries);
    let right = vec![1.0; n];
    let numbers = FORMS.map(|form| match solve(form, &arrow, &Orders::natural(n), &right) {
        Err(Error::Refused(refusal)) => (refusal.number(), refusal.to_string()),
        other => panic!("{:?}", other.map(|solution| solution.counts)),
    });
    assert_eq!(numbers.clone().map(|(number, _)| number), [11, 10, 11]);
    assert!(numbers[0].1.contains("need over 1048576 slots"), "{}", numbers[0].1);
    let backwards: Vec<usize> = (0..n).rev().collect();
    let orders = Orders::new(&backwards, &backwards).unwrap();
    assert!(solve(Form::Plain, &arrow, &orders, &right).is_ok());
}

#[test]
fn other_structure() {
    for form in [Form::Plain, Form::Shared] {
        let (mut factors, _) = Factors::solve(form, &unit(2), &Orders::natural(2), &[1.0; 2]).unwrap();
        let other = matrix(2, &[(0, 0, 1.0), (1, 1, 1.0), (1, 0, 1.0)]);
        let error = factors.refactor(&other, &[1.0; 2]).unwrap_err().to_string();
        assert!(error.contains("the matrix has another structure than the factors"), "{error}");
        let error = factors.refactor(&unit(3), &[1.0; 3]).unwrap_err().to_string();
        assert_eq!(error, "the matrix has 3 rows where the factors have 2: solve it anew");
        let error = factors.solve_again(&[1.0; 3]).unwrap_err().to_string();
        assert_eq!(error, "the right side has 3 numbers where the matrix has 2 rows");
    }
}

#[test]
fn row_form_keeps_nothing() {
    let natural = Orders::natural(1);
    assert_eq!(Structure::find(Form::Row, &unit(1), &natural), Err(Error::RowForm));
    assert_eq!(Factors::solve(Form::Row, &unit(1), &natural, &[1.0]).unwrap_err(), Error::RowForm);
}

#[test]
fn shapes() {
    assert!(Matrix::from_rows(vec![], vec![], vec![]).is_err());
    let error = Matrix::from_rows(vec![0, 1], vec![0], vec![]).unwrap_err();
    assert_eq!(error.to_string(), "there are 1 columns but 0 values");
    assert!(unit(2).with_values(vec![1.0]).is_err());
    let error = Matrix::from_triplets(2, &[(0, 0, 1.0), (2, 0, 1.0)]).unwrap_err();
    assert_eq!(error.to_string(), "entry 1 has row 2, which is not below 2");
    assert!(Matrix::from_triplets(2, &[(0, 70_000, 1.0)]).is_err());
    assert_eq!(unit(2).row(2).count() + unit(2).row(usize::MAX).count(), 0);
}
