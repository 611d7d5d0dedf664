//! How far off a solution is: known rows, all rows, and what is refused in words.
use lilacpliers::*;

fn matrix(n: usize, entries: &[(usize, usize, f64)]) -> Matrix {
    Matrix::from_triplets(n, entries).unwrap()
}

fn bits(found: Residual) -> (u64, u64) {
    (found.residual.to_bits(), found.width.to_bits())
}

fn refused(found: Result<Residual, Error>) -> (u32, u64, Option<usize>, String) {
    match found {
        Err(Error::Refused(refusal)) => (refusal.number(), refusal.place(), refusal.row(), refusal.to_string()),
        other => panic!("not refused: {other:?}"),
    }
}

#[test]
fn known_rows() {
    let tiny = f64::from_bits(1);
    let rows: [(&[f64], f64, f64, (u64, u64)); 5] = [
        // 3 times the number next to a third rounds to 1.
        (&[3.0], 1.0 / 3.0, 1.0, (0, 0x3CD8_0000_0000_0000)),
        // Half of the smallest number rounds to 0: the width covers it.
        (&[tiny], 0.5, 0.0, (0, 1)),
        (&[tiny], -0.5, -0.0, (0, 1)),
        // A column twice is two entries.
        (&[0.1, 0.2], 3.0, 0.9, (0xBCA0_0000_0000_0000, 0x3CDC_CCCC_CCCC_CCCE)),
        (&[f64::MAX / 2.0], 1.0, f64::MAX / 2.0, (0, 0x7CC7_FFFF_FFFF_FFFF)),
    ];
    for (values, x, right, expected) in rows {
        let entries: Vec<_> = values.iter().map(|&value| (0, 0, value)).collect();
        let matrix = matrix(1, &entries);
        let (right, x) = ([right], [x]);
        let found = Check::new(&matrix, &right, &x).residual(0).unwrap();
        assert_eq!(bits(found), expected, "{values:?}");
        assert!(found.width > 0.0 && found.reach() >= found.width);
    }
}

#[test]
fn a_solution_and_a_worse_one() {
    let System { matrix, orders, right } = System::test_load(64, 1).unwrap();
    let mut x = solve(Form::Shared, &matrix, &orders, &right).unwrap().x;
    let good = Check::new(&matrix, &right, &x).residuals().unwrap();
    assert_eq!(good.rows.len(), 64);
    assert!(good.rows.iter().all(|row| row.ratio() <= good.rows[good.worst].ratio()));
    assert!(good.rows[..good.worst].iter().all(|row| row.ratio() < good.rows[good.worst].ratio()));
    x[40] += 1e-6;
    let bad = Check::new(&matrix, &right, &x).residuals().unwrap();
    assert_eq!(bad.worst, 40);
    assert!(bad.rows[40].ratio() > 1e6 && (bad.rows[40].residual + 4e-6).abs() < 1e-12);
}

#[test]
fn refusals_in_words() {
    let whole = matrix(2, &[(0, 0, 2.0), (1, 1, 4.0)]);
    let at = |matrix: &Matrix, right: &[f64], x: &[f64], row| refused(Check::new(matrix, right, x).residual(row));
    let none = Matrix::from_rows(vec![0], vec![], vec![]).unwrap();
    assert_eq!(at(&none, &[], &[], 0), (1, 0, None, "the matrix has 0 rows; 1 to 4096 are taken".into()));
    let words = "the solution has 1 numbers where the matrix has 2 rows";
    assert_eq!(at(&whole, &[1.0, 1.0], &[1.0], 0), (2, 0, None, words.into()));
    let words = "the right side has 3 numbers where the matrix has 2 rows";
    assert_eq!(at(&whole, &[1.0; 3], &[1.0; 2], 0), (2, 0, None, words.into()));
    assert_eq!(at(&whole, &[1.0; 2], &[1.0; 2], 2), (5, 2, None, "there is no row 2: rows are 0 to 1".into()));
    let words = "there is no row 4294967296: rows are 0 to 1";
    assert_eq!(at(&whole, &[1.0; 2], &[1.0; 2], 1 << 32), (5, u32::MAX.into(), None, words.into()));
    let words = "number 1 of the right side is not finite";
    assert_eq!(at(&whole, &[1.0, f64::NAN], &[1.0; 2], 0), (6, 3, Some(1), words.into()));
    let words = "number 1 of the solution is not finite";
    assert_eq!(at(&whole, &[1.0; 2], &[1.0, f64::INFINITY], 0), (6, 5, None, words.into()));
    let empty = matrix(2, &[(0, 0, 2.0), (0, 1, 1.0)]);
    assert_eq!(at(&empty, &[1.0; 2], &[1.0; 2], 1).0, 7);
    assert!(Check::new(&empty, &[1.0; 2], &[1.0; 2]).residual(0).is_ok());
    let words = "a result of row 1 is not finite; scaled rows may avoid it";
    assert_eq!(at(&whole, &[1.0; 2], &[1.0, 1e308], 1), (22, 1, Some(1), words.into()));
}

#[test]
fn all_rows_are_refused_by_the_first() {
    let none = Matrix::from_rows(vec![0], vec![], vec![]).unwrap();
    assert!(matches!(Check::new(&none, &[], &[]).residuals(), Err(Error::Refused(refusal)) if refusal.number() == 1));
    let empty = matrix(2, &[(0, 0, 2.0)]);
    let found = Check::new(&empty, &[1.0; 2], &[1.0; 2]).residuals();
    assert!(matches!(found, Err(Error::Refused(refusal)) if (refusal.number(), refusal.row()) == (7, Some(1))));
}
