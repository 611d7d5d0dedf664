//! Solving in the three forms, new values, and more right sides.
use lilacpliers::*;

const KEPT: [Form; 2] = [Form::Plain, Form::Shared];
const FORMS: [Form; 3] = [Form::Plain, Form::Shared, Form::Row];

fn two_by_two() -> Matrix {
    Matrix::from_triplets(2, &[(0, 0, 2.0), (0, 1, 4.0), (1, 0, 1.0), (1, 1, 4.0)]).unwrap()
}

fn grid() -> (Matrix, Vec<f64>) {
    let matrix = Matrix::from_matrix_market(include_str!("../../examples/grid_3_by_3.mtx")).unwrap();
    (matrix, vector_from_text(include_str!("../../examples/grid_3_by_3_right.txt")).unwrap())
}

fn bits(x: &[f64]) -> Vec<u64> {
    x.iter().map(|value| value.to_bits()).collect()
}

/// A matrix with a full first row, first column and diagonal: everything fills.
fn arrow(n: usize) -> Matrix {
    let mut entries = Vec::new();
    for k in 0..n {
        entries.push((k, k, 4.0 + k as f64 * 0.37));
        if k > 0 {
            entries.extend([(0, k, 0.3), (k, 0, -0.7)]);
        }
    }
    Matrix::from_triplets(n, &entries).unwrap()
}

#[test]
fn two_by_two_in_three_forms() {
    for form in FORMS {
        let solution = solve(form, &two_by_two(), &Orders::natural(2), &[10.0, 9.0]).unwrap();
        assert_eq!(bits(&solution.x), [0x3FF0000000000000, 0x4000000000000000]);
        assert_eq!(solution.counts, Counts { lower: 1, upper: 1, products: 1 });
    }
}

#[test]
fn other_orders_solve_the_same_system() {
    let orders = Orders::new(&[1, 0], &[1, 0]).unwrap();
    for form in FORMS {
        assert_eq!(solve(form, &two_by_two(), &orders, &[10.0, 9.0]).unwrap().x, [1.0, 2.0]);
    }
}

#[test]
fn grid_in_three_forms() {
    let (matrix, right) = grid();
    let found = FORMS.map(|form| solve(form, &matrix, &Orders::natural(9), &right).unwrap());
    for (k, value) in found[0].x.iter().enumerate() {
        assert!((value - (k + 1) as f64).abs() < 1e-12);
    }
    assert_eq!(found[0], found[1]);
    assert_eq!(found[0], found[2]);
}

#[test]
fn forms_agree_bit_for_bit_where_stores_must_grow() {
    let (matrix, orders) = (arrow(200), Orders::natural(200));
    let right: Vec<f64> = (0..200).map(|k| 1.0 / (k as f64 + 3.0)).collect();
    let found = FORMS.map(|form| solve(form, &matrix, &orders, &right).unwrap());
    assert_eq!(found[0].counts.lower, 199 * 200 / 2);
    for other in &found[1..] {
        assert_eq!(found[0].counts, other.counts);
        assert_eq!(bits(&found[0].x), bits(&other.x));
    }
}

#[test]
fn refactor_and_another_right_side_give_the_bits_of_a_solve() {
    for (matrix, orders) in [(grid().0, Orders::natural(9)), (arrow(40), Orders::natural(40))] {
        let n = matrix.rows();
        let first: Vec<f64> = (0..n).map(|k| k as f64 - 2.5).collect();
        let second: Vec<f64> = (0..n).map(|k| 1.0 / (k + 1) as f64).collect();
        let other = matrix.with_values(matrix.values().iter().map(|value| value * 1.1 + 0.01).collect()).unwrap();
        for form in KEPT {
            let (mut factors, solution) = Factors::solve(form, &matrix, &orders, &first).unwrap();
            assert_eq!(factors.counts(), solution.counts);
            assert_eq!(bits(&factors.solve_again(&first).unwrap()), bits(&solution.x));
            let anew = solve(form, &matrix, &orders, &second).unwrap();
            assert_eq!(bits(&factors.solve_again(&second).unwrap()), bits(&anew.x));
            let anew = solve(form, &other, &orders, &second).unwrap();
            assert_eq!(bits(&factors.refactor(&other, &second).unwrap()), bits(&anew.x));
            assert_eq!(bits(&factors.solve_again(&second).unwrap()), bits(&anew.x));
        }
    }
}

#[test]
fn a_refused_refactor_keeps_the_factors() {
    for form in KEPT {
        let (mut factors, _) = Factors::solve(form, &two_by_two(), &Orders::natural(2), &[10.0, 9.0]).unwrap();
        let singular = two_by_two().with_values(vec![1.0; 4]).unwrap();
        let Err(Error::Refused(refusal)) = factors.refactor(&singular, &[10.0, 9.0]) else { panic!() };
        assert_eq!((refusal.number(), refusal.place()), (12, 1));
        assert_eq!(factors.solve_again(&[10.0, 9.0]).unwrap(), [1.0, 2.0]);
    }
}

#[test]
fn structure_of_the_arrow() {
    let (matrix, orders) = (arrow(3), Orders::natural(3));
    let plain = Structure::find(Form::Plain, &matrix, &orders).unwrap();
    let shared = Structure::find(Form::Shared, &matrix, &orders).unwrap();
    assert_eq!(plain.counts(), Counts { lower: 3, upper: 3, products: 5 });
    assert_eq!(shared.counts(), plain.counts());
    assert_eq!(plain.slots(), Slots { lower_index: 3, lower_values: 3, upper_index: 3, upper_values: 3 });
    assert_eq!(shared.slots(), Slots { lower_index: 2, lower_values: 3, upper_index: 2, upper_values: 3 });
    assert_eq!((plain.form(), shared.form()), (Form::Plain, Form::Shared));
    assert_eq!((plain.list(Side::Lower, 2), plain.list(Side::Upper, 1)), (&[0, 1][..], &[2][..]));
    assert_eq!((shared.list(Side::Lower, 0), shared.list(Side::Upper, 1)), (&[1, 2][..], &[2][..]));
    assert_eq!((plain.run(Side::Upper, 1), shared.run(Side::Upper, 1)), (2, 1));
    assert!(plain.list(Side::Lower, 3).is_empty() && plain.list(Side::Lower, usize::MAX).is_empty());
}

#[test]
fn factors_hold_the_lists_of_the_structure() {
    let (matrix, right) = grid();
    for form in KEPT {
        let structure = Structure::find(form, &matrix, &Orders::natural(9)).unwrap();
        let (factors, _) = Factors::solve(form, &matrix, &Orders::natural(9), &right).unwrap();
        assert_eq!(factors.structure(), &structure);
        assert_eq!((factors.slots(), factors.counts()), (structure.slots(), structure.counts()));
        for place in 0..9 {
            assert_eq!(factors.list(Side::Lower, place), structure.list(Side::Lower, place));
        }
    }
}

#[test]
fn one_row() {
    let matrix = Matrix::from_triplets(1, &[(0, 0, 4.0)]).unwrap();
    for form in FORMS {
        assert_eq!(solve(form, &matrix, &Orders::natural(1), &[1.0]).unwrap().x, [0.25]);
    }
}
