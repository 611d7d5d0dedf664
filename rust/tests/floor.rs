//! The floor under pivots: what it refuses, when it is refused itself, and that 0 changes nothing.
use lilacpliers::*;

const KEPT: [Form; 2] = [Form::Plain, Form::Shared];
const FORMS: [Form; 3] = [Form::Plain, Form::Shared, Form::Row];
/// The least number above 0.
const LEAST: f64 = f64::from_bits(1);
const NO_FLOORS: [f64; 6] = [f64::NAN, -f64::NAN, f64::INFINITY, f64::NEG_INFINITY, -1.0, -LEAST];
const NO_FLOOR_WORDS: &str = "the floor under pivots must be a finite number, zero or greater";

/// The bits of x, or number, place and words.
type Outcome = Result<Vec<u64>, (u32, u64, String)>;

fn told(found: Result<Vec<f64>, Error>) -> Outcome {
    match found {
        Ok(x) => Ok(x.iter().map(|value| value.to_bits()).collect()),
        Err(Error::Refused(refusal)) => Err((refusal.number(), refusal.place(), refusal.to_string())),
        Err(other) => panic!("{other:?}"),
    }
}

/// What a solve over a floor gives in all three forms, with the factors kept and without.
fn above(matrix: &Matrix, orders: &Orders, right: &[f64], floor: f64) -> Outcome {
    let solved = |form| told(solve_above(form, matrix, orders, right, floor).map(|solution| solution.x));
    let [plain, shared, row] = FORMS.map(solved);
    assert!(plain == shared && plain == row, "{plain:?} {shared:?} {row:?}");
    for form in KEPT {
        let kept = Factors::solve_above(form, matrix, orders, right, floor);
        assert_eq!(told(kept.map(|(_, solution)| solution.x)), plain);
    }
    plain
}

/// The same in the natural order, also as new values over factors of the same pattern.
fn above_in_order(matrix: &Matrix, right: &[f64], floor: f64) -> Outcome {
    let orders = Orders::natural(matrix.rows());
    let found = above(matrix, &orders, right, floor);
    for form in KEPT {
        let (mut factors, _) = Factors::solve(form, &firm(matrix), &orders, right).unwrap();
        assert_eq!(told(factors.refactor_above(matrix, right, floor)), found);
    }
    found
}

/// The pattern of a matrix with values that can be solved.
fn firm(matrix: &Matrix) -> Matrix {
    let row = |i| matrix.row(i).map(move |(j, _)| if i == j { 64.0 } else { 1.0 });
    matrix.with_values((0..matrix.rows()).flat_map(row).collect()).unwrap()
}

fn matrix(n: usize, entries: &[(usize, usize, f64)]) -> Matrix {
    Matrix::from_triplets(n, entries).unwrap()
}

fn number(value: f64) -> Matrix {
    matrix(1, &[(0, 0, value)])
}

/// Pivots 4 and -3, and the solution (-1, 2) for the right side (12, -3).
fn four_and_three() -> Matrix {
    matrix(2, &[(0, 0, 4.0), (0, 1, 8.0), (1, 0, 1.0), (1, 1, -1.0)])
}

fn at_most(place: u64) -> Outcome {
    let words = "is at most the floor; another order or a lower floor may avoid it";
    Err((12, place, format!("the magnitude of the pivot at place {place} (row {place}) {words}")))
}

#[test]
fn at_just_below_and_just_above_a_pivot() {
    let solved: Outcome = Ok([-1.0f64, 2.0].map(f64::to_bits).to_vec());
    let cases = [
        (0.0, &solved),
        (LEAST, &solved),
        (3.0f64.next_down(), &solved),
        (3.0, &at_most(1)),
        (3.0f64.next_up(), &at_most(1)),
        (4.0f64.next_down(), &at_most(1)),
        (4.0, &at_most(0)),
        (4.0f64.next_up(), &at_most(0)),
        (f64::MAX, &at_most(0)),
    ];
    for (floor, due) in cases {
        assert_eq!(above_in_order(&four_and_three(), &[12.0, -3.0], floor), *due, "{floor}");
    }
}

#[test]
fn the_place_of_a_pivot_has_its_row_and_column() {
    let orders = Orders::new(&[1, 0], &[0, 1]).unwrap();
    let words = "the magnitude of the pivot at place 1 (row 0, column 1) is at most the floor";
    // Row 1 comes first: pivots 16 and -8 - 4·(-1) = -4.
    let crossed = matrix(2, &[(0, 0, 4.0), (0, 1, -8.0), (1, 0, 16.0), (1, 1, -16.0)]);
    let Err((12, 1, said)) = above(&crossed, &orders, &[1.0; 2], 4.0) else { panic!() };
    assert!(said.starts_with(words), "{said}");
    let Err(Error::Refused(refusal)) = solve_above(Form::Row, &crossed, &orders, &[1.0; 2], 4.0) else { panic!() };
    assert_eq!(refusal.row(), Some(0));
}

#[test]
fn zeros_of_either_sign() {
    for floor in [0.0, -0.0] {
        for zero in [0.0, -0.0] {
            let words = "the pivot at place 0 (row 0) is zero; another order may avoid it";
            assert_eq!(above_in_order(&number(zero), &[1.0], floor), Err((12, 0, words.into())));
        }
        assert_eq!(above_in_order(&number(-2.0), &[1.0], floor), Ok(vec![(-0.5f64).to_bits()]));
    }
    // Under a greater floor a zero is one of the pivots at most as great.
    assert_eq!(above_in_order(&number(-0.0), &[1.0], LEAST), at_most(0));
}

#[test]
fn subnormal_floors() {
    let half = f64::MIN_POSITIVE / 2.0;
    for pivot in [half, -half] {
        let solved = Ok(vec![(1.0 / pivot).to_bits()]);
        assert_eq!(above_in_order(&number(pivot), &[1.0], half.next_down()), solved);
        assert_eq!(above_in_order(&number(pivot), &[1.0], half), at_most(0));
        assert_eq!(above_in_order(&number(pivot), &[1.0], half.next_up()), at_most(0));
    }
}

#[test]
fn calls_without_a_floor_refuse_zero_only() {
    let (orders, half) = (Orders::natural(1), f64::MIN_POSITIVE / 2.0);
    let (small, solved) = (number(half), [1.0 / half]);
    for form in FORMS {
        assert_eq!(solve(form, &small, &orders, &[1.0]).unwrap().x, solved);
    }
    for form in KEPT {
        let (mut factors, solution) = Factors::solve(form, &small, &orders, &[1.0]).unwrap();
        assert_eq!((&solution.x[..], &factors.refactor(&small, &[1.0]).unwrap()[..]), (&solved[..], &solved[..]));
        assert_eq!(told(factors.refactor(&number(0.0), &[1.0])), above_in_order(&number(0.0), &[1.0], 0.0));
    }
}

/// Within a place: the results of its row, the pivot, its reciprocal.
#[test]
fn the_floor_among_results_that_are_not_finite() {
    let overflow = |place| Err((13, place));
    let found = |matrix: &Matrix, right: &[f64], floor| {
        above_in_order(matrix, right, floor).map_err(|(number, place, _)| (number, place))
    };
    assert_eq!(found(&number(2.0 * LEAST), &[1.0], LEAST), overflow(0));
    assert_eq!(found(&number(2.0 * LEAST), &[1.0], 2.0 * LEAST), Err((12, 0)));
    // The pivot of place 1 is 0.5; its right side overflows where y(0) is 1e200.
    let steep = matrix(2, &[(0, 0, 1.0), (1, 0, 1e200), (1, 1, 0.5)]);
    assert_eq!(found(&steep, &[1.0, 1.0], 0.5), Err((12, 1)));
    assert_eq!(found(&steep, &[1e200, 1.0], 0.5), overflow(1));
    // The pivot of place 1 itself is minus infinity, which no floor reaches.
    let infinite = matrix(2, &[(0, 0, 2.0), (0, 1, 1e200), (1, 0, 1e200), (1, 1, 1.0)]);
    assert_eq!(found(&infinite, &[1.0, 1.0], 1.0), overflow(1));
    assert_eq!(found(&infinite, &[1.0, 1.0], 2.0), Err((12, 0)));
}

#[test]
fn floors_that_are_none() {
    for floor in NO_FLOORS {
        let due = Err((19, 0, NO_FLOOR_WORDS.into()));
        assert_eq!(above_in_order(&four_and_three(), &[12.0, -3.0], floor), due);
        let natural = Orders::natural(2);
        let found = solve_above(Form::Row, &four_and_three(), &natural, &[1.0; 2], floor);
        let Err(Error::Refused(refusal)) = found else { panic!() };
        assert_eq!(refusal.row(), None);
    }
    assert_eq!(Factors::solve_above(Form::Row, &number(1.0), &Orders::natural(1), &[1.0], -1.0), Err(Error::RowForm));
}

/// Systems with a fault of their own, behind its number.
fn faulty() -> Vec<(u32, Matrix, Orders, Vec<f64>)> {
    let (natural, ones) = (Orders::natural(2), vec![1.0; 2]);
    let rows = |starts: [u32; 3], columns: &[u16]| {
        Matrix::from_rows(starts.to_vec(), columns.to_vec(), vec![1.0; columns.len()]).unwrap()
    };
    let sum = rows([0, 1, 3], &[0, 1, 1]).with_values(vec![1.0, f64::MAX, f64::MAX]).unwrap();
    let twice = Orders::new(&[0, 1], &[1, 1]).unwrap();
    vec![
        (1, Matrix::from_rows(vec![0; 4098], vec![], vec![]).unwrap(), Orders::natural(4097), vec![1.0; 4097]),
        (2, four_and_three(), natural.clone(), vec![1.0; 3]),
        (3, rows([0, 3, 2], &[0, 1]), natural.clone(), ones.clone()),
        (4, rows([0, 1, 2], &[0, 2]), natural.clone(), ones.clone()),
        (5, four_and_three(), twice, ones.clone()),
        (6, number(f64::NAN), Orders::natural(1), vec![1.0]),
        (6, number(1.0), Orders::natural(1), vec![f64::INFINITY]),
        (7, rows([0, 1, 1], &[0]), natural.clone(), ones.clone()),
        (9, rows([0, 1, 2], &[1, 0]), natural.clone(), ones.clone()),
        (12, rows([0, 2, 4], &[0, 1, 0, 1]), natural.clone(), ones.clone()),
        (13, sum, natural, ones),
        (13, number(LEAST), Orders::natural(1), vec![1.0]),
    ]
}

#[test]
fn a_floor_is_asked_after_6_and_before_7() {
    for (number, matrix, orders, right) in faulty() {
        let Err(sound) = above(&matrix, &orders, &right, 0.0) else { panic!("{number}") };
        assert_eq!(sound.0, number);
        for floor in NO_FLOORS {
            let due = if number <= 6 { sound.clone() } else { (19, 0, NO_FLOOR_WORDS.into()) };
            assert_eq!(above(&matrix, &orders, &right, floor), Err(due));
        }
    }
}

/// A refactor asks 14 where a solve would find a missing pivot. The orders are those of the factors, so they are sound.
#[test]
fn a_refactor_asks_a_floor_after_6_and_before_7() {
    for form in KEPT {
        let factors = |n: usize, orders: &Orders| {
            let unit = matrix(n, &(0..n).map(|k| (k, k, 1.0)).collect::<Vec<_>>());
            Factors::solve(form, &unit, orders, &vec![1.0; n]).unwrap().0
        };
        for (number, matrix, orders, right) in faulty().into_iter().filter(|case| !matches!(case.0, 1 | 5)) {
            let mut factors = factors(matrix.rows(), &orders);
            let Err(sound) = told(factors.refactor_above(&matrix, &right, 0.0)) else { panic!("{number}") };
            assert_eq!(sound.0, if matches!(number, 9 | 12) { 14 } else { number });
            for floor in NO_FLOORS {
                let due = if number <= 6 { sound.clone() } else { (19, 0, NO_FLOOR_WORDS.into()) };
                assert_eq!(told(factors.refactor_above(&matrix, &right, floor)), Err(due));
            }
        }
    }
}

#[test]
fn a_refactor_takes_its_own_floor_and_a_refused_one_keeps_the_factors() {
    let right = [12.0, -3.0];
    let halved = four_and_three().with_values(vec![2.0, 4.0, 0.5, -0.5]).unwrap();
    for form in KEPT {
        let (mut factors, _) = Factors::solve_above(form, &four_and_three(), &Orders::natural(2), &right, 2.5).unwrap();
        for (floor, number) in [(1.5, 12), (2.5, 12), (-1.0, 19)] {
            let before = factors.clone();
            let Err(refused) = told(factors.refactor_above(&halved, &right, floor)) else { panic!("{floor}") };
            assert_eq!(refused.0, number);
            assert_eq!(factors, before);
            assert_eq!(factors.solve_again(&right).unwrap(), [-1.0, 2.0]);
        }
        // Pivots 2 and -1.5.
        assert_eq!(factors.refactor_above(&halved, &right, 1.5f64.next_down()).unwrap(), [-2.0, 4.0]);
        assert_eq!(factors.refactor(&halved, &right).unwrap(), [-2.0, 4.0]);
        assert_eq!(factors.solve_again(&right).unwrap(), [-2.0, 4.0]);
    }
}

/// Numbers of a plain generator, from -8 to 8.
struct Numbers(u64);

impl Numbers {
    fn next(&mut self) -> f64 {
        self.0 = self.0.wrapping_mul(6364136223846793005).wrapping_add(1442695040888963407);
        (self.0 >> 11) as f64 / (1u64 << 49) as f64 - 8.0
    }

    fn list(&mut self, n: usize) -> Vec<f64> {
        (0..n).map(|_| self.next()).collect()
    }
}

/// The pivots and the bits of x of a full matrix, by rows, in the listed order of operations.
fn eliminated(rows: &[Vec<f64>], right: &[f64]) -> (Vec<f64>, Vec<u64>) {
    let n = rows.len();
    let (mut pivots, mut y, mut u): (Vec<f64>, Vec<f64>, Vec<Vec<f64>>) = Default::default();
    for k in 0..n {
        let (mut w, mut s) = (rows[k].clone(), right[k]);
        for i in 0..k {
            s -= w[i] * y[i];
            for j in i + 1..n {
                w[j] -= w[i] * u[i][j];
            }
        }
        let d = 1.0 / w[k];
        pivots.push(w[k]);
        y.push(s * d);
        u.push(w.iter().map(|value| value * d).collect());
    }
    for k in (0..n).rev() {
        for j in k + 1..n {
            y[k] -= u[k][j] * y[j];
        }
    }
    (pivots, y.iter().map(|value| value.to_bits()).collect())
}

#[test]
fn full_matrices_against_an_elimination_without_a_floor() {
    let mut numbers = Numbers(5);
    for case in 0..200 {
        let n = 1 + case % 7;
        let rows: Vec<Vec<f64>> = (0..n).map(|_| numbers.list(n)).collect();
        let right = numbers.list(n);
        let (pivots, x) = eliminated(&rows, &right);
        let entry = |k: usize| (k / n, k % n, rows[k / n][k % n]);
        let matrix = matrix(n, &(0..n * n).map(entry).collect::<Vec<_>>());
        let near = |pivot: &f64| [pivot.abs().next_down(), pivot.abs(), pivot.abs().next_up()];
        for floor in pivots.iter().flat_map(near).chain([0.0, -0.0, LEAST]) {
            let due = match pivots.iter().position(|pivot| pivot.abs() <= floor) {
                Some(place) => at_most(place as u64),
                None => Ok(x.clone()),
            };
            assert_eq!(above_in_order(&matrix, &right, floor), due, "{pivots:?} {floor}");
        }
        assert_eq!(told(solve(Form::Plain, &matrix, &Orders::natural(n), &right).map(|found| found.x)), Ok(x));
    }
}
