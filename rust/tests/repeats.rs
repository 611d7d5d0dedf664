//! A column that stands several times in a row: its values are added in stored order, from the first of them.
use lilacpliers::*;

const KEPT: [Form; 2] = [Form::Plain, Form::Shared];
const FORMS: [Form; 3] = [Form::Plain, Form::Shared, Form::Row];
/// The least number above 0.
const LEAST: f64 = f64::from_bits(1);
const MAX: f64 = f64::MAX;

/// The bits of x, or number and place.
type Outcome = Result<Vec<u64>, (u32, u64)>;

fn bits(x: &[f64]) -> Vec<u64> {
    x.iter().map(|value| value.to_bits()).collect()
}

fn told(found: Result<Vec<f64>, Error>) -> Outcome {
    match found {
        Ok(x) => Ok(bits(&x)),
        Err(Error::Refused(refusal)) => Err((refusal.number(), refusal.place())),
        Err(other) => panic!("{other:?}"),
    }
}

fn matrix(n: usize, entries: &[(usize, usize, f64)]) -> Matrix {
    Matrix::from_triplets(n, entries).unwrap()
}

/// Row and column of each entry as they are stored, with the value.
fn entries(matrix: &Matrix) -> Vec<(usize, usize, f64)> {
    (0..matrix.rows()).flat_map(|i| matrix.row(i).map(move |(j, value)| (i, j, value))).collect()
}

/// What the three forms give alike, and so do new values over the factors of the same positions.
fn outcome(matrix: &Matrix, orders: &Orders, right: &[f64]) -> Outcome {
    let [plain, shared, row] = FORMS.map(|form| told(solve(form, matrix, orders, right).map(|solution| solution.x)));
    assert!(plain == shared && plain == row, "{plain:?} {shared:?} {row:?}");
    for form in KEPT {
        // A diagonal of 64, whatever the order, in the place of these values.
        let place = |order: &[u16], own: usize| order.iter().position(|&other| usize::from(other) == own);
        let firm = |(i, j, _)| if place(orders.rows(), i) == place(orders.columns(), j) { 64.0 } else { 1.0 };
        let firm = matrix.with_values(entries(matrix).into_iter().map(firm).collect()).unwrap();
        // Where the structure itself is refused there is nothing to refactor.
        match Factors::solve(form, &firm, orders, right) {
            Ok((mut factors, _)) => assert_eq!(told(factors.refactor(matrix, right)), plain),
            Err(_) => assert!(plain.is_err(), "{plain:?}"),
        }
    }
    plain
}

fn in_order(matrix: &Matrix, right: &[f64]) -> Outcome {
    outcome(matrix, &Orders::natural(matrix.rows()), right)
}

/// One row with these entries, b = 1.
fn one(values: &[f64]) -> Outcome {
    in_order(&matrix(1, &values.iter().map(|&value| (0, 0, value)).collect::<Vec<_>>()), &[1.0])
}

#[test]
fn values_are_added_in_stored_order() {
    let large = 2f64.powi(53);
    let solved = |x: f64| Ok(vec![x.to_bits()]);
    assert_eq!(one(&[1.0, 3.0]), solved(0.25));
    assert_eq!(one(&[0.1, 0.2, 0.3]), solved(1.0 / 0.6000000000000001));
    assert_eq!(one(&[0.3, 0.2, 0.1]), solved(1.0 / 0.6));
    assert_eq!(one(&[-large, 1.0, large]), solved(1.0));
    assert_eq!(one(&[large, 1.0, -large]), Err((12, 0)));
    assert_eq!(one(&[1.0, large, -large]), Err((12, 0)));
    assert_eq!(one(&[f64::from_bits(1 << 50); 2]), solved(2f64.powi(1023)));
}

#[test]
fn other_entries_may_stand_between() {
    let apart = matrix(2, &[(0, 0, 1.0), (1, 1, 1.0), (0, 1, 4.0), (1, 0, 1.0), (1, 1, 3.0), (0, 0, 1.0)]);
    assert_eq!(apart.row(0).collect::<Vec<_>>(), [(0, 1.0), (1, 4.0), (0, 1.0)]);
    assert_eq!(in_order(&apart, &[10.0, 9.0]), Ok(bits(&[1.0, 2.0])));
}

/// A diagonal of ones with values at (0, 1), b = (-0, 1): x(0) is +0 where they come to -0, and -0 where they come to
/// +0.
#[test]
fn the_sign_of_a_zero_sum() {
    let above = |values: &[f64]| {
        let cited = values.iter().map(|&value| (0, 1, value));
        let all: Vec<_> = [(0, 0, 1.0), (1, 1, 1.0)].into_iter().chain(cited).collect();
        in_order(&matrix(2, &all), &[-0.0, 1.0])
    };
    for negative in [&[-0.0][..], &[-0.0; 2], &[-0.0; 3]] {
        assert_eq!(above(negative), Ok(bits(&[0.0, 1.0])), "{negative:?}");
    }
    for positive in [&[0.0][..], &[0.0, -0.0], &[-0.0, 0.0], &[1.0, -1.0], &[-1.0, 1.0], &[-LEAST, LEAST, -0.0]] {
        assert_eq!(above(positive), Ok(bits(&[-0.0, 1.0])), "{positive:?}");
    }
}

#[test]
fn a_sum_that_is_not_finite() {
    for values in [&[MAX, MAX][..], &[MAX, MAX, -MAX], &[-MAX, -MAX, MAX, MAX], &[MAX, 2f64.powi(970)]] {
        assert_eq!(one(values), Err((13, 0)), "{values:?}");
    }
    for values in [&[MAX, -MAX, MAX][..], &[MAX, 2f64.powi(969)]] {
        assert_eq!(one(values), Ok(vec![(1.0 / MAX).to_bits()]), "{values:?}");
    }
    let orders = Orders::new(&[1, 0], &[0, 1]).unwrap();
    let turned = matrix(2, &[(1, 0, 1.0), (0, 1, MAX), (0, 1, MAX)]);
    let Err(Error::Refused(refusal)) = solve(Form::Row, &turned, &orders, &[1.0; 2]) else { panic!() };
    assert_eq!((refusal.number(), refusal.place(), refusal.row()), (13, 1, Some(0)));
    assert!(refusal.to_string().starts_with("a result at place 1 (row 0, column 1) is not finite"), "{refusal}");
}

#[test]
fn what_an_earlier_place_refuses_comes_first() {
    let behind = |first: f64| in_order(&matrix(2, &[(0, 0, first), (1, 1, MAX), (1, 1, MAX)]), &[1.0; 2]);
    assert_eq!([behind(1.0), behind(0.0), behind(LEAST)], [Err((13, 1)), Err((12, 0)), Err((13, 0))]);
    // In its own place a sum comes before the pivot.
    assert_eq!(in_order(&matrix(2, &[(0, 0, 0.0), (0, 1, MAX), (0, 1, MAX), (1, 1, 1.0)]), &[1.0; 2]), Err((13, 0)));
    // The structure is settled for every place first, and so are values and rows.
    assert_eq!(in_order(&matrix(2, &[(0, 0, MAX), (0, 0, MAX), (1, 0, 1.0)]), &[1.0; 2]), Err((9, 1)));
    assert_eq!(in_order(&matrix(2, &[(0, 0, MAX), (0, 0, MAX)]), &[1.0; 2]), Err((7, 1)));
    assert_eq!(in_order(&matrix(1, &[(0, 0, MAX), (0, 0, MAX), (0, 0, f64::NAN)]), &[1.0]), Err((6, 2)));
}

#[test]
fn a_sum_of_zero_keeps_its_position() {
    let kept = matrix(2, &[(0, 0, 1.0), (0, 1, 1.0), (0, 1, -1.0), (1, 0, 1.0)]);
    // (1, 1) is filled by way of (0, 1), and its pivot is zero.
    assert_eq!(in_order(&kept, &[1.0; 2]), Err((12, 1)));
    for form in KEPT {
        let structure = Structure::find(form, &kept, &Orders::natural(2)).unwrap();
        assert_eq!(structure.counts(), Counts { lower: 1, upper: 1, products: 1 });
        assert_eq!(structure.list(Side::Upper, 0), [1]);
    }
}

const HEAD: &str = "%%MatrixMarket matrix coordinate";

#[test]
fn texts_keep_repeats_in_their_order() {
    let read = |text: String| entries(&Matrix::from_matrix_market(&text).unwrap());
    let general = read(format!("{HEAD} real general\n2 2 5\n2 1 5\n1 1 1\n2 2 7\n2 1 6\n1 1 -1\n"));
    assert_eq!(general, [(0, 0, 1.0), (0, 0, -1.0), (1, 0, 5.0), (1, 1, 7.0), (1, 0, 6.0)]);
    let symmetric = read(format!("{HEAD} real symmetric\n2 2 4\n1 1 2\n2 1 3\n1 1 4\n2 1 5\n"));
    assert_eq!(symmetric, [(0, 0, 2.0), (0, 1, 3.0), (0, 0, 4.0), (0, 1, 5.0), (1, 0, 3.0), (1, 0, 5.0)]);
    let pattern = format!("{HEAD} pattern general\n1 1 3\n1 1\n1 1\n1 1\n");
    assert_eq!(read(pattern.clone()), [(0, 0, 1.0); 3]);
    // Three entries of 1.
    assert_eq!(in_order(&Matrix::from_matrix_market(&pattern).unwrap(), &[6.0]), Ok(bits(&[2.0])));
}

#[test]
fn texts_and_files_hold_each_entry() {
    let matrix = matrix(2, &[(0, 0, 0.1), (1, 1, -0.0), (0, 0, 0.2), (1, 1, 1.0), (1, 1, -0.0), (0, 0, 0.3)]);
    let text = matrix.to_matrix_market();
    assert_eq!(text.lines().nth(1), Some("2 2 6"));
    let back = Matrix::from_matrix_market(&text).unwrap();
    assert_eq!((entries(&back), bits(back.values())), (entries(&matrix), bits(matrix.values())));
    let system = System { matrix, orders: Orders::natural(2), right: vec![1.0; 2] };
    let back = System::read(&system.write().unwrap()).unwrap();
    assert_eq!(bits(back.matrix.values()), bits(system.matrix.values()));
    assert_eq!(back, system);
}

#[test]
fn as_many_entries_as_there_may_be() {
    let many = |n: usize, e: usize| {
        let entries: Vec<_> = (0..e).map(|k| (k % n, k % n, 0.25)).collect();
        in_order(&matrix(n, &entries), &vec![1.0; n])
    };
    assert_eq!(many(1, 65_536), Ok(bits(&[1.0 / 16_384.0])));
    assert_eq!(many(16, 65_536), Ok(bits(&[1.0 / 1_024.0; 16])));
    assert_eq!(many(4_096, 65_536), Ok(bits(&[0.25; 4_096])));
    assert_eq!(many(1, 65_537), Err((2, 0)));
}

#[test]
fn factors_serve_new_values_and_another_right_side() {
    let orders = Orders::natural(2);
    let cited = matrix(2, &[(0, 0, 1.0), (0, 1, 4.0), (0, 0, 1.0), (1, 0, 1.0), (1, 1, 1.0), (1, 1, 3.0)]);
    for form in KEPT {
        let (mut factors, solution) = Factors::solve(form, &cited, &orders, &[10.0, 9.0]).unwrap();
        assert_eq!(solution.x, [1.0, 2.0]);
        assert_eq!(factors.solve_again(&[6.0, 5.0]).unwrap(), [1.0, 1.0]);
        let others = cited.with_values(vec![3.0, 4.0, -1.0, 1.0, 0.5, 3.5]).unwrap();
        assert_eq!(factors.refactor(&others, &[6.0, 5.0]).unwrap(), [1.0, 1.0]);
        // Only the positions count, not how often each is given.
        let once = matrix(2, &[(0, 0, 2.0), (0, 1, 4.0), (1, 0, 1.0), (1, 1, 4.0)]);
        assert_eq!(factors.refactor(&once, &[10.0, 9.0]).unwrap(), [1.0, 2.0]);
        let before = factors.clone();
        let refused = cited.with_values(vec![1.0, 4.0, 1.0, 1.0, MAX, MAX]).unwrap();
        assert_eq!(told(factors.refactor(&refused, &[10.0, 9.0])), Err((13, 1)));
        assert_eq!(factors, before);
    }
}

/// Numbers of a plain generator.
struct Random(u64);

impl Random {
    fn below(&mut self, limit: usize) -> usize {
        self.0 = self.0.wrapping_mul(6364136223846793005).wrapping_add(1442695040888963407);
        (self.0 >> 33) as usize % limit
    }

    fn value(&mut self) -> f64 {
        match self.below(24) {
            0 => 0.0,
            1 => -0.0,
            2 => 2f64.powi(53),
            3 => -2f64.powi(53),
            4 => [MAX, -MAX][self.below(2)],
            _ => self.below(2001) as f64 / 64.0 - 15.0,
        }
    }

    fn order(&mut self, n: usize) -> Vec<usize> {
        let mut order: Vec<usize> = (0..n).collect();
        (0..n).for_each(|k| order.swap(k, self.below(n)));
        order
    }

    /// Entries at any positions, the diagonal among them, each as often as it comes.
    fn cited(&mut self, n: usize) -> Matrix {
        let mut entries: Vec<_> = (0..n).map(|k| (k, k, self.value())).collect();
        for _ in 0..self.below(4 * n * n + 2) {
            let at = self.below(entries.len() + 1);
            entries.insert(at, (self.below(n), self.below(n), self.value()));
        }
        matrix(n, &entries)
    }
}

/// The matrix with each position once, at its first entry, with the sum; None where a sum is not finite.
fn summed(matrix: &Matrix) -> Option<Matrix> {
    let mut sums: Vec<(usize, usize, f64)> = Vec::new();
    for (i, j, value) in entries(matrix) {
        match sums.iter_mut().find(|sum| (sum.0, sum.1) == (i, j)) {
            Some((_, _, sum)) => *sum += value,
            None => sums.push((i, j, value)),
        }
    }
    let finite = sums.iter().all(|sum| sum.2.is_finite());
    finite.then(|| Matrix::from_triplets(matrix.rows(), &sums).unwrap())
}

#[test]
fn random_matrices_beside_their_sums() {
    let mut random = Random(11);
    let (mut repeated, mut solved, mut refused) = (0, 0, 0);
    for _ in 0..2000 {
        let n = 1 + random.below(7);
        let matrix = random.cited(n);
        let orders = Orders::new(&random.order(n), &random.order(n)).unwrap();
        let orders = if random.below(2) == 0 { Orders::natural(n) } else { orders };
        let right: Vec<f64> = (0..n).map(|_| random.below(100) as f64 - 50.0).collect();
        let found = outcome(&matrix, &orders, &right);
        let Some(sums) = summed(&matrix) else {
            // Whatever else is refused, it is not done.
            refused += 1;
            assert!(matches!(found, Err((9 | 12 | 13, _))), "{found:?}");
            continue;
        };
        assert_eq!(found, outcome(&sums, &orders, &right));
        for form in KEPT {
            assert_eq!(Structure::find(form, &matrix, &orders), Structure::find(form, &sums, &orders));
        }
        assert_eq!(Structure::fill_sheet(&matrix, &orders), Structure::fill_sheet(&sums, &orders));
        repeated += usize::from(sums.entries() < matrix.entries());
        solved += usize::from(found.is_ok());
    }
    assert!(repeated > 800 && solved > 300 && refused > 50, "{repeated} {solved} {refused}");
}
