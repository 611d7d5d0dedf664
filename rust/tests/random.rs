//! Random systems, sound and unsound: nothing panics, and the forms agree bit for bit.
use lilacpliers::*;

struct Random(u64);

impl Random {
    fn next(&mut self) -> u64 {
        self.0 = self.0.wrapping_mul(6364136223846793005).wrapping_add(1442695040888963407);
        self.0 >> 33
    }

    fn below(&mut self, limit: usize) -> usize {
        self.next() as usize % limit.max(1)
    }

    fn chance(&mut self, of: usize) -> bool {
        self.below(of) == 0
    }

    fn value(&mut self) -> f64 {
        match self.below(60) {
            0 => 0.0,
            1 => f64::NAN,
            2 => f64::MAX,
            3 => 5e-324,
            _ => self.below(2001) as f64 / 64.0 - 15.0,
        }
    }

    /// Mostly a floor that lets pivots pass.
    fn floor(&mut self) -> f64 {
        match self.below(24) {
            0 => f64::NAN,
            1 => f64::INFINITY,
            2 => -5e-324,
            3 => -0.0,
            4 => 5e-324,
            5..=9 => self.below(129) as f64 / 64.0,
            _ => 0.0,
        }
    }

    fn order(&mut self, n: usize) -> Vec<usize> {
        let mut order: Vec<usize> = (0..n).collect();
        for k in 0..n {
            order.swap(k, self.below(n));
        }
        if self.chance(15) {
            order.iter_mut().take(1).for_each(|number| *number += 1);
        }
        order
    }

    /// A matrix with most of a diagonal.
    fn matrix(&mut self, n: usize) -> Matrix {
        let mut entries = Vec::new();
        for i in 0..n {
            for j in 0..n {
                if self.chance(4) || (i == j && !self.chance(20)) {
                    entries.push((i, j, self.value()));
                }
            }
        }
        if self.chance(15) {
            entries.push((self.below(n), self.below(n + 2), 1.0));
        }
        Matrix::from_triplets(n, &entries).unwrap()
    }

    /// Parts of any kind.
    fn parts(&mut self) -> Matrix {
        let e = self.below(9);
        let starts = (0..=self.below(5)).map(|_| self.below(e + 2) as u32).collect();
        let columns: Vec<u16> = (0..e).map(|_| self.below(5) as u16).collect();
        let values = (0..e).map(|_| self.value()).collect();
        Matrix::from_rows(starts, columns, values).unwrap()
    }

    fn numbers(&mut self, n: usize) -> Vec<f64> {
        let length = if self.chance(25) { n + 1 } else { n };
        (0..length).map(|_| self.below(2001) as f64 / 32.0 - 30.0).collect()
    }
}

/// Bits and counts, or number, place and words.
type Outcome = Result<(Vec<u64>, Option<Counts>), (u32, u64, String)>;

fn bits(x: &[f64]) -> Vec<u64> {
    x.iter().map(|value| value.to_bits()).collect()
}

fn refused(error: Error) -> (u32, u64, String) {
    match error {
        Error::Refused(refusal) => (refusal.number(), refusal.place(), refusal.to_string()),
        other => panic!("{other:?}"),
    }
}

fn solved(form: Form, matrix: &Matrix, orders: &Orders, right: &[f64], floor: f64) -> Outcome {
    let solution = solve_above(form, matrix, orders, right, floor).map_err(refused)?;
    Ok((bits(&solution.x), Some(solution.counts)))
}

/// Factors, refactor and another right side beside the solve.
fn reuse(form: Form, matrix: &Matrix, orders: &Orders, right: &[f64], other: &Matrix, floor: f64) {
    let Ok((mut factors, solution)) = Factors::solve(form, matrix, orders, right) else { return };
    assert_eq!(Structure::find(form, matrix, orders).unwrap(), *factors.structure());
    assert_eq!(bits(&factors.solve_again(right).unwrap()), bits(&solution.x));
    let anew: Outcome = solved(form, other, orders, right, floor).map(|(x, _)| (x, None));
    let found: Outcome = factors.refactor_above(other, right, floor).map(|x| (bits(&x), None)).map_err(refused);
    assert_eq!(found, anew);
    let last = if let Ok((x, _)) = anew { x } else { bits(&solution.x) };
    assert_eq!(bits(&factors.solve_again(right).unwrap()), last);
}

/// The sheet beside the lists of the plain form, or the refusal of the structure; up to 49 rows are one page.
fn sheet(matrix: &Matrix, orders: &Orders) {
    let shared = Structure::find(Form::Shared, matrix, orders);
    let (structure, sheet) = match Structure::fill_sheet(matrix, orders) {
        Ok(found) => found,
        Err(error) => return assert_eq!(shared, Err(error)),
    };
    let plain = Structure::find(Form::Plain, matrix, orders).unwrap();
    for (k, line) in sheet.lines().skip(1).take(matrix.rows()).enumerate() {
        let numbers: Vec<usize> = line.split_whitespace().map(|word| word.parse().unwrap()).collect();
        let [lower, upper] = [Side::Lower, Side::Upper].map(|side| plain.list(side, k).len());
        assert_eq!(numbers, [k, usize::from(orders.rows()[k]), lower, upper, structure.run(Side::Upper, k)]);
    }
    assert_eq!((Ok(structure), sheet.len()), (shared, 2_050));
}

#[test]
fn forms_agree() {
    let mut random = Random(1);
    let (mut done, mut met) = (0, Vec::new());
    for _ in 0..3000 {
        let n = 1 + random.below(12);
        let matrix = random.matrix(n);
        let orders = Orders::new(&random.order(n), &random.order(n)).unwrap();
        let natural = if random.chance(2) { Orders::natural(n) } else { orders };
        let (right, floor) = (random.numbers(n), random.floor());
        let plain = solved(Form::Plain, &matrix, &natural, &right, floor);
        assert_eq!(plain, solved(Form::Shared, &matrix, &natural, &right, floor));
        assert_eq!(plain, solved(Form::Row, &matrix, &natural, &right, floor));
        sheet(&matrix, &natural);
        let other = matrix.with_values((0..matrix.entries()).map(|_| random.value()).collect()).unwrap();
        reuse(Form::Plain, &matrix, &natural, &right, &other, floor);
        reuse(Form::Shared, &matrix, &natural, &right, &other, floor);
        done += usize::from(plain.is_ok());
        met.extend(plain.err().map(|(number, ..)| number));
    }
    assert!(done > 300, "{done}");
    let times = |number: u32| met.iter().filter(|&&other| other == number).count();
    assert!(times(12) > 30 && times(19) > 30, "{} {}", times(12), times(19));
}

#[test]
fn any_parts() {
    let mut random = Random(2);
    for _ in 0..3000 {
        let matrix = random.parts();
        let n = matrix.rows();
        let orders = Orders::natural(n);
        let (right, floor) = (random.numbers(n), random.floor());
        let plain = solved(Form::Plain, &matrix, &orders, &right, floor);
        assert_eq!(plain, solved(Form::Row, &matrix, &orders, &right, floor));
        sheet(&matrix, &orders);
        let lines = matrix.to_matrix_market().lines().count();
        assert!(lines <= matrix.entries() + 2);
        if let Ok(file) = (System { matrix, orders, right }).write() {
            assert_eq!(System::read(&file).unwrap().write().unwrap(), file);
        }
    }
}

#[test]
fn changed_texts() {
    let mut random = Random(3);
    let text = include_str!("../../examples/grid_3_by_3.mtx");
    let head = text.lines().next().unwrap().len();
    for _ in 0..20_000 {
        let mut bytes = text.as_bytes().to_vec();
        for _ in 0..=random.below(3) {
            let from = if random.chance(4) { 0 } else { head };
            let at = from + random.below(bytes.len() - from);
            bytes[at] = b" \n0123456789.-e%x\xff"[random.below(18)];
        }
        let text = String::from_utf8_lossy(&bytes);
        if let Ok(matrix) = Matrix::from_matrix_market(&text) {
            let _ = solve(Form::Row, &matrix, &Orders::natural(matrix.rows()), &[1.0; 9]);
        }
        let _ = vector_from_text(&text);
    }
}
