//! Matrix files.
use lilacpliers::*;

const GRID: &[u8] = include_bytes!("../../examples/grid_3_by_3.lp");
const SMALL: &[u8] = include_bytes!("../../examples/two_by_two.lp");

fn refusal(bytes: &[u8]) -> (u32, u64, String) {
    match System::read(bytes) {
        Err(Error::Refused(refusal)) => (refusal.number(), refusal.place(), refusal.to_string()),
        other => panic!("{other:?}"),
    }
}

#[test]
fn examples_round_trip() {
    for (file, text) in
        [(GRID, include_str!("../../examples/grid_3_by_3.mtx")), (SMALL, include_str!("../../examples/two_by_two.mtx"))]
    {
        let system = System::read(file).unwrap();
        assert_eq!(system.matrix, Matrix::from_matrix_market(text).unwrap());
        assert_eq!(system.write().unwrap(), file);
        let System { matrix, orders, right } = system;
        assert!(solve(Form::Row, &matrix, &orders, &right).is_ok());
    }
}

#[test]
fn what_is_not_judged_round_trips_too() {
    let system = System {
        matrix: Matrix::from_rows(vec![9, 0, 3, 7], vec![5, 65535], vec![f64::INFINITY, -0.0]).unwrap(),
        orders: Orders::new(&[2, 2, 9], &[0, 65535, 1]).unwrap(),
        right: vec![1.5, 5e-324, -0.0],
    };
    let file = system.write().unwrap();
    let back = System::read(&file).unwrap();
    assert_eq!(back, system);
    assert_eq!(back.write().unwrap(), file);
}

#[test]
fn the_largest_file() {
    let n = 4096;
    let entries: Vec<_> = (0..65_536).map(|k| (k / 16, (k / 16 + k % 16) % n, k as f64)).collect();
    let matrix = Matrix::from_triplets(n, &entries).unwrap();
    let system = System { matrix, orders: Orders::natural(n), right: vec![0.5; n] };
    assert_eq!(System::read(&system.write().unwrap()).unwrap(), system);
}

#[test]
fn damaged_files() {
    assert_eq!(refusal(&[]).2, "0 bytes are no matrix file, which has a positive multiple of 512");
    assert_eq!((refusal(&[]).0, refusal(&GRID[..511]).0), (16, 16));
    let found = refusal(&[0; 512]);
    assert_eq!((found.0, found.2), (1, "the file has no rows, or more than 4096".into()));
    for at in [0, 100, 504, 511] {
        let mut bytes = GRID.to_vec();
        bytes[at] ^= 1;
        let found = refusal(&bytes);
        assert_eq!((found.0, found.1), (17, 0));
        assert_eq!(found.2, "block 0 of the file is damaged: its number or checks are wrong");
    }
    assert_eq!((refusal(&[GRID, GRID].concat()).0, refusal(&[GRID, GRID].concat()).1), (17, 1));
}

#[test]
fn every_damaged_byte_is_found() {
    for at in 0..SMALL.len() {
        for change in [1, 0x80, 0xFF] {
            let mut bytes = SMALL.to_vec();
            bytes[at] ^= change;
            let found = refusal(&bytes);
            assert_eq!((found.0, found.1), (17, 0), "byte {at}");
        }
    }
}

#[test]
fn special_numbers() {
    let values = vec![-0.0, f64::INFINITY, f64::from_bits(0xFFF8_0000_0000_0001)];
    let matrix = Matrix::from_rows(vec![0, 1, 2, 3], vec![0, 1, 2], values).unwrap();
    let system = System { matrix, orders: Orders::natural(3), right: vec![f64::NAN, 5e-324, -f64::MAX] };
    let file = system.write().unwrap();
    let back = System::read(&file).unwrap();
    assert_eq!(back.matrix.values()[0].to_bits(), (-0.0f64).to_bits());
    assert_eq!(back.matrix.values()[1], f64::INFINITY);
    assert!(back.matrix.values()[2].is_nan() && back.right[0].is_nan());
    assert_eq!(back.right[1..], system.right[1..]);
    // Every NaN is written as the same one: three values at 30, six orders of 2 bytes, then the right side.
    let nan = 0x7FF8_0000_0000_0000_u64.to_le_bytes();
    assert_eq!((&file[46..54], &file[66..74]), (&nan[..], &nan[..]));
    assert_eq!(back.write().unwrap(), file);
}

#[test]
fn lengths_that_do_not_fit() {
    let mut system = System::read(SMALL).unwrap();
    system.right.push(1.0);
    let words = system.write().unwrap_err().to_string();
    assert_eq!(words, "the right side has 3 numbers where the matrix has 2 rows");
    let many = Matrix::from_triplets(1, &vec![(0, 0, 1.0); 65_537]).unwrap();
    let system = System { matrix: many, orders: Orders::natural(1), right: vec![1.0] };
    let Err(Error::Refused(refusal)) = system.write() else { panic!() };
    assert_eq!(
        (refusal.number(), refusal.to_string().as_str()),
        (18, "the matrix has 65537 entries; up to 65536 are taken")
    );
}
