//! Factors kept in a file.
use lilacpliers::*;

const GRID: &[u8] = include_bytes!("../../examples/grid_3_by_3.lp");

fn bits(x: &[f64]) -> Vec<u64> {
    x.iter().map(|v| v.to_bits()).collect()
}

/// Makes number and checks of every block right.
fn seal(file: &mut [u8]) {
    for (number, block) in file.chunks_exact_mut(512).enumerate() {
        block[504..508].copy_from_slice(&(number as u32).to_le_bytes());
        let sum = |weight: fn(usize) -> u64| {
            let whole: u64 = block[..508].iter().enumerate().map(|(at, &byte)| weight(at) * u64::from(byte)).sum();
            ((whole % 65_521) as u16).to_le_bytes()
        };
        let checks = [sum(|_| 1), sum(|at| 508 - at as u64)].concat();
        block[508..].copy_from_slice(&checks);
    }
}

/// Rows (2, 4), (1, 4) with orders 0, 1: one entry on each side, one product.
fn small() -> Vec<u8> {
    let matrix = Matrix::from_triplets(2, &[(0, 0, 2.0), (0, 1, 4.0), (1, 0, 1.0), (1, 1, 4.0)]).unwrap();
    let (factors, _) = Factors::solve(Form::Plain, &matrix, &Orders::natural(2), &[10.0, 9.0]).unwrap();
    factors.save().unwrap()
}

fn refusal(bytes: &[u8]) -> (u32, u64, String) {
    match Factors::load(bytes) {
        Err(Error::Refused(refusal)) => (refusal.number(), refusal.place(), refusal.to_string()),
        other => panic!("{other:?}"),
    }
}

/// The refusal of the small file with other payload bytes, the checks right.
fn with_bytes(changes: &[(usize, u8)]) -> (u32, u64, String) {
    let mut file = small();
    changes.iter().for_each(|&(at, byte)| file[at] = byte);
    seal(&mut file);
    refusal(&file)
}

/// Systems with fill on both sides, the last under orders that differ.
fn systems() -> Vec<System> {
    let load = |n, seed| System::test_load(n, seed).unwrap();
    let turned = load(64, 7);
    let n = turned.matrix.rows();
    let backwards: Vec<usize> = (0..n).rev().collect();
    let entries: Vec<_> = (0..n).flat_map(|i| turned.matrix.row(i).map(move |(j, v)| (i, n - 1 - j, v))).collect();
    let matrix = Matrix::from_triplets(n, &entries).unwrap();
    let orders = Orders::new(&(0..n).collect::<Vec<_>>(), &backwards).unwrap();
    vec![System::read(GRID).unwrap(), load(1, 0), load(50, 1), load(200, 3), System { matrix, orders, ..turned }]
}

#[test]
fn what_is_kept_solves_to_the_same_bits() {
    for System { matrix, orders, right } in systems() {
        let (mut factors, solution) = Factors::solve(Form::Plain, &matrix, &orders, &right).unwrap();
        let file = factors.save().unwrap();
        let mut kept = Factors::load(&file).unwrap();
        assert_eq!(kept, factors);
        assert_eq!((kept.rows(), kept.counts()), (matrix.rows(), solution.counts));
        assert_eq!(kept.save().unwrap(), file);
        assert_eq!(bits(&kept.solve_again(&right).unwrap()), bits(&solution.x));
        let other: Vec<f64> = right.iter().enumerate().map(|(k, v)| 1.0 / 3.0 - v + k as f64).collect();
        let x = solve(Form::Plain, &matrix, &orders, &other).unwrap().x;
        assert_eq!(bits(&kept.solve_again(&other).unwrap()), bits(&x));
        let new = matrix.with_values(matrix.values().iter().map(|v| v * 0.7).collect()).unwrap();
        let again = factors.refactor(&new, &other).unwrap();
        assert_eq!(bits(&kept.refactor(&new, &other).unwrap()), bits(&again));
        assert_eq!(kept.save().unwrap(), factors.save().unwrap());
        assert_ne!(kept.save().unwrap(), file);
    }
}

#[test]
fn the_bytes_of_a_small_file() {
    let mut due = Vec::new();
    [2u32, 1, 1].iter().for_each(|number| due.extend(number.to_le_bytes()));
    due.extend(1u64.to_le_bytes());
    [0u32, 0, 1, 0, 1, 1].iter().for_each(|start| due.extend(start.to_le_bytes()));
    [0u16, 1].iter().for_each(|j| due.extend(j.to_le_bytes()));
    [1.0f64, 0.5, 0.5, 2.0].iter().for_each(|v| due.extend(v.to_le_bytes()));
    [0u16, 1, 0, 1].iter().for_each(|j| due.extend(j.to_le_bytes()));
    due.resize(512, 0);
    seal(&mut due);
    assert_eq!(small(), due);
}

#[test]
fn only_the_plain_form_is_kept() {
    let System { matrix, orders, right } = System::read(GRID).unwrap();
    let (factors, _) = Factors::solve(Form::Shared, &matrix, &orders, &right).unwrap();
    let words = factors.save().unwrap_err().to_string();
    assert_eq!(words, "only factors of the plain form can be kept in a file");
}

#[test]
fn the_most_rows() {
    let n = MAX_ROWS;
    let matrix = Matrix::from_triplets(n, &(0..n).map(|k| (k, k, 4.0)).collect::<Vec<_>>()).unwrap();
    let (factors, _) = Factors::solve(Form::Plain, &matrix, &Orders::natural(n), &vec![1.0; n]).unwrap();
    assert_eq!(Factors::load(&factors.save().unwrap()).unwrap(), factors);
}

#[test]
fn every_damaged_byte_is_found() {
    let whole = small();
    for at in 0..whole.len() {
        for change in [1, 0x80, 0xFF] {
            let mut bytes = whole.clone();
            bytes[at] ^= change;
            let found = refusal(&bytes);
            assert_eq!((found.0, found.1), (17, 0), "byte {at}");
        }
    }
}

#[test]
fn damage_with_right_checks_is_judged() {
    let System { matrix, orders, right } = System::read(GRID).unwrap();
    let whole = Factors::solve(Form::Plain, &matrix, &orders, &right).unwrap().0.save().unwrap();
    let mut read = 0;
    for at in 0..whole.len() {
        for change in [1, 0x10, 0x80, 0xFF] {
            let mut bytes = whole.clone();
            bytes[at] ^= change;
            seal(&mut bytes);
            match Factors::load(&bytes) {
                // A block's number and checks are sealed over; another value of L, d or u is as good.
                Ok(factors) => {
                    read += 1;
                    assert_eq!(factors.save().unwrap(), bytes, "byte {at}");
                }
                Err(Error::Refused(refusal)) => {
                    assert!([1, 5, 15, 20, 21].contains(&refusal.number()), "byte {at}: {refusal}")
                }
                Err(other) => panic!("{other}"),
            }
        }
    }
    assert!(read > 1_000);
}

#[test]
fn files_that_are_none() {
    assert_eq!(refusal(&[]), (16, 0, "0 bytes are no factor file, which has a positive multiple of 512".into()));
    assert_eq!(refusal(&small()[..511]).0, 16);
    let words = "block 1 of the file is damaged: its number or checks are wrong";
    assert_eq!(refusal(&[small(), small()].concat()), (17, 1, words.into()));
    assert_eq!(with_bytes(&[(0, 0)]), (1, 0, "the file has no rows, or more than 4096".into()));
    let words = "the factor file is longer or shorter than its first numbers say, or does not end in zeros";
    for changes in [[(4, 60)], [(9, 1)], [(503, 1)]] {
        assert_eq!(with_bytes(&changes), (20, 0, words.into()), "{changes:?}");
    }
}

#[test]
fn contents_that_are_refused() {
    let words = "the row order is wrong at place 1; each of 0 to 1 is due once";
    assert_eq!(with_bytes(&[(82, 0)]), (5, 1, words.into()));
    let words = "the column order is wrong at place 0; each of 0 to 1 is due once";
    assert_eq!(with_bytes(&[(84, 9)]), (5, 2, words.into()));
    let words = |place: u64| format!("the factors are damaged at place {place}: solve anew");
    // Lower start 2, upper start 0, the lower entry, the upper one, L, d(0), u.
    let at = [(28, 0, 1), (32, 1, 0), (44, 1, 1), (46, 0, 0), (55, 0x7F, 1), (63, 0x7F, 0), (79, 0x7F, 0)];
    for (at, byte, place) in at {
        let quiet = if byte == 0x7F { vec![(at - 1, 0xF8), (at, byte)] } else { vec![(at, byte)] };
        assert_eq!(with_bytes(&quiet), (15, place, words(place)), "byte {at}");
    }
    let words = "the factor file's count of products is not that of its lists";
    for changes in [[(12, 0)], [(12, 2)], [(19, 1)]] {
        assert_eq!(with_bytes(&changes), (21, 0, words.into()), "{changes:?}");
    }
}

#[test]
fn more_entries_than_a_store_has_slots() {
    let entries = MAX_SLOTS + 1;
    let length = (48 + 10 * entries).div_ceil(504) * 512;
    for side in [4, 8] {
        let mut file = vec![0; length];
        file[0] = 1;
        file[side..side + 4].copy_from_slice(&(entries as u32).to_le_bytes());
        seal(&mut file);
        let words = "the factors have over 1048576 entries below or above the diagonal";
        assert_eq!(refusal(&file), (2, 0, words.into()));
    }
}

/// One with as many blocks as its numbers demand passes 20, and is refused for what it holds.
#[test]
fn a_matrix_file_is_not_taken_for_factors() {
    let found = |bytes| {
        let (number, place, _) = refusal(bytes);
        (number, place)
    };
    assert_eq!(found(GRID), (20, 0));
    assert_eq!(found(include_bytes!("../../examples/two_by_two.lp")), (5, 1));
}
