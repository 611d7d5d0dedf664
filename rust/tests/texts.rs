//! Matrix Market texts, right sides and orders, good and bad.
use lilacpliers::*;

fn entries(matrix: &Matrix) -> Vec<(usize, usize, f64)> {
    (0..matrix.rows()).flat_map(|i| matrix.row(i).map(move |(j, value)| (i, j, value))).collect()
}

fn read(text: &str) -> Vec<(usize, usize, f64)> {
    entries(&Matrix::from_matrix_market(text).unwrap())
}

fn words(text: &str) -> String {
    match Matrix::from_matrix_market(text) {
        Err(Error::Text(words)) => words,
        other => panic!("{other:?}"),
    }
}

const HEAD: &str = "%%MatrixMarket matrix coordinate real general\n";

#[test]
fn coordinate_texts() {
    let text = format!("{HEAD}% words\n\n2 2 3\r\n2 1 -1.5e3\n1 2 7\n  1 1 0 \n");
    assert_eq!(read(&text), [(0, 1, 7.0), (0, 0, 0.0), (1, 0, -1500.0)]);
    let text = "%%matrixmarket MATRIX Coordinate Integer General\n2 2 2\n1 1 -3\n2 2 +4\n";
    assert_eq!(read(text), [(0, 0, -3.0), (1, 1, 4.0)]);
    let text = "%%MatrixMarket matrix coordinate pattern symmetric\n2 2 2\n1 1\n2 1\n";
    assert_eq!(read(text), [(0, 0, 1.0), (0, 1, 1.0), (1, 0, 1.0)]);
    let text = "%%MatrixMarket matrix coordinate integer symmetric\n2 2 2\n1 1 4\n2 1 -1\n";
    assert_eq!(read(text), [(0, 0, 4.0), (0, 1, -1.0), (1, 0, -1.0)]);
}

#[test]
fn array_texts() {
    let text = "%%MatrixMarket matrix array real general\n2 2\n1\n0\n3 4\n";
    assert_eq!(read(text), [(0, 0, 1.0), (0, 1, 3.0), (1, 1, 4.0)]);
    let text = "%%MatrixMarket matrix array integer symmetric\n2 2\n1\n2\n3\n";
    assert_eq!(read(text), [(0, 0, 1.0), (0, 1, 2.0), (1, 0, 2.0), (1, 1, 3.0)]);
}

#[test]
fn wrong_headers() {
    for text in
        ["", "\n", "1 1 1\n", "%%MatrixMarket vector coordinate real general\n", "%%MatrixMarket matrix array\n"]
    {
        assert!(words(text).starts_with("line 1: this is no header of a Matrix Market matrix"));
    }
    let header = |rest: &str| words(&format!("%%MatrixMarket matrix {rest}\n1 1 1\n1 1 1\n"));
    assert_eq!(header("dense real general"), "line 1: the layout \"dense\" is not taken, only coordinate and array");
    assert!(header("coordinate complex general").contains("\"complex\" is not taken, only real, integer and pattern"));
    assert!(header("coordinate real hermitian").contains("\"hermitian\" is not taken, only general and symmetric"));
    assert!(header("coordinate real skew-symmetric").contains("\"skew-symmetric\" is not taken"));
    assert_eq!(header("array pattern general"), "line 1: an array has values, so it is no pattern");
}

#[test]
fn wrong_sizes() {
    assert_eq!(words(HEAD), "the text ends before its line of sizes");
    let sizes = |line: &str| words(&format!("{HEAD}{line}\n"));
    assert_eq!(sizes("2 2"), "line 2: the line of sizes has three numbers: rows, columns and entries");
    assert_eq!(sizes("2 x 1"), "line 2: \"x\" is no whole number that can be taken");
    assert_eq!(sizes("2 -2 1"), "line 2: \"-2\" is no whole number that can be taken");
    assert_eq!(sizes("2 3 1"), "line 2: 2 by 3 is not square");
    assert_eq!(words("%%MatrixMarket matrix array real general\n2\n").split(": ").next(), Some("line 2"));
    for n in ["0", "4097", "18446744073709551615"] {
        let text = format!("{HEAD}{n} {n} 0\n");
        let Err(Error::Refused(refusal)) = Matrix::from_matrix_market(&text) else { panic!() };
        assert_eq!(refusal.number(), 1);
    }
    let text = "%%MatrixMarket matrix array real symmetric\n18446744073709551615 18446744073709551615\n1\n";
    assert!(words(text).starts_with("the text ends after 1 of "));
}

#[test]
fn wrong_entries() {
    let lines = |lines: &str| words(&format!("{HEAD}2 2 2\n{lines}"));
    assert_eq!(lines("1 1 1\n"), "the text ends after 1 of the 2 entries that line 2 announces");
    assert_eq!(lines("1 1 1\n2 2"), "line 4: an entry is row, column and value");
    assert_eq!(lines("1 1 1\n2 2 1\n1 2 1\n"), "line 5: an entry beyond the 2 that line 2 announces");
    assert_eq!(lines("1 1 1\n3 2 1\n"), "line 4: row 3 is out of range, rows are 1 to 2");
    assert_eq!(lines("1 0 1\n"), "line 3: column 0 is out of range, columns are 1 to 2");
    assert_eq!(lines("1 x 1\n"), "line 3: \"x\" is no whole number that can be taken");
    assert_eq!(lines("1 1 one\n"), "line 3: \"one\" is no number");
    let text = "%%MatrixMarket matrix coordinate integer general\n1 1 1\n1 1 1.5\n";
    assert_eq!(words(text), "line 3: \"1.5\" is no whole number");
    let text = "%%MatrixMarket matrix coordinate pattern general\n1 1 1\n1 1 1.5\n";
    assert_eq!(words(text), "line 3: an entry of a pattern is row and column");
    let text = "%%MatrixMarket matrix array real general\n2 2\n1 2 3\n";
    assert_eq!(words(text), "the text ends after 3 of 4 values");
    assert_eq!(words(&format!("{text}4 5\n")), "line 4: a value beyond the 4 that are due");
}

#[test]
fn every_prefix_of_an_example_is_an_error() {
    let text = include_str!("../../examples/grid_3_by_3.mtx").trim_end();
    for end in 0..text.len() {
        assert!(Matrix::from_matrix_market(&text[..end]).is_err(), "{end}");
    }
    assert!(Matrix::from_matrix_market(text).is_ok());
}

/// Bytes of a plain generator.
fn noise(mut seed: u64, length: usize) -> Vec<u8> {
    let mut next = || {
        seed = seed.wrapping_mul(6364136223846793005).wrapping_add(1442695040888963407);
        (seed >> 33) as u8
    };
    (0..length).map(|_| next()).collect()
}

#[test]
fn a_megabyte_of_noise() {
    let bytes = noise(7, 1 << 20);
    let any = String::from_utf8_lossy(&bytes).into_owned();
    let digits: String = bytes.iter().map(|byte| char::from(b" \n0123456789.-e%"[usize::from(byte % 16)])).collect();
    for text in [any, digits] {
        assert!(Matrix::from_matrix_market(&text).is_err());
        for head in
            [HEAD, "%%MatrixMarket matrix array real symmetric\n", "%%MatrixMarket matrix array real general\n9 1\n"]
        {
            let text = format!("{head}{text}");
            assert!(Matrix::from_matrix_market(&text).is_err());
            assert!(vector_from_text(&text).is_err());
        }
        let error = vector_from_text(&text).unwrap_err().to_string();
        assert!(error.len() < 1000 && order_from_text(&text).is_err());
    }
    let _ = System::read(&bytes);
}

#[test]
fn numbers_read_back_to_the_same_bits() {
    let mut values = vec![-0.0, 5e-324, f64::MAX, f64::MIN_POSITIVE, 0.1, 1e16, 1e-7, 123456789.0, f64::INFINITY];
    let patterns = noise(3, 8 * 200);
    let random = patterns.chunks_exact(8).map(|bytes| f64::from_le_bytes(bytes.try_into().unwrap()));
    values.extend(random.filter(|value| !value.is_nan()));
    let entries: Vec<_> = values.iter().enumerate().map(|(k, &value)| (k, values.len() - 1 - k, value)).collect();
    let matrix = Matrix::from_triplets(values.len(), &entries).unwrap();
    let back = Matrix::from_matrix_market(&matrix.to_matrix_market()).unwrap();
    assert_eq!((back.starts(), back.columns()), (matrix.starts(), matrix.columns()));
    let bits = |matrix: &Matrix| matrix.values().iter().map(|value| value.to_bits()).collect::<Vec<_>>();
    assert_eq!(bits(&back), bits(&matrix));
}

#[test]
fn right_sides() {
    assert_eq!(vector_from_text("1 2\n\n3e0").unwrap(), [1.0, 2.0, 3.0]);
    let array = "%%MatrixMarket matrix array real general\n% b\n3 1\n1\n-0.0\n2\n";
    let b = vector_from_text(array).unwrap();
    assert_eq!((b[0], b[1].to_bits(), b[2]), (1.0, (-0.0f64).to_bits(), 2.0));
    let sparse = "%%MatrixMarket matrix coordinate integer general\n3 1 1\n2 1 7\n";
    assert_eq!(vector_from_text(sparse).unwrap(), [0.0, 7.0, 0.0]);
    let error = |text: &str| vector_from_text(text).unwrap_err().to_string();
    assert_eq!(error("1 2\n3 x"), "line 2: \"x\" is no number");
    assert_eq!(
        error("%%MatrixMarket matrix array real general\n1 2\n1\n2\n"),
        "line 2: 1 by 2 is no right side, which has one column"
    );
    assert_eq!(error("%%MatrixMarket matrix array real general\n2 1\n1\n"), "the text ends after 1 of 2 values");
    let huge = "%%MatrixMarket matrix coordinate real general\n18446744073709551615 1 0\n";
    assert_eq!(error(huge), "line 2: 18446744073709551615 rows, where up to 4096 are taken");
    assert_eq!(error("%%MatrixMarket matrix coordinate real general\n2 1 2\n1 1 1\n1 1 1\n"), "row 1 is given twice");
}

#[test]
fn orders() {
    assert_eq!(order_from_text("2 0\n1\n").unwrap(), [2, 0, 1]);
    assert_eq!(
        order_from_text("2 0\n-1\n").unwrap_err().to_string(),
        "line 2: \"-1\" is no whole number that can be taken"
    );
}
