//! Converting, structure and the picture.
mod common;
use common::{done, err, example, failed, file, lilac, out, own, tridiagonal};

fn read(path: &str) -> Vec<u8> {
    std::fs::read(path).expect("the file is there")
}

#[test]
fn a_matrix_file_comes_back_whole() {
    for name in ["two_by_two", "grid_3_by_3"] {
        let first = example(&format!("{name}.lp"));
        let (matrix, right, order) =
            (own(&format!("{name}_a.mtx")), own(&format!("{name}_a.txt")), own(&format!("{name}_o.txt")));
        let second = own(&format!("{name}_b.lp"));
        assert_eq!(done(&["convert", &first, &matrix, "--right", &right, "--order", &order]), "");
        assert_eq!(done(&["convert", &matrix, &second, "--right", &right, "--order", &order]), "");
        assert!(read(&first) == read(&second), "{name}");
    }
}

#[test]
fn a_market_file_comes_back_with_the_same_solution() {
    let (there, back) = (own("there.lp"), own("back.mtx"));
    let grid = example("grid_3_by_3.mtx");
    done(&["convert", &grid, &there]);
    done(&["convert", &there, &back]);
    let solution = done(&["solve", &grid, "--hex"]);
    assert_eq!(solution, done(&["solve", &there, "--hex"]));
    assert_eq!(solution, done(&["solve", &back, "--hex"]));
    let again = own("again.lp");
    done(&["convert", &back, &again]);
    assert!(read(&there) == read(&again));
}

#[test]
fn what_is_left_behind_is_said() {
    let output = lilac(&["convert", &example("two_by_two.lp"), &own("left.mtx")]);
    assert_eq!(output.status.code(), Some(0));
    assert!(err(&output).contains("right side") && err(&output).lines().count() == 1, "{}", err(&output));
}

#[test]
fn convert_goes_by_the_names() {
    // A matrix file under the other kind's name is no Matrix Market file.
    let wrong = file("wrong.mtx", read(&example("two_by_two.lp")));
    failed(2, &["convert", &wrong, &own("wrong.lp")]);
    failed(2, &["convert", &example("two_by_two.mtx"), "/dev/full"]);
}

#[test]
fn no_file_is_overwritten_by_mistake() {
    let matrix = file("precious.lp", read(&example("two_by_two.lp")));
    let other = own("precious.mtx");
    failed(2, &["solve", &matrix, "-o", &matrix]);
    failed(2, &["picture", &matrix, "-o", &matrix]);
    failed(2, &["sheet", &matrix, "-o", &matrix]);
    failed(2, &["convert", &matrix, &other, "--right", &other]);
    failed(2, &["convert", &matrix, &other, "--order", &matrix]);
    failed(2, &["convert", &matrix, &other, "--rows", &own("order.txt"), "--columns", &own("order.txt")]);
    failed(2, &["picture", &matrix, "--rows", &matrix, "-o", &matrix]);
    assert!(read(&matrix) == read(&example("two_by_two.lp")));
    done(&["convert", &matrix, &other, "--right", "/dev/null", "--order", "/dev/null"]);
}

#[test]
fn the_table_has_the_papers_counts() {
    // Row 0, column 0 and diagonal full: lower 3, upper 3, products 5, shared index slots 2 and 2.
    let header = "%%MatrixMarket matrix coordinate real general\n";
    let matrix = file("arrow.mtx", format!("{header}3 3 7\n1 1 4\n1 2 1\n1 3 1\n2 1 1\n2 2 4\n3 1 1\n3 3 4\n"));
    let table = done(&["structure", &matrix]);
    let words: Vec<Vec<&str>> = table.lines().map(|line| line.split_whitespace().collect()).collect();
    let has = |line: &[&str]| words.iter().any(|found| found == line);
    assert!(has(&["filled", "below", "the", "diagonal", "3"]) && has(&["products", "5"]), "{table}");
    assert!(
        has(&["fill", "2"]) && has(&["upper", "index", "2"]) && has(&["index", "in", "all", "33.3", "%"]),
        "{table}"
    );
}

/// The filled positions of the grid's pattern, by plain elimination.
fn filled_of_grid() -> (usize, usize) {
    let text = String::from_utf8(read(&example("grid_3_by_3.mtx"))).expect("text");
    let mut filled = [[false; 9]; 9];
    let data = text.lines().filter(|line| !line.starts_with('%')).skip(1);
    for line in data {
        let numbers: Vec<usize> = line.split_whitespace().take(2).map(|word| word.parse().expect("a number")).collect();
        filled[numbers[0] - 1][numbers[1] - 1] = true;
    }
    let count = |filled: &[[bool; 9]; 9]| filled.iter().flatten().filter(|&&cell| cell).count();
    let stored = count(&filled);
    for k in 0..9 {
        for i in k + 1..9 {
            for j in k + 1..9 {
                filled[i][j] |= filled[i][k] && filled[k][j];
            }
        }
    }
    (stored, count(&filled) - stored)
}

#[test]
fn the_picture_has_a_cell_for_each_position() {
    let (stored, fill) = filled_of_grid();
    assert_eq!(stored, 33);
    let picture = done(&["picture", &example("grid_3_by_3.mtx")]);
    let count = |part: &str| picture.matches(part).count();
    assert_eq!((count("class=\"stored\""), count("class=\"fill\"")), (stored, fill));
    assert_eq!(well_formed(&picture), Ok(()));
    // The right side plays no part, and a file gets the same bytes.
    let path = own("grid.svg");
    done(&["picture", &example("grid_3_by_3.mtx"), "-o", &path]);
    assert!(read(&path) == picture.as_bytes());
}

#[test]
fn an_order_reverses_the_picture() {
    let order = file("reverse.txt", "8 7 6 5 4 3 2 1 0");
    let grid = example("grid_3_by_3.mtx");
    let picture = done(&["picture", &grid, "--order", &order]);
    assert_eq!(picture.matches("class=\"stored\"").count(), 33);
    assert_eq!(well_formed(&picture), Ok(()));
}

#[test]
fn large_pictures_are_small_files() {
    for n in [1, 200, 201, 4096] {
        let matrix = file(&format!("line_{n}.mtx"), tridiagonal(n));
        let picture = done(&["picture", &matrix]);
        assert_eq!(well_formed(&picture), Ok(()), "{n}");
        assert!(picture.len() < 200_000, "{n}: {}", picture.len());
        assert_eq!(picture.contains("darker is denser"), n > 200);
    }
}

#[test]
fn a_name_with_signs_of_markup_is_escaped() {
    let matrix = file("a<b>&c\".mtx", read(&example("two_by_two.mtx")));
    let output = lilac(&["picture", &matrix]);
    assert_eq!(well_formed(&out(&output)), Ok(()));
}

/// Whether tags are nested, attributes quoted, and no bare `<` or `&` is left.
fn well_formed(text: &str) -> Result<(), String> {
    let mut open: Vec<&str> = Vec::new();
    let mut roots = 0;
    let mut rest = text;
    while let Some((before, after)) = rest.split_once('<') {
        entities(before)?;
        let (tag, behind) = after.split_once('>').ok_or("a tag is not closed")?;
        rest = behind;
        if let Some(name) = tag.strip_prefix('/') {
            if open.pop() != Some(name) {
                return Err(format!("</{name}> closes another tag"));
            }
            continue;
        }
        let inner = tag.strip_suffix('/').unwrap_or(tag);
        let (name, attributes) = inner.split_once(' ').unwrap_or((inner, ""));
        quoted(attributes)?;
        roots += usize::from(open.is_empty());
        if inner.len() == tag.len() {
            open.push(name);
        }
    }
    if !open.is_empty() || roots != 1 || !rest.trim().is_empty() {
        return Err(format!("{roots} roots, open at the end: {open:?}, behind: {rest:?}"));
    }
    Ok(())
}

fn quoted(mut attributes: &str) -> Result<(), String> {
    let mut names = Vec::new();
    while !attributes.trim().is_empty() {
        let (name, value) = attributes.split_once("=\"").ok_or(format!("no value: {attributes}"))?;
        let (value, behind) = value.split_once('"').ok_or(format!("no closing quote: {attributes}"))?;
        if names.contains(&name.trim()) || name.trim().contains(' ') {
            return Err(format!("a bad or repeated attribute: {name}"));
        }
        names.push(name.trim());
        entities(value)?;
        attributes = behind;
    }
    Ok(())
}

fn entities(text: &str) -> Result<(), String> {
    let known = ["amp;", "lt;", "gt;", "quot;"];
    for behind in text.split('&').skip(1) {
        if !known.iter().any(|name| behind.starts_with(name)) {
            return Err(format!("a bare &: {behind}"));
        }
    }
    Ok(())
}
