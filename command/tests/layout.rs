//! The picture's layout: every line of text is within the picture, and none lies over another or over the cells.
mod common;
use common::{done, example, file, tridiagonal};

/// A box of the picture: left, top, right, bottom, and the text in it.
#[derive(Debug)]
struct Part(f64, f64, f64, f64, String);

impl Part {
    fn meets(&self, other: &Part) -> bool {
        self.0 < other.2 && other.0 < self.2 && self.1 < other.3 && other.1 < self.3
    }
}

fn attribute<'a>(tag: &'a str, name: &str) -> Option<&'a str> {
    let (_, behind) = tag.split_once(&format!(" {name}=\""))?;
    behind.split_once('"').map(|(value, _)| value)
}

fn number(tag: &str, name: &str) -> Option<f64> {
    attribute(tag, name)?.parse().ok()
}

/// Room that a text takes; the letters of common fonts are narrower than this on average.
fn room(tag: &str, text: &str, size: f64) -> Option<Part> {
    let (x, y) = (number(tag, "x")?, number(tag, "y")?);
    let bold = attribute(tag, "font-weight") == Some("bold");
    let width = text.chars().count() as f64 * size * if bold { 0.7 } else { 0.62 };
    let left = match attribute(tag, "text-anchor") {
        Some("middle") => x - width / 2.0,
        Some("end") => x - width,
        _ => x,
    };
    Some(Part(left, y - 0.75 * size, left + width, y + 0.2 * size, text.to_string()))
}

/// The texts that stand upright. A group's size of letters is that of the texts in it.
fn texts(picture: &str) -> Vec<Part> {
    let mut sizes = vec![13.0];
    let mut found = Vec::new();
    for piece in picture.split('<').skip(1) {
        let (tag, text) = piece.split_once('>').expect("a whole tag");
        let last = sizes.last().copied().unwrap_or(13.0);
        let size = number(tag, "font-size").unwrap_or(last);
        match tag.split(' ').next() {
            Some("g") => sizes.push(size),
            Some("/g") => drop(sizes.pop()),
            Some("text") if !text.is_empty() => found.extend(room(tag, text, size)),
            _ => {}
        }
    }
    found
}

/// The frame around the cells.
fn frame(picture: &str) -> Part {
    let tag = picture.split('<').find(|tag| tag.contains("fill=\"none\"")).expect("a frame");
    let value = |name| number(tag, name).expect("a number");
    let (x, y) = (value("x"), value("y"));
    Part(x, y, x + value("width"), y + value("height"), "the cells".to_string())
}

fn check(name: &str, picture: &str) {
    let head = picture.split('<').nth(1).expect("a picture");
    let (width, height) = (number(head, "width").expect("a width"), number(head, "height").expect("a height"));
    let mut parts = texts(picture);
    assert!(parts.len() > 20, "{name}");
    parts.push(frame(picture));
    for (k, part) in parts.iter().enumerate() {
        assert!(part.0 >= 4.0 && part.1 >= 4.0 && part.2 <= width - 4.0 && part.3 <= height - 4.0, "{name}: {part:?}");
        for other in &parts[..k] {
            assert!(!part.meets(other), "{name}: {part:?} lies over {other:?}");
        }
    }
}

/// Row 0, column 0 and the diagonal: everything fills.
fn arrow(n: usize) -> String {
    let mut lines = String::new();
    for k in 1..=n {
        lines.push_str(&format!("{k} {k} 4\n"));
        if k > 1 {
            lines.push_str(&format!("1 {k} 1\n{k} 1 1\n"));
        }
    }
    format!("%%MatrixMarket matrix coordinate real general\n{n} {n} {}\n{lines}", 3 * n - 2)
}

#[test]
fn nothing_overlaps_and_nothing_is_cut_off() {
    for n in [1, 2, 9, 15, 16, 51, 64, 65, 200, 201, 1000, 4096] {
        let line = file(&format!("layout_line_{n}.mtx"), tridiagonal(n));
        check(&line, &done(&["picture", &line]));
    }
    for n in [9, 64, 1000] {
        let full = file(&format!("layout_arrow_{n}.mtx"), arrow(n));
        check(&full, &done(&["picture", &full]));
    }
    check("grid", &done(&["picture", &example("grid_3_by_3.mtx")]));
    // A position with two entries gives the table a line more.
    for n in [2, 300] {
        let (e, sizes) = (3 * n - 2, format!("{n} {n} "));
        let text = arrow(n).replacen(&format!("{sizes}{e}\n"), &format!("{sizes}{}\n1 1 0\n", e + 1), 1);
        let picture = done(&["picture", &file(&format!("layout_twice_{n}.mtx"), text)]);
        assert!(picture.contains("stored positions"));
        check("twice", &picture);
    }
}

#[test]
fn a_long_name_is_cut_short() {
    let line = file(&format!("layout_{}.mtx", "long_".repeat(40)), tridiagonal(1));
    let picture = done(&["picture", &line]);
    check("long", &picture);
    assert!(picture.contains("...</text>"));
}

#[test]
fn rows_show_the_slots_of_their_runs() {
    // Lists 0 and 1 are {1, 2} and {2}: the second is the end of the first, in slot 1.
    let picture = done(&["picture", &file("layout_runs.mtx", arrow(3))]);
    let slots: Vec<String> = texts(&picture).into_iter().map(|part| part.4).collect();
    let at = slots.iter().position(|text| text == "upper slots").expect("the column of slots");
    assert_eq!(slots[at + 1..at + 4], ["0 to 1", "1", "none"]);
    assert!(picture.contains("row 1, column 2: fill, upper slot 1<"));
    assert!(picture.contains("row 2, column 1: fill, lower slot 1<"));
    assert!(picture.contains("upper lists sharing slots: 1 group<"));
    assert!(picture.contains("lower columns sharing slots: 1 group<") && picture.contains("row form, slots"));
}
