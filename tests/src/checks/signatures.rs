//! No compiler compares the C headers, the declarations in Rust and the exports of the library: the texts are compared.
use super::header::repository;
use super::Tally;
use crate::compare::{self, Compared, Difference};
use std::collections::BTreeMap;

/// For each function the kinds of its arguments, a slice counted as one.
type Signatures = BTreeMap<String, Vec<String>>;

/// The text between an opening mark and the first closing mark behind it.
fn between<'a>(text: &'a str, open: &str, close: &str) -> Option<&'a str> {
    let from = text.find(open)? + open.len();
    let length = text[from..].find(close)?;
    Some(&text[from..from + length])
}

fn arguments(text: &str) -> Vec<String> {
    let words = |part: &str| part.split_whitespace().collect::<Vec<_>>().join(" ");
    text.split(',').map(words).filter(|part| !part.is_empty()).collect()
}

/// A type of C as the others call it.
fn c_kind(name: &str) -> &str {
    match name {
        "size_t" => "usize",
        "uint8_t" => "u8",
        "uint16_t" => "u16",
        "uint32_t" => "u32",
        "uint64_t" => "u64",
        "double" => "f64",
        other => other,
    }
}

fn c_kinds(text: &str) -> Vec<String> {
    let mut kinds = Vec::new();
    for argument in arguments(text) {
        let argument = argument.trim_start_matches("const ").to_string();
        if let Some((element, _)) = argument.split_once(" *") {
            kinds.push(format!("slice of {}", c_kind(element)));
        } else if !argument.ends_with("_len") {
            kinds.push(c_kind(argument.split(' ').next().unwrap_or_default()).to_string());
        }
    }
    kinds
}

fn header_signatures(text: &str) -> Signatures {
    let mut found = Signatures::new();
    for part in text.split("uint32_t lp_").skip(1) {
        if let Some((name, rest)) = part.split_once('(') {
            let list = rest.split(')').next().unwrap_or_default();
            found.insert(format!("lp_{name}"), c_kinds(list));
        }
    }
    found
}

fn declared_kind(argument: &str) -> String {
    match argument.split_once(": ").map(|(_, kind)| kind) {
        Some("size") => "usize".to_string(),
        Some("number") => "u32".to_string(),
        Some("count") => "u64".to_string(),
        Some("short") => "u16".to_string(),
        Some("real") => "f64".to_string(),
        Some(kind) => format!("slice of {}", kind.trim_start_matches("lent ").trim_start_matches("out ")),
        None => argument.to_string(),
    }
}

fn declared_signatures(text: &str) -> Signatures {
    let mut found = Signatures::new();
    for part in text.split("declare! { lp_").skip(1) {
        if let (Some(name), Some(list)) = (part.split_whitespace().next(), between(part, "[]", "}")) {
            found.insert(format!("lp_{name}"), arguments(list).iter().map(|a| declared_kind(a)).collect());
        }
    }
    found
}

fn exported_kind(argument: &str) -> String {
    let kind = argument.split_once(": ").map_or(argument, |(_, kind)| kind);
    match between(kind, "[", "]") {
        Some(element) => format!("slice of {element}"),
        None => kind.to_string(),
    }
}

fn exported_signatures(text: &str) -> Signatures {
    let mut found = Signatures::new();
    for part in text.split("extern \"C\" fn ").skip(1) {
        if let Some((name, rest)) = part.split_once('(') {
            let name = name.split('<').next().unwrap_or(name);
            let list = rest.split(')').next().unwrap_or_default();
            found.insert(name.to_string(), arguments(list).iter().map(|a| exported_kind(a)).collect());
        }
    }
    found
}

fn text_of(path: &str) -> Result<String, Difference> {
    let whole = repository().join(path);
    std::fs::read_to_string(&whole).or_else(|error| compare::differ(path, error.to_string(), "a file"))
}

fn same_signatures(found: &Signatures, expected: &Signatures) -> Compared {
    for (name, kinds) in expected {
        let other = found.get(name).cloned().unwrap_or_default();
        compare::numbers(name, &other, kinds)?;
    }
    compare::same("functions", &found.len(), &expected.len())
}

/// The headers, one behind the other.
fn headers() -> Result<String, Difference> {
    Ok(text_of("include/lilacpliers.h")? + &text_of("include/lilacpliers_residual.h")?)
}

/// The declarations of a file against the text of the header.
fn declarations(path: &str, header: &str) -> Compared {
    same_signatures(&declared_signatures(&text_of(path)?), &header_signatures(header))
}

/// The exports of the library against the text of the header.
fn exports(header: &str) -> Compared {
    // The exports name the index type; base says which it is.
    let base = text_of("crates/base/src/lib.rt")?;
    let index = between(&base, "pub type Index = ", ";").unwrap_or_default();
    let exports = text_of("crates/capi/src/lib.rt")?.replace("[Index]", &format!("[{index}]"));
    same_signatures(&exported_signatures(&exports), &header_signatures(header))
}

/// Changes of the header that the comparison must find, one of each kind of argument.
const CHANGES: [(&str, &str); 10] = [
    ("uint16_t seed", "uint32_t seed"),
    ("uint32_t side, size_t place", "uint32_t side, uint32_t place"),
    ("uint8_t *file", "uint16_t *file"),
    ("uint64_t lower, uint64_t upper", "uint64_t lower, uint32_t upper"),
    ("uint64_t lower, uint64_t upper, uint64_t products", "uint64_t lower, uint64_t upper"),
    ("double floor", "uint64_t floor"),
    ("    double floor,\n", ""),
    ("b_len,\n    double floor,", "b_len, double *other, size_t other_len,\n    double floor,"),
    ("uint32_t lp_test_load(\n    size_t n,", "uint32_t lp_test_load("),
    ("uint32_t lp_test_load(", "uint32_t lp_test_loads("),
];

/// Each change is there to be made and is found.
fn changes(header: &str, compared: impl Fn(&str) -> Compared) -> Compared {
    for (old, new) in CHANGES {
        compare::same(&format!("the header has {old}"), &header.contains(old), &true)?;
        let found = compared(&header.replacen(old, new, 1)).is_err();
        compare::same(&format!("{new} is found"), &found, &true)?;
    }
    Ok(())
}

/// Checks that each declared function has a comment right above it.
fn commented(text: &str) -> Compared {
    let mut above = "";
    let mut found = 0;
    for line in text.lines() {
        if line.starts_with("uint32_t lp_") {
            found += 1;
            compare::same(&format!("comment above {line}"), &above.ends_with("*/"), &true)?;
        }
        above = line;
    }
    compare::same("functions", &found, &header_signatures(text).len())
}

/// Checks that header, declarations and exports have the same functions with the same arguments.
pub fn run(tally: &mut Tally) {
    let header = match headers() {
        Ok(text) => text,
        Err(difference) => return tally.add(|| "header".to_string(), Err(difference)),
    };
    tally.add(|| "comments of the header".to_string(), commented(&header));
    for path in ["tests/src/ffi.rs", "rust/src/ffi.rs"] {
        tally.add(|| format!("declarations of {path} against the header"), declarations(path, &header));
        let found = changes(&header, |changed| declarations(path, changed));
        tally.add(|| format!("a changed header against {path}"), found);
    }
    tally.add(|| "exports against the header".to_string(), exports(&header));
    tally.add(|| "a changed header against the exports".to_string(), changes(&header, exports));
}
