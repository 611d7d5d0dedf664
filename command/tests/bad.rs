//! Bad usage, bad files and output that cannot be written: status 2 and one clear line, never a panic.
mod common;
use common::{command, err, example, failed, file, own, tridiagonal};
use std::process::Stdio;

const HEADER: &str = "%%MatrixMarket matrix coordinate real general\n";

/// Bytes without any order, the same in every run.
fn noise(length: usize) -> Vec<u8> {
    let mut state = 0x9E37_79B9_7F4A_7C15_u64;
    let mut next = || {
        state ^= state << 13;
        state ^= state >> 7;
        state ^= state << 17;
        (state >> 32) as u8
    };
    (0..length).map(|_| next()).collect()
}

/// A matrix file of several blocks.
fn several_blocks(test: &str) -> Vec<u8> {
    let (from, to) = (file(&format!("{test}_whole.mtx"), tridiagonal(100)), own(&format!("{test}_whole.lp")));
    common::done(&["convert", &from, &to]);
    let whole = std::fs::read(to).expect("the file is there");
    assert!(whole.len() > 2048);
    whole
}

/// The tests run side by side, so each has files of its own.
fn bad_matrices(test: &str) -> Vec<String> {
    let file = |name: &str, contents: &[u8]| file(&format!("{test}_{name}"), contents);
    let whole = several_blocks(test);
    let mut turned = whole.clone();
    turned[700] ^= 1;
    let swapped = [&whole[512..1024], &whole[..512], &whole[1024..]].concat();
    let mut files = vec![
        file("cut.lp", &whole[..whole.len() - 100]),
        file("short.lp", &whole[..whole.len() - 512]),
        file("longer.lp", &[&whole[..], &[0; 512]].concat()),
        file("turned.lp", &turned),
        file("swapped.lp", &swapped),
        file("noise.lp", &noise(10 << 20)),
        file("noise_odd.lp", &noise((10 << 20) + 7)),
        file("noise.mtx", &[HEADER.as_bytes(), &noise(10 << 20)].concat()),
        file("noise_sized.mtx", &[HEADER.as_bytes(), b"9 9 33\n", &noise(100_000)].concat()),
        file("empty.mtx", b""),
        env!("CARGO_TARGET_TMPDIR").to_string(),
        "/dev/null".to_string(),
        own("is_not_there.mtx"),
    ];
    for (k, text) in bad_texts().iter().enumerate() {
        files.push(file(&format!("text_{k}.mtx"), text.as_bytes()));
    }
    files
}

fn bad_texts() -> Vec<String> {
    let mut texts: Vec<String> = vec![
        "%%MatrixMarket\n".into(),
        "%%MatrixMarket vector coordinate real general\n2 2 1\n1 1 1\n".into(),
        "%%MatrixMarket matrix coordinate complex general\n1 1 1\n1 1 1 0\n".into(),
        "%MatrixMarket matrix coordinate real general\n1 1 1\n1 1 1\n".into(),
        "hello\n".into(),
    ];
    let bodies = [
        "",
        "2 2\n",
        "2 2 x\n",
        "2 2 -1\n",
        "2 3 1\n1 1 1\n",
        "2 2 2\n1 1 1\n",
        "2 2 1\n1 1 1\n2 2 1\n",
        "2 2 1\n3 1 1\n",
        "2 2 1\n1 0 1\n",
        "2 2 1\n1 1 one\n",
        "2 2 1\n1 1\n",
        "99999999999999999999 2 1\n1 1 1\n",
        "2 2 18446744073709551615\n1 1 1\n",
    ];
    texts.extend(bodies.iter().map(|body| format!("{HEADER}{body}")));
    texts
}

#[test]
fn bad_files_have_status_2() {
    for path in bad_matrices("bad") {
        for name in ["solve", "structure", "picture", "sheet"] {
            failed(2, &[name, &path]);
        }
    }
}

#[test]
fn bad_files_are_not_converted() {
    let target = own("converted.any");
    for path in bad_matrices("unconverted") {
        let to = if path.ends_with(".lp") { target.clone() + ".mtx" } else { target.clone() + ".lp" };
        failed(2, &["convert", &path, &to]);
        assert!(!std::path::Path::new(&to).exists(), "{path}");
    }
}

#[test]
fn bad_right_sides_and_orders() {
    let two = example("two_by_two.mtx");
    let texts = ["", "1", "1 2 3", "1 x", "0.5 0x", "%%MatrixMarket matrix array real general\n3 1\n1\n2\n3\n"];
    for (k, text) in texts.iter().enumerate() {
        let path = file(&format!("bad_side_{k}.txt"), text);
        failed(2, &["solve", &two, "--right", &path]);
        failed(2, &["solve", &two, "--order", &path]);
    }
    for order in ["-1 0", "0 99999999999999999999", "0 70000"] {
        failed(2, &["solve", &two, "--order", &file("bad_order.txt", order)]);
    }
    failed(2, &["solve", &two, "--right", "/dev/null"]);
    failed(2, &["solve", &two, "--right", "/dev/zero"]);
}

#[test]
fn bad_usage_has_status_2() {
    let two = example("two_by_two.lp");
    let cases: [&[&str]; 22] = [
        &[],
        &["sovle", &two],
        &["solve"],
        &["solve", &two, &two],
        &["solve", &two, "--form", "wide"],
        &["solve", &two, "--form"],
        &["solve", &two, "--hexagon"],
        &["solve", &two, "--floor"],
        &["solve", &two, "--floor", "low"],
        &["solve", &two, "--floor", "1.5.2"],
        &["solve", &two, "--floor", "1", "--floor", "1"],
        &["structure", &two, "--floor", "1"],
        &["structure", &two, "--hex"],
        &["convert", &two],
        &["convert", &two, "a.txt"],
        &["convert", &two, "b.lp"],
        &["sheet"],
        &["sheet", &two, &two],
        &["sheet", &two, "--right", &two],
        &["load", "5"],
        &["load", "5", "1", "2"],
        &["help", "me"],
    ];
    for words in cases {
        failed(2, words);
    }
}

#[test]
fn names_that_are_no_text_are_taken() {
    use std::os::unix::ffi::OsStrExt;
    let output =
        command().arg("solve").arg(std::ffi::OsStr::from_bytes(b"\xff\n.lp")).output().expect("the command runs");
    assert_eq!((output.status.code(), err(&output).lines().count()), (Some(2), 1));
}

fn printing_commands() -> Vec<Vec<String>> {
    let grid = example("grid_3_by_3.mtx");
    let mut all: Vec<Vec<String>> =
        ["solve", "structure", "picture", "sheet"].iter().map(|name| vec![name.to_string(), grid.clone()]).collect();
    all.push(["load", "5", "1"].map(str::to_string).to_vec());
    all.push(vec!["--help".to_string()]);
    all
}

#[test]
fn a_reader_that_is_gone_has_status_2() {
    for words in printing_commands() {
        let (reader, writer) = std::io::pipe().expect("a pipe");
        drop(reader);
        let child = command().args(&words).stdout(writer).stderr(Stdio::piped()).spawn().expect("the command runs");
        let output = child.wait_with_output().expect("the command ends");
        assert_eq!((output.status.code(), err(&output).lines().count()), (Some(2), 1), "{words:?}");
    }
}

#[test]
fn a_full_device_has_status_2() {
    for words in printing_commands() {
        let full = std::fs::File::options().write(true).open("/dev/full").expect("the full device");
        let child = command().args(&words).stdout(full).stderr(Stdio::piped()).spawn().expect("the command runs");
        let output = child.wait_with_output().expect("the command ends");
        assert_eq!((output.status.code(), err(&output).lines().count()), (Some(2), 1), "{words:?}");
    }
    failed(2, &["solve", &example("two_by_two.lp"), "-o", "/dev/full"]);
    failed(2, &["picture", &example("two_by_two.lp"), "-o", "/dev/full"]);
    failed(2, &["sheet", &example("two_by_two.lp"), "-o", "/dev/full"]);
    failed(2, &["load", "5", "1", "-o", "/dev/full"]);
    failed(2, &["load", "5", "1", "-o", env!("CARGO_TARGET_TMPDIR")]);
    failed(2, &["solve", &example("two_by_two.lp"), "-o", env!("CARGO_TARGET_TMPDIR")]);
    failed(2, &["solve", &example("two_by_two.lp"), "-o", &(own("no_folder") + "/x")]);
}

/// Takes links away again: the gate reads no link in a checkout, so a second run would fail.
fn unlink(paths: &[String]) {
    for path in paths {
        std::fs::remove_file(path).expect("a link");
    }
}

/// A link to the full device has an ending that convert takes.
#[test]
fn a_full_device_stops_convert() {
    let link = |name: &str| {
        let path = own(name);
        std::os::unix::fs::symlink("/dev/full", &path).expect("a link");
        path
    };
    let (two, text) = (example("two_by_two.lp"), example("two_by_two.mtx"));
    let (lp, mtx) = (link("full.lp"), link("full.mtx"));
    failed(2, &["convert", &text, &lp]);
    failed(2, &["convert", &two, &mtx]);
    for option in ["--right", "--order", "--rows", "--columns"] {
        let line = failed(2, &["convert", &two, &own("full_rest.mtx"), option, "/dev/full"]);
        assert!(line.contains("cannot write /dev/full"), "{line}");
    }
    unlink(&[lp, mtx]);
}

/// Runs the command with files limited to one block, and the signal that goes with it ignored.
fn limited(words: &[&str]) -> (Option<i32>, String) {
    let mut shell = std::process::Command::new("sh");
    let script = "trap '' XFSZ && ulimit -f 1 && exec \"$0\" \"$@\"";
    let output = shell.args(["-c", script, env!("CARGO_BIN_EXE_lilac")]).args(words).output().expect("the shell runs");
    (output.status.code(), err(&output))
}

#[test]
fn no_part_of_a_file_is_left() {
    let matrix = file("part.mtx", tridiagonal(300));
    let whole = own("part_whole.lp");
    common::done(&["convert", &matrix, &whole]);
    let cases: [&[&str]; 7] = [
        &["solve", &matrix, "-o", &own("part.txt")],
        &["picture", &matrix, "-o", &own("part.svg")],
        &["sheet", &matrix, "-o", &own("part_sheet.txt")],
        &["convert", &matrix, &own("part.lp")],
        &["convert", &whole, &own("part_back.mtx")],
        &["load", "300", "1", "-o", &own("part_load.lp")],
        &["load", "300", "1", "-o", &own("part_load.mtx")],
    ];
    for words in cases {
        let (status, line) = limited(words);
        assert_eq!((status, line.lines().count()), (Some(2), 1), "{line}");
        assert!(line.contains("the incomplete file is removed"), "{line}");
        let path = words.last().expect("a name");
        assert!(!std::path::Path::new(path).exists(), "{path}");
    }
    // A link stays, and what it leads to is said to be incomplete.
    let (target, link) = (own("part_target.txt"), own("part_link.txt"));
    std::os::unix::fs::symlink(&target, &link).expect("a link");
    let (status, line) = limited(&["solve", &matrix, "-o", &link]);
    assert_eq!(status, Some(2));
    assert!(line.contains("the file is incomplete") && std::path::Path::new(&target).exists(), "{line}");
    unlink(&[link]);
}

/// Standard output plays no part where a file is named.
#[test]
fn a_closed_standard_output_does_not_matter_to_a_file() {
    let two = example("two_by_two.lp");
    let cases: [(&[&str], &[u8]); 5] = [
        (&["solve", &two, "-o", &own("closed.txt")], b"1\n2\n"),
        (&["picture", &two, "-o", &own("closed.svg")], b"<svg"),
        (&["sheet", &two, "-o", &own("closed_sheet.txt")], b"FILL "),
        (&["convert", &two, "--right", "/dev/null", &own("closed.mtx")], b"%%MatrixMarket"),
        (&["load", "5", "1", "-o", &own("closed.lp")], &[5, 0, 0, 0, 16, 0, 0, 0]),
    ];
    for (words, start) in cases {
        let mut shell = std::process::Command::new("sh");
        shell.args(["-c", "exec \"$0\" \"$@\" >&-", env!("CARGO_BIN_EXE_lilac")]).args(words);
        assert_eq!(shell.output().expect("the command runs").status.code(), Some(0), "{words:?}");
        let found = std::fs::read(words.last().expect("a name")).expect("the file is there");
        assert!(found.starts_with(start), "{words:?}");
    }
}

/// Closed, and open for reading only: neither may pass for success.
#[test]
fn a_closed_standard_output_has_status_2() {
    for words in printing_commands() {
        for closing in ["exec \"$0\" \"$@\" >&-", "exec \"$0\" \"$@\" 1</dev/null"] {
            let mut shell = std::process::Command::new("sh");
            shell.args(["-c", closing, env!("CARGO_BIN_EXE_lilac")]).args(&words);
            let output = shell.output().expect("the command runs");
            assert_eq!((output.status.code(), err(&output).lines().count()), (Some(2), 1), "{words:?} {closing}");
        }
    }
}

/// Nobody hears the message, but the status is the same.
#[test]
fn a_closed_standard_error_changes_nothing() {
    for closing in ["exec \"$0\" \"$@\" 2>&-", "exec \"$0\" \"$@\" 2>/dev/full"] {
        let mut shell = std::process::Command::new("sh");
        let output =
            shell.args(["-c", closing, env!("CARGO_BIN_EXE_lilac"), "solve"]).output().expect("the command runs");
        assert_eq!(output.status.code(), Some(2));
    }
}
