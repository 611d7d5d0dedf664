//! Numbers as text, and writing that loses nothing silently.
use crate::closed;
use std::fs::{self, File};
use std::io::{self, IsTerminal, Write};
use std::os::fd::AsFd;
use std::os::unix::fs::MetadataExt;
use std::path::Path;

/// Where output goes.
pub enum Place<'a> {
    Standard,
    File(&'a Path),
}

impl Place<'_> {
    /// The place of a name: - is standard output.
    pub fn of(path: &Path) -> Place<'_> {
        if is_standard(path) {
            Place::Standard
        } else {
            Place::File(path)
        }
    }
}

fn is_standard(path: &Path) -> bool {
    path == Path::new("-")
}

/// A number that reads back to the same bits: plain digits at ordinary sizes, an exponent elsewhere.
pub fn decimal(number: f64) -> String {
    let size = number.abs();
    if size == 0.0 || (1e-5..1e16).contains(&size) {
        format!("{number}")
    } else {
        format!("{number:e}")
    }
}

/// The 16 hexadecimal digits of a number's bits.
pub fn hexadecimal(number: f64) -> String {
    format!("{:016X}", number.to_bits())
}

/// One number a line.
pub fn column(numbers: &[f64], hex: bool) -> String {
    let line = if hex { hexadecimal } else { decimal };
    numbers.iter().map(|&number| line(number) + "\n").collect()
}

/// Writes everything, or says in one line what went wrong.
pub fn write(place: Place, bytes: &[u8]) -> Result<(), String> {
    match place {
        Place::Standard => to_standard(bytes).map_err(|error| format!("cannot write to standard output: {error}")),
        Place::File(path) => to_file(path, bytes).map_err(|words| format!("cannot write {}: {words}", path.display())),
    }
}

/// Writes a file of this kind that is no text, which is why a terminal does not get it.
pub fn write_binary(place: Place, kind: &str, bytes: &[u8]) -> Result<(), String> {
    if matches!(place, Place::Standard) && io::stdout().is_terminal() {
        return Err(format!("a {kind} file is no text for a terminal: -o FILE writes it to a file"));
    }
    write(place, bytes)
}

/// The library's own handle takes a bad descriptor for success, so the descriptor is written to as a file.
fn to_standard(bytes: &[u8]) -> io::Result<()> {
    if closed::at_start() {
        return Err(io::Error::other("it is closed"));
    }
    put(File::from(io::stdout().as_fd().try_clone_to_owned()?), bytes)
}

fn to_file(path: &Path, bytes: &[u8]) -> Result<(), String> {
    let file = File::create(path).map_err(|error| error.to_string())?;
    put(file, bytes).map_err(|error| format!("{error}{}", remove_part(path)))
}

fn put(mut file: File, bytes: &[u8]) -> io::Result<()> {
    file.write_all(bytes)?;
    file.flush()?;
    // A full disk may show only now. Devices and pipes cannot be synced, and need not be.
    if file.metadata()?.is_file() {
        file.sync_all()?;
    }
    Ok(())
}

/// Part of an answer must not pass for the whole: removes it, or says that it is there. A link stays where it is.
fn remove_part(path: &Path) -> &'static str {
    let own = path.symlink_metadata().is_ok_and(|data| data.is_file());
    if own && fs::remove_file(path).is_ok() {
        "; the incomplete file is removed"
    } else if path.is_file() {
        "; the file is incomplete"
    } else {
        ""
    }
}

/// Refuses to write a file that is read, or that is written twice: one of the two would be lost.
pub fn apart(written: &[Option<&Path>], read: &[Option<&Path>]) -> Result<(), String> {
    let written: Vec<&Path> = written.iter().flatten().copied().collect();
    let read: Vec<&Path> = read.iter().flatten().copied().collect();
    for (k, &path) in written.iter().enumerate() {
        // Standard output is not standard input, though both have one name.
        let sources = if is_standard(path) { &[] } else { &read[..] };
        if written[k + 1..].iter().chain(sources).any(|other| one_file(path, other)) {
            return Err(format!("{} is named twice, and would be overwritten", path.display()));
        }
    }
    Ok(())
}

/// Whether two names lead to one file. A device may have any number of names.
fn one_file(first: &Path, second: &Path) -> bool {
    match (first.metadata(), second.metadata()) {
        (Ok(one), Ok(other)) => one.is_file() && (one.dev(), one.ino()) == (other.dev(), other.ino()),
        _ => first == second,
    }
}

/// Says one line on standard error. There is nobody to tell when that fails.
pub fn say(line: &str) {
    let line: String = line.chars().map(|letter| if letter.is_control() { ' ' } else { letter }).collect();
    let _ = writeln!(io::stderr(), "lilac: {line}");
}

/// Says a line as it stands, for other programs to read.
pub fn say_bare(line: &str) {
    let _ = writeln!(io::stderr(), "{line}");
}

#[cfg(test)]
mod tests {
    use super::*;

    #[test]
    fn numbers_read_back_to_the_same_bits() {
        let odd = [
            0.0,
            -0.0,
            1.0,
            0.1,
            -1.0 / 3.0,
            1e16,
            9.999_999_999_999_998e15,
            1e-5,
            5e-324,
            f64::MAX,
            f64::MIN_POSITIVE,
            1e300,
        ];
        for number in odd {
            let back: Result<f64, _> = decimal(number).parse();
            assert_eq!(back.map(f64::to_bits), Ok(number.to_bits()), "{number:e}");
            assert!(decimal(number).len() < 26);
        }
    }

    #[test]
    fn digits_are_capital_and_sixteen() {
        assert_eq!(column(&[1.0, 0.0, -0.1], true), "3FF0000000000000\n0000000000000000\nBFB999999999999A\n");
    }
}
