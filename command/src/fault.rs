//! What went wrong, how it is said, and the exit status.
use crate::output::{say, say_bare};
use lilacpliers::{Error, Refusal};
use std::ops::RangeInclusive;

pub enum Fault {
    /// The library refused; the name of the file it was about, whether that cannot be read, and a hint for whoever reads
    /// it, which may be empty.
    Refused { name: String, refusal: Refusal, unreadable: bool, hint: String },
    /// Anything else, as one line.
    Bad(String),
}

/// These refusals are about a matrix file, which then cannot be read.
const OF_FILES: RangeInclusive<u32> = 16..=18;
const LONGEST_LINE: usize = 500;

impl From<String> for Fault {
    fn from(line: String) -> Fault {
        Fault::Bad(line)
    }
}

impl Fault {
    /// What the library said about a file.
    pub fn about(name: &str, error: Error) -> Fault {
        match error {
            Error::Refused(refusal) => {
                let unreadable = OF_FILES.contains(&refusal.number());
                Fault::Refused { name: name.to_string(), refusal, unreadable, hint: String::new() }
            }
            other => Fault::Bad(format!("{name}: {other}")),
        }
    }

    /// What the library said about a factor file: whatever it is refused with, it cannot be read.
    pub fn about_factors(name: &str, error: Error) -> Fault {
        let mut fault = Fault::about(name, error);
        if let Fault::Refused { unreadable, .. } = &mut fault {
            *unreadable = true;
        }
        fault
    }

    /// A fault with a hint, where it is a refusal for which there is one.
    pub fn with_hint(mut self, find: impl Fn(&Refusal) -> Option<String>) -> Fault {
        if let Fault::Refused { refusal, hint, .. } = &mut self {
            *hint = find(refusal).unwrap_or_default();
        }
        self
    }

    pub fn status(&self) -> u8 {
        match self {
            Fault::Refused { unreadable: false, .. } => 1,
            _ => 2,
        }
    }

    /// Says it in one line, a refusal as its numbers where that is asked for.
    pub fn tell(&self, numbers: bool) {
        match self {
            Fault::Refused { refusal, .. } if numbers => {
                say_bare(&format!("refused {} {}", refusal.number(), refusal.place()));
            }
            Fault::Refused { name, refusal, hint, .. } => say(&shortened(&format!("{name}: {refusal}{hint}"))),
            Fault::Bad(line) => say(&shortened(line)),
        }
    }
}

/// A word of a bad file may be as long as the file.
fn shortened(line: &str) -> String {
    if line.chars().count() <= LONGEST_LINE {
        return line.to_string();
    }
    let kept: String = line.chars().take(LONGEST_LINE).collect();
    kept + " ..."
}
