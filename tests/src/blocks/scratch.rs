//! A folder in which blocks run: it looks like the repository, and what they write stays in it.
use super::super::checks::header::repository;
use std::ffi::OsStr;
use std::fs;
use std::io;
use std::os::unix::fs::symlink;
use std::path::{Path, PathBuf};
use std::process::{Command, Output, Stdio};
use std::sync::atomic::{AtomicU32, Ordering};

/// The folder; it is removed when this goes.
pub struct Scratch {
    pub folder: PathBuf,
}

static MADE: AtomicU32 = AtomicU32::new(0);

impl Scratch {
    /// A folder with a link to each item at the repository's root.
    pub fn new() -> io::Result<Scratch> {
        let name = format!("lilacpliers-blocks-{}-{}", std::process::id(), MADE.fetch_add(1, Ordering::Relaxed));
        let folder = std::env::temp_dir().join(name);
        fs::create_dir_all(&folder)?;
        let scratch = Scratch { folder };
        link_all(&repository().canonicalize()?, &scratch.folder)?;
        Ok(scratch)
    }

    /// Writes a file, and the folders that it stands in.
    pub fn write(&self, name: &str, text: &str) -> io::Result<()> {
        let path = self.folder.join(name);
        if let Some(parent) = path.parent() {
            fs::create_dir_all(parent)?;
        }
        fs::write(path, text)
    }

    /// Runs a command in a folder of this one.
    pub fn run(&self, folder: &str, words: &[&str]) -> io::Result<Output> {
        let [program, arguments @ ..] = words else { return Err(io::Error::other("no command")) };
        Command::new(program).args(arguments).current_dir(self.folder.join(folder)).stdin(Stdio::null()).output()
    }
}

impl Drop for Scratch {
    fn drop(&mut self) {
        let _ = fs::remove_dir_all(&self.folder);
    }
}

/// Copies a folder with all that is in it.
pub fn copy_all(from: &Path, to: &Path) -> io::Result<()> {
    fs::create_dir_all(to)?;
    for item in fs::read_dir(from)? {
        let item = item?;
        let copy = to.join(item.file_name());
        if item.file_type()?.is_dir() {
            copy_all(&item.path(), &copy)?;
        } else {
            fs::copy(item.path(), copy)?;
        }
    }
    Ok(())
}

/// Makes a link in one folder to each item of another, but for what belongs to git.
pub fn link_all(from: &Path, to: &Path) -> io::Result<()> {
    for item in fs::read_dir(from)? {
        let item = item?;
        if item.file_name() != OsStr::new(".git") {
            symlink(item.path(), to.join(item.file_name()))?;
        }
    }
    Ok(())
}
