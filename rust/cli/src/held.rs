//! Files that are changed in place, opened and locked.

use super::{input, os};
use inscjarol::Writer;
use std::{fs, io, os::unix::fs::MetadataExt, path::Path};

/// Opens a file to be changed, and locks it.
pub(crate) fn open(path: &Path) -> io::Result<Writer> {
    let about = fs::metadata(path)?;
    if about.is_dir() {
        return Err(other("it is a folder, not a file"));
    }
    // Who may write everything is held to the mode all the same.
    if about.is_file() && about.mode() & 0o222 == 0 {
        return Err(other("it is read-only"));
    }
    os::writer(path)
}

/// Why a file cannot be opened to be written, as it is told.
pub(crate) fn words(error: &io::Error) -> String {
    match error.kind() {
        io::ErrorKind::PermissionDenied => {
            String::from("it may not be written (permission denied)")
        }
        _ => input::words(error),
    }
}

fn other(words: &str) -> io::Error {
    io::Error::new(io::ErrorKind::Other, words)
}
