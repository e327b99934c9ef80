//! Files, read up to a limit and written whole.

use crate::trouble::Trouble;
use std::fs::File;
use std::io::{self, Read, Write};

/// The longest text that is read: longer than any network or list of rows that could be a gate.
const MOST: u64 = 8 << 20;
/// The most bytes that are read of a sheet or a card: longer than any of them.
pub const MOST_BYTES: usize = 4096;

/// The bytes of a file, or of standard input for `-`; of a longer one as many as the limit and one
/// more.
fn start_of(path: &str, limit: u64) -> Result<Vec<u8>, Trouble> {
    let mut bytes = Vec::new();
    let read = match path {
        "-" => io::stdin().lock().take(limit + 1).read_to_end(&mut bytes),
        _ => File::open(path).and_then(|file| file.take(limit + 1).read_to_end(&mut bytes)),
    };
    read.map(|_| bytes).map_err(|error| Trouble::file(format!("{path}: {error}")))
}

/// A text file, whole.
pub fn text(path: &str) -> Result<String, Trouble> {
    let bytes = start_of(path, MOST)?;
    if bytes.len() as u64 > MOST {
        return Err(Trouble::file(format!("{path}: longer than {} megabytes", MOST >> 20)));
    }
    match String::from_utf8(bytes) {
        Ok(text) if !text.contains('\0') => Ok(text),
        _ => Err(Trouble::file(format!("{path}: isn't text"))),
    }
}

/// The bytes of a sheet or a card. Of a longer file only as much is read as shows that it is too
/// long: the library says so.
pub fn bytes(path: &str) -> Result<Vec<u8>, Trouble> {
    start_of(path, MOST_BYTES as u64)
}

/// Writes a file whole: beside it first, so that what stood there is not lost halfway.
pub fn write(path: &str, bytes: &[u8]) -> Result<(), Trouble> {
    let done = match path {
        "-" => io::stdout().lock().write_all(bytes),
        _ if !is_plain(path) => File::create(path).and_then(|mut file| file.write_all(bytes)),
        _ => {
            let beside = format!("{path}.new");
            let written = File::create(&beside).and_then(|mut file| file.write_all(bytes));
            written.and_then(|()| std::fs::rename(&beside, path))
        }
    };
    done.map_err(|error| Trouble::file(format!("{path}: {error}")))
}

/// Whether a path is a plain file, or nothing yet: no pipe and no device.
fn is_plain(path: &str) -> bool {
    std::fs::metadata(path).map_or(true, |about| about.is_file())
}
