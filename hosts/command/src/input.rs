//! The bytes of a listing or an index, from a file or standard input.

use std::ffi::OsStr;
use std::fs::File;
use std::io::{self, ErrorKind, Read};

/// Reads a listing or an index. One byte above the limit is enough for rule 1, and no index is as long, so a huge file
/// costs nothing.
pub fn read(file: &OsStr) -> Result<Vec<u8>, String> {
    let name = name(file);
    if file == "-" {
        return front(io::stdin().lock()).map_err(|error| format!("{name}: {error}"));
    }
    let bytes = File::open(file).and_then(|file| {
        if file.metadata()?.is_dir() {
            return Ok(None);
        }
        front(file).map(Some)
    });
    match bytes {
        Ok(Some(bytes)) => Ok(bytes),
        Ok(None) => Err(format!("{name} is a folder, not a file")),
        Err(error) if error.kind() == ErrorKind::NotFound => {
            Err(format!("there is no file {name}"))
        }
        Err(error) => Err(format!("{name}: {error}")),
    }
}

/// What to call the file.
pub fn name(file: &OsStr) -> String {
    if file == "-" {
        return "standard input".into();
    }
    file.to_string_lossy().into()
}

fn front(from: impl Read) -> io::Result<Vec<u8>> {
    let mut bytes = Vec::new();
    from.take(dreichnook::LIMIT as u64 + 1)
        .read_to_end(&mut bytes)?;
    Ok(bytes)
}

#[cfg(test)]
mod tests {
    use super::*;

    #[test]
    fn no_more_is_read_than_rule_1_needs() {
        assert_eq!(front(io::repeat(0)).unwrap().len(), dreichnook::LIMIT + 1);
        assert_eq!(front(&b"listing"[..]).unwrap(), b"listing");
    }
}
