//! Reading recordings, and writing what was made of them.

use std::ffi::OsStr;
use std::fs::{self, File, OpenOptions};
use std::io::{self, ErrorKind, Read, Write};
use std::path::{Path, PathBuf};

/// The longest recording. One byte more is read of a longer file, which is no recording whatever else it holds.
pub const LONGEST: usize = khuyapesh::RECORDING_LENGTH;

pub struct Input {
    /// As it was given, made safe to be shown.
    pub name: String,
    /// Without its folders.
    pub last_name: String,
    pub bytes: Vec<u8>,
}

/// A name with nothing in it that a terminal would act on.
pub fn shown(name: &OsStr) -> String {
    let mut text = String::new();
    for character in name.to_string_lossy().chars() {
        if character.is_control() || turns_direction(character) {
            text.extend(character.escape_unicode());
        } else {
            text.push(character);
        }
    }
    text
}

/// The characters that have what follows read from right to left, or end that.
fn turns_direction(character: char) -> bool {
    matches!(character, '\u{200e}' | '\u{200f}' | '\u{202a}'..='\u{202e}' | '\u{2066}'..='\u{2069}')
}

/// Reads a file, or standard input for -; or says why it cannot be read.
pub fn read(file: &OsStr) -> Result<Input, String> {
    let name = shown(file);
    if file == "-" {
        let bytes = read_start(io::stdin().lock());
        return Ok(Input {
            last_name: "standard input".to_string(),
            bytes: bytes.map_err(|error| format!("{name}: cannot be read: {error}"))?,
            name,
        });
    }
    let path = Path::new(file);
    if path.is_dir() {
        return Err(format!("{name}: is a folder"));
    }
    let bytes = File::open(path)
        .and_then(read_start)
        .map_err(|error| format!("{name}: cannot be read: {error}"))?;
    Ok(Input {
        last_name: path.file_name().map_or_else(|| name.clone(), shown),
        name,
        bytes,
    })
}

fn read_start(from: impl Read) -> io::Result<Vec<u8>> {
    let mut bytes = Vec::new();
    from.take(LONGEST as u64 + 1).read_to_end(&mut bytes)?;
    Ok(bytes)
}

/// Writes to standard output. Where nobody reads it any more nothing is said.
pub fn write_out(text: &str) -> Result<(), String> {
    let mut out = io::stdout().lock();
    match out.write_all(text.as_bytes()).and_then(|()| out.flush()) {
        Ok(()) => Ok(()),
        Err(error) if error.kind() == ErrorKind::BrokenPipe => Err(String::new()),
        Err(error) => Err(format!("standard output cannot be written: {error}")),
    }
}

/// Writes a page whole or not at all: beside its place first, then there.
pub fn write_page(out: &OsStr, recording: &OsStr, page: &str) -> Result<(), String> {
    let path = Path::new(out);
    may_be_replaced(path, Path::new(recording))?;
    let beside = beside(path);
    write_new(&beside, page)
        .and_then(|()| fs::rename(&beside, path))
        .map_err(|error| {
            // It may not be there.
            let _ = fs::remove_file(&beside);
            format!("{}: cannot be written: {error}", shown(out))
        })
}

/// A folder, a device or the recording itself is not.
fn may_be_replaced(path: &Path, recording: &Path) -> Result<(), String> {
    let name = shown(path.as_os_str());
    let Ok(there) = fs::metadata(path) else {
        return Ok(());
    };
    if there.is_dir() {
        return Err(format!("{name}: is a folder"));
    }
    if !there.is_file() {
        return Err(format!("{name}: is no file that a page can be written to"));
    }
    if let (Ok(one), Ok(other)) = (path.canonicalize(), recording.canonicalize()) {
        if one == other {
            return Err(format!("{name}: is the recording itself"));
        }
    }
    Ok(())
}

/// A name in the same folder that nobody else uses.
fn beside(path: &Path) -> PathBuf {
    let mut name = std::ffi::OsString::from(".");
    name.push(path.file_name().unwrap_or(OsStr::new("page")));
    name.push(format!(".{}.part", std::process::id()));
    path.with_file_name(name)
}

fn write_new(path: &Path, text: &str) -> io::Result<()> {
    let mut file = OpenOptions::new().write(true).create_new(true).open(path)?;
    file.write_all(text.as_bytes())?;
    file.sync_all()
}

#[cfg(test)]
mod tests {
    use super::*;

    #[test]
    fn names_are_safe_to_show() {
        assert_eq!(shown(OsStr::new("a b-\u{e9}")), "a b-\u{e9}");
        assert_eq!(shown(OsStr::new("a\u{1b}[2J\n")), "a\\u{1b}[2J\\u{a}");
        assert_eq!(shown(OsStr::new("a\u{202e}b")), "a\\u{202e}b");
    }

    #[test]
    fn no_more_is_read_than_tells_that_it_is_too_long() {
        let bytes = read_start(io::repeat(7)).expect("it can be read");
        assert_eq!(bytes.len(), LONGEST + 1);
    }
}
