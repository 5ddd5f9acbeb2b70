//! What is asked for on the command line.

use crate::files;
use crate::listing::Listed;
use std::ffi::{OsStr, OsString};

pub enum Asked {
    Help,
    Explanation(Arguments),
}

pub struct Arguments {
    /// Where a page goes, if one is asked for.
    pub page: Option<OsString>,
    pub listed: Listed,
    pub files: Vec<OsString>,
}

/// Reads the arguments behind the program's name, or says what is wrong with them.
pub fn read(mut given: impl Iterator<Item = OsString>) -> Result<Asked, String> {
    let mut arguments = Arguments {
        page: None,
        listed: Listed::ALL,
        files: Vec::new(),
    };
    let mut options = true;
    while let Some(argument) = given.next() {
        let is_option =
            options && argument != "-" && argument.as_encoded_bytes().first() == Some(&b'-');
        if !is_option {
            arguments.files.push(argument);
            continue;
        }
        match argument.to_str() {
            Some("--") => options = false,
            Some("-h" | "--help") => return Ok(Asked::Help),
            Some("--html") => arguments.page = Some(behind(&argument, given.next())?),
            Some("--from") => arguments.listed.from = number_behind(&argument, given.next())?,
            Some("--to") => arguments.listed.to = number_behind(&argument, given.next())?,
            _ => return Err(format!("there is no option {}", files::shown(&argument))),
        }
    }
    checked(arguments).map(Asked::Explanation)
}

fn behind(option: &OsStr, next: Option<OsString>) -> Result<OsString, String> {
    match next {
        Some(next) if !next.is_empty() => Ok(next),
        _ => Err(format!(
            "{} needs something behind it",
            files::shown(option)
        )),
    }
}

/// The number of an exchange; they count from 1.
fn number_behind(option: &OsStr, next: Option<OsString>) -> Result<usize, String> {
    let next = behind(option, next)?;
    match next.to_str().and_then(|text| text.parse().ok()) {
        Some(number) if number > 0 => Ok(number),
        _ => Err(format!(
            "{} takes the number of an exchange, from 1 on, and not {}",
            files::shown(option),
            files::shown(&next)
        )),
    }
}

fn checked(arguments: Arguments) -> Result<Arguments, String> {
    let Listed { from, to } = arguments.listed;
    if arguments.files.is_empty() {
        return Err("there is no FILE".to_string());
    }
    if from > to {
        return Err(format!("--from {from} is above --to {to}"));
    }
    if arguments.page.is_some() && arguments.files.len() > 1 {
        return Err("--html takes one FILE".to_string());
    }
    Ok(arguments)
}

#[cfg(test)]
mod tests {
    use super::*;

    fn read_words(words: &str) -> Result<Asked, String> {
        read(words.split_whitespace().map(OsString::from))
    }

    fn explanation(words: &str) -> Arguments {
        match read_words(words) {
            Ok(Asked::Explanation(arguments)) => arguments,
            _ => panic!("{words} is not taken"),
        }
    }

    fn wrong(words: &str) -> String {
        read_words(words).err().expect("it is not refused")
    }

    #[test]
    fn options_and_files() {
        let arguments = explanation("--from 3 a --to 9 - -- --b");
        assert_eq!((arguments.listed.from, arguments.listed.to), (3, 9));
        assert_eq!(arguments.files, ["a", "-", "--b"]);
        assert_eq!(arguments.page, None);
        assert_eq!(explanation("--html out a").page, Some("out".into()));
        assert!(matches!(read_words("a -h"), Ok(Asked::Help)));
    }

    #[test]
    fn wrong_usage() {
        assert_eq!(wrong(""), "there is no FILE");
        assert_eq!(wrong("--from 2 --to 1 a"), "--from 2 is above --to 1");
        assert_eq!(wrong("--html out a b"), "--html takes one FILE");
        assert_eq!(wrong("--fast a"), "there is no option --fast");
        assert_eq!(wrong("a --html"), "--html needs something behind it");
        for number in ["0", "-1", "x", "99999999999999999999"] {
            let said = wrong(&format!("--from {number} a"));
            assert_eq!(
                said,
                format!("--from takes the number of an exchange, from 1 on, and not {number}")
            );
        }
    }
}
