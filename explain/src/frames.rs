//! Requests and replies as they are shown.

use crate::facts;

/// How many bytes of a frame that has no text are shown on one line.
pub const SHORT: usize = 24;

/// A space that could be overlooked, and a byte that is not printable.
pub const SPACE: &str = "\u{2423}";
pub const UNPRINTABLE: &str = "\u{b7}";

/// A request: its text behind the address digits; or its bytes, and n of the Sn that it meets.
pub enum Request<'a> {
    Text(String),
    Silent(&'a [u8], u32),
}

pub enum Reply<'a> {
    Silence,
    /// The text behind the address digits.
    Text(String),
    /// The whole text: its digits are of another address.
    OtherAddress(String),
    /// No frame, by the n of Sn that a request like this meets.
    NoFrame(&'a [u8], u32),
}

pub fn request(address: u8, bytes: &[u8]) -> Request<'_> {
    match (facts::met_by(address, bytes), facts::text_of(bytes)) {
        (Ok(_), Ok(text)) => Request::Text(visible(&text[2..])),
        (Err(number), _) | (_, Err(number)) => Request::Silent(bytes, number),
    }
}

pub fn reply(address: u8, bytes: &[u8]) -> Reply<'_> {
    if bytes.is_empty() {
        return Reply::Silence;
    }
    match facts::text_of(bytes) {
        Err(number) => Reply::NoFrame(bytes, number),
        Ok(text) if text.starts_with(format!("{address:02}").as_bytes()) => {
            Reply::Text(visible(&text[2..]))
        }
        Ok(text) => Reply::OtherAddress(visible(&text)),
    }
}

impl Request<'_> {
    /// As it stands in a list, with so many bytes at most where it has no text.
    pub fn shown(&self, most: usize) -> String {
        match self {
            Request::Text(text) => text.clone(),
            Request::Silent(bytes, number) => {
                format!(
                    "{} (S{number}: {})",
                    shown_bytes(bytes, most),
                    silence(*number)
                )
            }
        }
    }

    /// As it is spoken of.
    pub fn called(&self) -> String {
        match self {
            Request::Text(text) => text.clone(),
            Request::Silent(..) => "this request".to_string(),
        }
    }
}

impl Reply<'_> {
    pub fn shown(&self, most: usize) -> String {
        match self {
            Reply::Silence => "silence".to_string(),
            Reply::Text(text) => text.clone(),
            Reply::OtherAddress(text) => format!("{text} (another address)"),
            Reply::NoFrame(bytes, _) => format!("{} (no whole frame)", shown_bytes(bytes, most)),
        }
    }
}

/// Why a request meets silence.
pub fn silence(number: u32) -> &'static str {
    match number {
        3 => "it has too few or too many bytes",
        4 => "its beginning or its end is damaged",
        5 => "its check character is wrong",
        6 => "a byte in it is no printable character",
        7 => "it has no address or no code that can be read",
        8 => "it is for another address",
        _ => "it is not answered",
    }
}

/// Printable characters alone; a space that could be overlooked is shown.
pub fn visible(text: &[u8]) -> String {
    let mut shown = String::new();
    for (index, &byte) in text.iter().enumerate() {
        let beside_space = text.get(index + 1).is_none_or(|&next| next == b' ')
            || index
                .checked_sub(1)
                .is_none_or(|before| text[before] == b' ');
        match byte {
            b' ' if beside_space => shown.push_str(SPACE),
            b' '..=b'~' => shown.push(char::from(byte)),
            _ => shown.push_str(&format!("\\x{byte:02X}")),
        }
    }
    shown
}

/// Bytes on one line, as numbers and as characters: `02 30 37 "·07"`.
fn shown_bytes(bytes: &[u8], most: usize) -> String {
    if bytes.is_empty() {
        return "no bytes".to_string();
    }
    let some = &bytes[..bytes.len().min(most)];
    let more = match bytes.len() - some.len() {
        0 => String::new(),
        more => format!(" and {more} more"),
    };
    format!("{} \"{}\"{more}", numbers(some), characters(some))
}

/// Two hexadecimal digits for each byte.
pub fn numbers(bytes: &[u8]) -> String {
    let numbers: Vec<String> = bytes.iter().map(|byte| format!("{byte:02X}")).collect();
    numbers.join(" ")
}

/// A character for each byte, a dot where it is not printable.
pub fn characters(bytes: &[u8]) -> String {
    let mut shown = String::new();
    for &byte in bytes {
        match byte {
            b' '..=b'~' => shown.push(char::from(byte)),
            _ => shown.push_str(UNPRINTABLE),
        }
    }
    shown
}

#[cfg(test)]
mod tests {
    use super::*;

    #[test]
    fn spaces_that_could_be_overlooked() {
        assert_eq!(visible(b"PC 032 10150"), "PC 032 10150");
        assert_eq!(visible(b"RS "), "RS\u{2423}");
        assert_eq!(visible(b"PV  032"), "PV\u{2423}\u{2423}032");
        assert_eq!(visible(b" EQ"), "\u{2423}EQ");
    }

    #[test]
    fn nothing_unprintable_is_shown() {
        assert_eq!(visible(b"a\x1b[2J\xff"), "a\\x1B[2J\\xFF");
        let shown = Request::Silent(b"\x02\x1b[\x7f", 3).shown(SHORT);
        assert_eq!(
            shown,
            "02 1B 5B 7F \"\u{b7}\u{b7}[\u{b7}\" (S3: it has too few or too many bytes)"
        );
    }

    #[test]
    fn long_and_empty_requests() {
        let shown = Request::Silent(&[0x41; 20], 3).shown(2);
        assert_eq!(
            shown,
            "41 41 \"AA\" and 18 more (S3: it has too few or too many bytes)"
        );
        assert_eq!(
            Request::Silent(&[], 3).shown(2),
            "no bytes (S3: it has too few or too many bytes)"
        );
    }

    #[test]
    fn requests_and_replies_by_the_library() {
        let frame = b"\x0201EQ\x03\x16\x7f";
        assert_eq!(request(1, frame).shown(SHORT), "EQ");
        assert!(matches!(request(2, frame), Request::Silent(_, 8)));
        assert!(matches!(
            request(1, b"\x0201EQ\x03\x17\x7f"),
            Request::Silent(_, 5)
        ));
        assert!(matches!(request(1, b""), Request::Silent(_, 3)));
        assert_eq!(reply(1, b"\x0201OK\x03\x06\x7f").shown(SHORT), "OK");
        assert_eq!(
            reply(2, b"\x0201OK\x03\x06\x7f").shown(SHORT),
            "01OK (another address)"
        );
        assert_eq!(reply(1, b"").shown(SHORT), "silence");
        assert!(matches!(reply(1, b"\x02"), Reply::NoFrame(_, 3)));
    }
}
