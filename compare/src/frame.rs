//! Frames of both kinds: opening them, and the host side's build and read.

use crate::fault::Fault;

pub const STX: u8 = 0x02;
pub const ETX: u8 = 0x03;
pub const PAD: u8 = 0x7F;
const CR: u8 = 0x0D;
const LF: u8 = 0x0A;

pub const LEAST_TEXT: usize = 4;
pub const MOST_TEXT: usize = 60;
/// A lent buffer has to hold the longest frame of either kind.
pub const LEAST_BUFFER: usize = 64;

#[derive(Clone, Copy, PartialEq, Eq, Debug)]
pub enum Kind {
    Minicomputer,
    Terminal,
}

impl Kind {
    /// Bytes behind the text.
    pub fn trailer(self) -> usize {
        match self {
            Kind::Minicomputer => 3,
            Kind::Terminal => 2,
        }
    }
}

pub fn is_text_byte(byte: u8) -> bool {
    (0x20..=0x7E).contains(&byte)
}

pub fn check_over(bytes: &[u8]) -> u8 {
    bytes.iter().fold(0, |check, byte| check ^ byte)
}

/// Lays a frame at the start of a buffer that holds it, and answers its length.
pub fn lay(kind: Kind, text: &[u8], buffer: &mut [u8]) -> usize {
    let end = 1 + text.len();
    buffer[1..end].copy_from_slice(text);
    match kind {
        Kind::Minicomputer => {
            buffer[0] = STX;
            buffer[end] = ETX;
            buffer[end + 1] = check_over(&buffer[1..=end]);
            buffer[end + 2] = PAD;
        }
        Kind::Terminal => {
            buffer[0] = b'*';
            buffer[end] = CR;
            buffer[end + 1] = LF;
        }
    }
    end + kind.trailer()
}

/// The text of a frame, or the number of the silence S3 to S6 that it meets.
pub fn open(kind: Kind, frame: &[u8], fault: Fault) -> Result<&[u8], u8> {
    let frame_around = |text: usize| 1 + text + kind.trailer();
    let longest = frame_around(MOST_TEXT) + usize::from(fault == Fault::SixtyFiveBytesRead);
    if !(frame_around(LEAST_TEXT)..=longest).contains(&frame.len()) {
        return Err(3);
    }
    let end = frame.len() - kind.trailer();
    let text = &frame[1..end];
    let (marks, check) = match kind {
        Kind::Minicomputer => (
            frame[0] == STX && frame[end] == ETX && frame[end + 2] == PAD,
            frame[end + 1]
                == match fault {
                    Fault::CheckCoversStx => check_over(&frame[..=end]),
                    _ => check_over(&frame[1..=end]),
                },
        ),
        Kind::Terminal => (
            frame[0] == b'*' && frame[end] == CR && frame[end + 1] == LF,
            true,
        ),
    };
    let check_as_mark =
        fault == Fault::CheckTakenForStx && kind == Kind::Minicomputer && frame[end + 1] == STX;
    let bytes = text.iter().all(|&byte| is_text_byte(byte));
    let mut tests = [(4, marks && !check_as_mark), (5, check), (6, bytes)];
    match fault {
        Fault::CheckBeforeMarks => tests.swap(0, 1),
        Fault::BytesBeforeCheck => tests.swap(1, 2),
        _ => {}
    }
    match tests.iter().find(|(_, passed)| !passed) {
        Some(&(silence, _)) => Err(silence),
        None => Ok(text),
    }
}

#[derive(Clone, Copy, PartialEq, Eq, Debug)]
pub enum HostRefusal {
    /// H1 to H3.
    Host(u8),
    /// S3 to S6.
    Frame(u8),
}

/// Builds a frame at the start of a lent buffer.
pub fn build(kind: Kind, text: &[u8], out: &mut [u8], fault: Fault) -> Result<usize, HostRefusal> {
    if out.len() < LEAST_BUFFER {
        return Err(HostRefusal::Host(1));
    }
    let length_legal = (LEAST_TEXT..=MOST_TEXT).contains(&text.len());
    let bytes_legal = text.iter().all(|&byte| is_text_byte(byte));
    if fault == Fault::BuildByteBeforeLength && !bytes_legal {
        return Err(HostRefusal::Host(3));
    }
    if !length_legal {
        return Err(HostRefusal::Host(2));
    }
    if !bytes_legal {
        return Err(HostRefusal::Host(3));
    }
    let length = lay(kind, text, out);
    if fault == Fault::BuildTailOverwritten {
        out[length..].fill(0);
    }
    Ok(length)
}

/// Copies a frame's text to the start of a lent buffer.
pub fn read(kind: Kind, frame: &[u8], out: &mut [u8], fault: Fault) -> Result<usize, HostRefusal> {
    if out.len() < LEAST_BUFFER {
        return Err(HostRefusal::Host(1));
    }
    let text = open(kind, frame, fault).map_err(HostRefusal::Frame)?;
    if fault == Fault::ReadTailOverwritten {
        out.fill(0);
    }
    out[..text.len()].copy_from_slice(text);
    Ok(text.len())
}

/// The minicomputer or terminal frame of a text of any length.
pub fn framed(kind: Kind, text: &[u8]) -> Vec<u8> {
    let mut frame = vec![0; 1 + text.len() + kind.trailer()];
    lay(kind, text, &mut frame);
    frame
}

#[cfg(test)]
mod tests {
    use super::*;

    #[test]
    fn limits_of_the_length() {
        for (kind, longest) in [(Kind::Minicomputer, 64), (Kind::Terminal, 63)] {
            let frame = framed(kind, &[b'A'; 60]);
            assert_eq!(frame.len(), longest);
            assert_eq!(open(kind, &frame, Fault::None), Ok(&[b'A'; 60][..]));
            assert_eq!(open(kind, &framed(kind, &[b'A'; 61]), Fault::None), Err(3));
            assert_eq!(open(kind, &framed(kind, b"01E"), Fault::None), Err(3));
        }
    }

    #[test]
    fn marks_then_check_then_bytes() {
        let silence = |frame: &[u8]| open(Kind::Minicomputer, frame, Fault::None).err();
        let mut frame = framed(Kind::Minicomputer, b"01E\x07");
        assert_eq!(silence(&frame), Some(6));
        frame[6] ^= 1;
        assert_eq!(silence(&frame), Some(5));
        frame[7] = 0;
        assert_eq!(silence(&frame), Some(4));
        let mut terminal = framed(Kind::Terminal, b"01E\x07");
        assert_eq!(open(Kind::Terminal, &terminal, Fault::None), Err(6));
        terminal[5] = LF;
        assert_eq!(open(Kind::Terminal, &terminal, Fault::None), Err(4));
    }

    #[test]
    fn host_side() {
        let mut out = [9; 70];
        let length = build(Kind::Minicomputer, b"01EQ", &mut out, Fault::None);
        assert_eq!(length, Ok(8));
        let expected = [0x02, 0x30, 0x31, 0x45, 0x51, 0x03, 0x16, 0x7F, 9];
        assert_eq!(out[..9], expected);
        let refusal = |text: &[u8]| build(Kind::Terminal, text, &mut [0; 64], Fault::None);
        assert_eq!(refusal(b"\x01"), Err(HostRefusal::Host(2)));
        assert_eq!(refusal(b"\x0111E"), Err(HostRefusal::Host(3)));
        let short = build(Kind::Terminal, b"\x01", &mut [0; 63], Fault::None);
        assert_eq!(short, Err(HostRefusal::Host(1)));
    }
}
