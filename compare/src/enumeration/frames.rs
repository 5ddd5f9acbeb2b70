//! Frames of every length and with every damage.

use super::{buffer, plain_record, request, KINDS};
use crate::comparison::{Comparison, Difference};
use crate::frame::{self, Kind};
use crate::stored;

/// How many combinations of damages there are.
pub const DAMAGES: usize = 1 << 9;

/// A batch set at the plain record, its frame with a combination of damages.
pub fn damaged(kind: Kind, damages: usize) -> Vec<u8> {
    let has = |damage: usize| damages & 1 << damage != 0;
    let mut text = b"42SB 500".to_vec();
    if has(0) {
        text.resize(61, b'0');
    }
    if has(1) {
        text[7] = 0x7F;
    }
    if has(2) {
        text[1] = b'A';
    }
    if has(3) {
        text[3] = b'b';
    }
    if has(4) {
        text[0] = b'0';
    }
    let mut frame = frame::framed(kind, &text);
    let length = frame.len();
    if has(5) {
        frame[0] = 0x03;
    }
    if has(6) {
        frame[length - kind.trailer()] = 0x02;
    }
    if has(7) {
        frame[length - 1] = 0x02;
    }
    if has(8) {
        frame[length - 2] ^= 0x10;
    }
    frame
}

/// Every combination of damages to a frame, against reply buffers about the least length and a
/// record that is not valid.
pub fn damaged_frames(comparison: &mut Comparison) -> Result<(), Difference> {
    let record = plain_record();
    let valid = stored::form(&record);
    let mut broken = valid;
    broken[7] = 9;
    for kind in KINDS {
        for damages in 0..DAMAGES {
            let frame = damaged(kind, damages);
            for reply in [0, 1, 63, 64, 65, 80] {
                comparison.call(kind as u8, &valid, &frame, &buffer(reply))?;
                comparison.call(kind as u8, &broken, &frame, &buffer(reply))?;
                comparison.call(2 + kind as u8, &broken, &frame, &buffer(reply))?;
                comparison.read_and_build(kind as u8, &frame, &buffer(reply))?;
            }
        }
    }
    Ok(())
}

/// Every byte in every place of a request, with the check left and with the check mended.
pub fn request_bytes(comparison: &mut Comparison) -> Result<(), Difference> {
    let record = plain_record();
    let form = stored::form(&record);
    let reply = buffer(64);
    for kind in KINDS {
        for text in ["EQ", "XC 032 0", "SB 00500"] {
            let whole = request(kind, record.address, text);
            for place in 0..whole.len() {
                for byte in 0..=255 {
                    let mut frame = whole.clone();
                    frame[place] = byte;
                    comparison.call(kind as u8, &form, &frame, &reply)?;
                    if kind == Kind::Minicomputer && place != whole.len() - 2 {
                        let check = whole.len() - 2;
                        frame[check] ^= whole[place] ^ byte;
                        comparison.call(0, &form, &frame, &reply)?;
                    }
                }
            }
        }
        // Every length, right but for it.
        for length in 0..=300 {
            let mut text = b"42EQ ".to_vec();
            text.resize(length, b'7');
            let frame = frame::framed(kind, &text);
            comparison.call(kind as u8, &form, &frame, &reply)?;
            comparison.call(kind as u8, &form, &frame[..length], &reply)?;
        }
    }
    Ok(())
}

pub fn host_side(comparison: &mut Comparison) -> Result<(), Difference> {
    for kind in 0..=2 {
        for length in 0..=70 {
            for out in [0, 63, 64, 65, 80] {
                let mut text: Vec<u8> = (0..length).map(|place| 0x20 + place as u8).collect();
                comparison.build_and_read(kind, &text, &buffer(out))?;
                if let Some(last) = text.last_mut() {
                    *last = 0x1F;
                    comparison.build(kind, &text, &buffer(out))?;
                }
                for frame_kind in KINDS {
                    let frame = frame::framed(frame_kind, &text);
                    comparison.read_and_build(kind, &frame, &buffer(out))?;
                }
            }
        }
        for byte in 0..=255 {
            for length in [4, 5, 60] {
                for place in [0, 1, length - 1] {
                    let mut text = vec![b'T'; length];
                    text[place] = byte;
                    comparison.build_and_read(kind, &text, &buffer(70))?;
                    for frame_kind in KINDS {
                        let frame = frame::framed(frame_kind, &text);
                        comparison.read_and_build(kind, &frame, &buffer(70))?;
                    }
                }
            }
        }
    }
    Ok(())
}
