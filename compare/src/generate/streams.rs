//! What a serial card hands over: frames end to end, right and wrong, with noise between them and cut
//! by the end.

use crate::bank::Bank;
use crate::fault::Fault;
use crate::frame::{self, Kind, ETX, LEAST_BUFFER, STX};
use crate::generate::requests::{self, Commands};
use crate::random::Random;
use crate::record::Record;
use crate::several;

pub fn framed(text: &[u8]) -> Vec<u8> {
    frame::framed(Kind::Minicomputer, text)
}

/// Lengthens a text so that its check is STX.
pub fn checked_by_stx(mut text: Vec<u8>) -> Vec<u8> {
    let lacking = frame::check_over(&text) ^ ETX ^ STX;
    if frame::is_text_byte(lacking) {
        text.push(lacking);
    } else {
        text.extend([b'@', b'@' ^ lacking]);
    }
    text
}

/// Whom a stream is for, and of which commands it is.
#[derive(Clone, Copy)]
pub struct Talk<'record> {
    pub record: &'record Record,
    pub command: Commands,
}

/// The text of a right request to this unit.
fn own_text(random: &mut Random, talk: Talk) -> Vec<u8> {
    let command = (talk.command)(random, talk.record);
    format!("{:02}{command}", talk.record.address).into_bytes()
}

/// Such a text, brought to a length at or past a limit.
fn text_at_a_limit(random: &mut Random, talk: Talk) -> Vec<u8> {
    let mut text = own_text(random, talk);
    let length = random.pick(&[0, 1, 2, 3, 4, 59, 60, 61, 62]);
    text.resize(length, b'0');
    text
}

/// A frame and one that begins in the place of its PAD, its check or its ETX.
fn overlapping(random: &mut Random, talk: Talk) -> Vec<u8> {
    let text = match random.below(3) {
        0 => text_at_a_limit(random, talk),
        1 => own_text(random, talk),
        _ => checked_by_stx(own_text(random, talk)),
    };
    let mut bytes = framed(&text);
    let lost = random.pick(&[1, 2, 2, 3]);
    bytes.truncate(bytes.len() - lost);
    bytes.extend(framed(&own_text(random, talk)));
    bytes
}

/// A frame with its check or its PAD changed.
fn wrong_at_the_end(random: &mut Random, talk: Talk) -> Vec<u8> {
    let mut bytes = framed(&own_text(random, talk));
    let place = bytes.len() - random.pick(&[1, 2]);
    bytes[place] = match random.below(2) {
        0 => random.pick(&[STX, ETX, 0x7E, 0x7F]),
        _ => random.byte(),
    };
    bytes
}

/// Bytes that frames are made of, in any order.
fn marks_and_text(random: &mut Random) -> Vec<u8> {
    let count = random.between(1, 12);
    (0..count)
        .map(|_| random.pick(&[STX, STX, ETX, ETX, 0x7F, b'0', b'1', b'E', b'Q', b' ']))
        .collect()
}

/// One piece of a stream, mostly a frame.
fn piece(random: &mut Random, talk: Talk) -> Vec<u8> {
    let Talk { record, command } = talk;
    match random.below(20) {
        0..=6 => framed(&own_text(random, talk)),
        // Another address, no address or code, malformed, damaged.
        7..=9 => requests::request(random, Kind::Minicomputer, record, command),
        10 => framed(&requests::text(random, record, command).to_ascii_lowercase()),
        11 => framed(&text_at_a_limit(random, talk)),
        12 | 13 => wrong_at_the_end(random, talk),
        14 => framed(&checked_by_stx(own_text(random, talk))),
        15 | 16 => overlapping(random, talk),
        17 => marks_and_text(random),
        18 => vec![random.pick(&[STX, ETX, 0x7F])],
        _ => {
            let length = random.between(1, 20) as usize;
            random.bytes(length)
        }
    }
}

/// A stream; now and then its end cuts a frame.
pub fn stream(random: &mut Random, talk: Talk) -> Vec<u8> {
    let pieces = match random.below(100) {
        0 => random.between(0, 100),
        _ => random.between(1, 10),
    };
    let mut bytes = Vec::new();
    for _ in 0..pieces {
        bytes.extend(piece(random, talk));
    }
    if random.percent(30) {
        bytes.extend(cut_frame(random, talk));
    }
    bytes
}

/// A frame without all or some of what stands behind its text, in which a byte may be none of a text.
fn cut_frame(random: &mut Random, talk: Talk) -> Vec<u8> {
    let mut text = text_at_a_limit(random, talk);
    if !text.is_empty() && random.percent(15) {
        let place = random.below(text.len());
        text[place] = random.pick(&[STX, 0x1F, 0x7F, 0x80]);
    }
    let mut frame = framed(&text);
    frame.truncate(frame.len() - random.between(1, 3) as usize);
    frame
}

/// The stream in one to three parts, as ticks bring them.
pub fn ticks(random: &mut Random, stream: &[u8]) -> Vec<Vec<u8>> {
    let mut ticks = vec![stream.to_vec()];
    for _ in 0..random.below(3) {
        let last = ticks.last_mut().expect("there is one");
        let later = last.split_off(random.below(last.len() + 1));
        ticks.push(later);
    }
    ticks
}

/// How many bytes a unit with this record, and a bank or none, replies to these.
pub fn replied(mut record: Record, bank: Option<&Bank>, bytes: &[u8]) -> usize {
    let mut reply = vec![0; plenty(bytes)];
    let report = match bank.cloned() {
        Some(mut bank) => {
            several::answer_all_banked(&mut record, &mut bank, bytes, &mut reply, Fault::None)
        }
        None => several::answer_all(&mut record, bytes, &mut reply, Fault::None),
    };
    report.map_or(0, |report| report.written)
}

/// More reply room than these bytes ask for.
fn plenty(bytes: &[u8]) -> usize {
    40 * (2 + bytes.len() / 8)
}

/// The length of a reply buffer for these bytes: plenty, any, or such that the room left before some
/// answer is about the least, by how many bytes are replied to the first of them.
pub fn reply_length(
    random: &mut Random,
    bytes: &[u8],
    replied: impl FnOnce(&[u8]) -> usize,
) -> usize {
    match random.below(10) {
        0 => random.below(2 * LEAST_BUFFER),
        1 => random.below(plenty(bytes)),
        2..=5 => {
            let part = &bytes[..random.below(bytes.len() + 1)];
            let room = random.between(LEAST_BUFFER as u32 - 1, LEAST_BUFFER as u32 + 1);
            replied(part) + room as usize
        }
        _ => plenty(bytes),
    }
}
