//! A buffer with several frames: document 02's walk over what came in, the record in place.

use crate::bank::Bank;
use crate::controller::{self, Outcome, Request};
use crate::fault::Fault;
use crate::frame::{is_text_byte, Kind, ETX, LEAST_BUFFER, LEAST_TEXT, MOST_TEXT, STX};
use crate::record::Record;

/// What is reported of the lent bytes.
#[derive(Clone, Copy, PartialEq, Eq, Debug, Default)]
pub struct Report {
    /// Bytes taken.
    pub taken: usize,
    /// Frames answered.
    pub answered: usize,
    /// Reply bytes, end to end at the start of the reply buffer.
    pub written: usize,
}

/// Answers all frames in order; none if the record is not valid (S1).
pub fn answer_all(
    record: &mut Record,
    bytes: &[u8],
    reply: &mut [u8],
    fault: Fault,
) -> Option<Report> {
    answer_all_with(record, None, bytes, reply, fault)
}

/// Answers all frames in order, with a bank beside the record; none if one of them is not valid (S1).
pub fn answer_all_banked(
    record: &mut Record,
    bank: &mut Bank,
    bytes: &[u8],
    reply: &mut [u8],
    fault: Fault,
) -> Option<Report> {
    if !bank.is_valid() {
        return None;
    }
    answer_all_with(record, Some(bank), bytes, reply, fault)
}

/// Answers all frames in order, with a good bank or without one.
fn answer_all_with(
    record: &mut Record,
    bank: Option<&mut Bank>,
    bytes: &[u8],
    reply: &mut [u8],
    fault: Fault,
) -> Option<Report> {
    if !record.is_valid() {
        return None;
    }
    if fault == Fault::ShortBufferTakesNothing && reply.len() < LEAST_BUFFER {
        return Some(Report::default());
    }
    let mut kept = None;
    let mut report = walk(record, bank, &mut kept, bytes, reply, fault);
    let stopped = report.taken < bytes.len();
    if let Some(before) = kept {
        if fault == Fault::LastRecordNotReturned || fault == Fault::StopForgetsRecord && stopped {
            *record = before;
        }
    }
    if fault == Fault::StopTakesStx && stopped {
        report.taken += 1;
    }
    Some(report)
}

/// The walk; what is kept of the record and the bank on the way is for planted faults alone.
fn walk(
    record: &mut Record,
    mut bank: Option<&mut Bank>,
    kept: &mut Option<Record>,
    bytes: &[u8],
    reply: &mut [u8],
    fault: Fault,
) -> Report {
    let mut report = Report::default();
    let first_bank = match fault {
        Fault::FirstBankForAll => bank.as_deref().cloned(),
        _ => None,
    };
    loop {
        let (place, frame) = next_frame(bytes, report.taken, record.address, fault);
        report.taken = place;
        let Some(frame) = frame else {
            return report;
        };
        let request = controller::understand(record.address, Kind::Minicomputer, frame, fault);
        if reply.len() - report.written < least_room(request, fault) {
            return report;
        }
        if !matches!(request, Request::Silent(_)) {
            mix_up(record, kept, fault);
            if let (Some(first), Some(bank)) = (&first_bank, bank.as_deref_mut()) {
                bank.clone_from(first);
            }
        }
        let start = match fault {
            Fault::EachReplyAtStart => 0,
            _ => report.written,
        };
        let room = &mut reply[start..];
        let bank = bank.as_deref_mut();
        match controller::respond(record, bank, Kind::Minicomputer, request, room, fault) {
            Outcome::Reply(length) => {
                let counted = fault != Fault::RefusalNotCounted || room[3..5] != *b"NO";
                report.answered += usize::from(counted);
                report.written += length;
                report.taken += frame.len();
                if fault == Fault::FirstFrameAlone {
                    return report;
                }
            }
            Outcome::Silence(silence) => {
                let counted = fault == Fault::OtherAddressCounted && silence == 8;
                report.answered += usize::from(counted);
                report.taken += if is_passed(silence, fault) {
                    frame.len()
                } else {
                    1
                };
            }
        }
    }
}

/// The next frame from a place on, and the place of its STX; without a frame, the place to stop at.
fn next_frame(bytes: &[u8], from: usize, address: u8, fault: Fault) -> (usize, Option<&[u8]>) {
    let mut place = from;
    while let Some(skipped) = bytes[place..].iter().position(|&byte| byte == STX) {
        place += skipped;
        let begun = &bytes[place..];
        let mut found = search(begun, MOST_TEXT, is_text_byte);
        if fault != Fault::None {
            found = misfound(found, begun, address, fault);
        }
        match found {
            Found::Frame(frame) => return (place, Some(frame)),
            Found::Break(step) => place += step,
            Found::Undecided => return (place, None),
        }
    }
    (bytes.len(), None)
}

/// What an STX begins.
enum Found<'bytes> {
    /// Up to the second byte behind ETX.
    Frame(&'bytes [u8]),
    /// With the number of bytes to go on by.
    Break(usize),
    /// The bytes end before.
    Undecided,
}

/// Looks for ETX through so many text bytes behind the STX that these bytes begin with.
fn search(bytes: &[u8], most_text: usize, is_text: impl Fn(u8) -> bool) -> Found<'_> {
    // The longest text and one more, which may still be ETX.
    let searched = &bytes[1..bytes.len().min(most_text + 2)];
    match searched.iter().position(|&byte| !is_text(byte)) {
        Some(length) if searched[length] == ETX => {
            let frame = bytes.get(..1 + length + Kind::Minicomputer.trailer());
            frame.map_or(Found::Undecided, Found::Frame)
        }
        Some(_) => Found::Break(1),
        None if searched.len() > most_text => Found::Break(1),
        None => Found::Undecided,
    }
}

/// What planted faults make of what an STX begins.
#[cold]
fn misfound<'bytes>(
    found: Found<'bytes>,
    bytes: &'bytes [u8],
    address: u8,
    fault: Fault,
) -> Found<'bytes> {
    match (fault, found) {
        (Fault::SearchedThrough59, _) => search(bytes, MOST_TEXT - 1, is_text_byte),
        (Fault::SearchedThrough61, _) => search(bytes, MOST_TEXT + 1, is_text_byte),
        (Fault::DeleteTakenForText, _) => {
            search(bytes, MOST_TEXT, |byte| is_text_byte(byte) || byte == 0x7F)
        }
        (Fault::SeparatorTakenForText, _) => {
            search(bytes, MOST_TEXT, |byte| is_text_byte(byte) || byte == 0x1F)
        }
        (Fault::BreakSkipsSearched, Found::Break(_)) => {
            let text = bytes[1..].iter().take_while(|&&byte| is_text_byte(byte));
            Found::Break(2 + text.take(MOST_TEXT).count())
        }
        (_, Found::Undecided) if end_breaks(bytes, address, fault) => Found::Break(1),
        (_, found) => found,
    }
}

/// Whether a planted fault takes it for a break that bytes end before all is decided.
fn end_breaks(bytes: &[u8], address: u8, fault: Fault) -> bool {
    let etx = bytes.iter().position(|&byte| byte == ETX);
    match fault {
        Fault::EndOfTextBreaks => etx.is_none(),
        Fault::EndBehindLongestBreaks => etx.is_none() && bytes.len() == 1 + MOST_TEXT,
        Fault::OneFollowerEnough => etx == Some(bytes.len() - 2),
        Fault::ShortTextNotAwaited => etx.is_some_and(|etx| etx <= LEAST_TEXT),
        Fault::OtherAddressNotAwaited => {
            let own = format!("{address:02}");
            etx.is_some_and(|etx| etx > LEAST_TEXT && !bytes[1..].starts_with(own.as_bytes()))
        }
        _ => false,
    }
}

/// The reply room without which the walk stops before this request.
fn least_room(request: Request, fault: Fault) -> usize {
    let asked = match request {
        Request::Silent(8) => fault == Fault::RoomForOtherAddress,
        Request::Silent(_) => fault == Fault::RoomForBadFrame,
        Request::Refused(..) | Request::KeptBatch(_) | Request::Asked(_) => true,
    };
    match fault {
        _ if !asked => 0,
        Fault::StoppedAtSixtyFour => LEAST_BUFFER + 1,
        Fault::AnsweredInSixtyThree => LEAST_BUFFER - 1,
        _ => LEAST_BUFFER,
    }
}

/// Whether the walk goes on after a frame that meets this silence; else it goes on behind its STX.
fn is_passed(silence: u8, fault: Fault) -> bool {
    match silence {
        8 => true,
        3 => fault == Fault::ShortFramePassed,
        4 => fault == Fault::WrongMarkPassed,
        _ => false,
    }
}

/// Keeps the record before an answer, or goes back to the one before the first, as planted faults have
/// it.
fn mix_up(record: &mut Record, kept: &mut Option<Record>, fault: Fault) {
    match fault {
        Fault::FirstRecordForAll => *record = *kept.get_or_insert(*record),
        Fault::StopForgetsRecord => {
            kept.get_or_insert(*record);
        }
        Fault::LastRecordNotReturned => *kept = Some(*record),
        _ => {}
    }
}

#[cfg(test)]
mod tests {
    use super::*;
    use crate::frame;
    use crate::generate::{records, requests};
    use crate::random::Random;

    /// Whole frames end to end, whatever they ask: equal to calling one by one.
    #[test]
    fn equal_to_calling_one_by_one() {
        let mut random = Random::new(5);
        for _ in 0..2_000 {
            let before = records::record(&mut random);
            let (mut stream, mut replies, mut answered) = (vec![], vec![], 0);
            let mut called = before;
            for _ in 0..random.below(20) {
                let text = requests::text(&mut random, &called, requests::command);
                let request = frame::framed(Kind::Minicomputer, &text);
                let mut buffer = [0; LEAST_BUFFER];
                let (outcome, after) = controller::call(
                    called,
                    Kind::Minicomputer,
                    &request,
                    &mut buffer,
                    Fault::None,
                );
                if let Outcome::Reply(length) = outcome {
                    replies.extend_from_slice(&buffer[..length]);
                    answered += 1;
                }
                stream.extend(request);
                called = after;
            }
            let expected = Report {
                taken: stream.len(),
                answered,
                written: replies.len(),
            };
            let mut record = before;
            let mut reply = vec![0; replies.len() + LEAST_BUFFER];
            let report = answer_all(&mut record, &stream, &mut reply, Fault::None);
            assert_eq!((report, record), (Some(expected), called));
            assert_eq!(reply[..replies.len()], replies);
        }
    }
}
