//! The form of recordings, taking them apart and building them.

use crate::fault::Fault;
use crate::record::{HIGHEST_ADDRESS, HIGHEST_LEVEL};

const VERSION: u8 = 1;
const HEADER: usize = 5;
pub const LONGEST_RECORDING: usize = 65_535;

/// A request frame and its reply frame, which is empty where there was no reply.
#[derive(Clone, Copy, PartialEq, Eq, Debug)]
pub struct Exchange<'recording> {
    pub request: &'recording [u8],
    pub reply: &'recording [u8],
}

#[derive(Clone, PartialEq, Eq, Debug)]
pub struct Recording<'recording> {
    pub address: u8,
    pub access: u8,
    pub exchanges: Vec<Exchange<'recording>>,
    /// The last exchange is cut; seen with a planted fault alone.
    pub cut: bool,
}

/// A length byte and as many bytes, taken from the front.
fn take<'recording>(rest: &mut &'recording [u8]) -> Option<&'recording [u8]> {
    let (&length, behind) = rest.split_first()?;
    if behind.len() < usize::from(length) {
        return None;
    }
    let (taken, left) = behind.split_at(usize::from(length));
    *rest = left;
    Some(taken)
}

/// The exchanges up to the end or to the one that is cut by it.
pub fn exchanges(mut rest: &[u8]) -> (Vec<Exchange<'_>>, bool) {
    let mut exchanges = Vec::new();
    while !rest.is_empty() {
        let Some(request) = take(&mut rest) else {
            return (exchanges, true);
        };
        let Some(reply) = take(&mut rest) else {
            return (exchanges, true);
        };
        exchanges.push(Exchange { request, reply });
    }
    (exchanges, false)
}

/// Where an exchange has its request and its reply, each up to and without the second number.
#[derive(Clone, Copy, PartialEq, Eq, Debug, Default)]
pub struct Spans {
    pub request: usize,
    pub stop: usize,
    pub reply: usize,
    pub end: usize,
}

/// The exchange that begins at a byte, as if one began there; none behind the last byte. Or J5.
pub fn exchange_at(bytes: &[u8], at: usize, fault: Fault) -> Result<Option<Spans>, u8> {
    let Some(mut rest) = bytes.get(at..).filter(|rest| !rest.is_empty()) else {
        return Ok(None);
    };
    let request = take(&mut rest).ok_or(5)?;
    if rest.is_empty() && fault == Fault::CutReplyTakenForSilence {
        rest = &[0];
    }
    let reply = take(&mut rest).ok_or(5)?;
    let stop = at + 1 + request.len();
    let end = stop + 1 + reply.len();
    Ok(Some(Spans {
        request: at + 1,
        stop: stop + usize::from(fault == Fault::RequestWithReplyLength),
        reply: stop + 1,
        end,
    }))
}

/// Takes a recording apart, or answers the number of J1 to J5.
pub fn read(bytes: &[u8], fault: Fault) -> Result<Recording<'_>, u8> {
    if bytes.len() < HEADER || bytes.len() > LONGEST_RECORDING {
        return Err(1);
    }
    let version = bytes[0] == VERSION;
    let length = usize::from(bytes[1]) * 256 + usize::from(bytes[2]) == bytes.len();
    let (address, access) = (bytes[3], bytes[4]);
    let ranges = (1..=HIGHEST_ADDRESS).contains(&address) && access <= HIGHEST_LEVEL;
    let (exchanges, cut) = exchanges(&bytes[HEADER..]);
    let overlooked = matches!(fault, Fault::CutAfterRefutation | Fault::CutBehindKeptBatch);
    let whole = !cut || overlooked;
    let mut tests = [(2, version), (3, length), (4, ranges), (5, whole)];
    match fault {
        Fault::LengthFieldJudgedFirst => tests.swap(0, 1),
        Fault::CutBeforeAddress => tests.swap(2, 3),
        _ => {}
    }
    if let Some(&(number, _)) = tests.iter().find(|(_, passed)| !passed) {
        return Err(number);
    }
    Ok(Recording {
        address,
        access,
        exchanges,
        cut,
    })
}

/// The bytes of a recording with a header as it should be. Frames are at most 255 bytes long.
pub fn build(address: u8, access: u8, exchanges: &[(Vec<u8>, Vec<u8>)]) -> Vec<u8> {
    let mut bytes = vec![VERSION, 0, 0, address, access];
    for (request, reply) in exchanges {
        for frame in [request, reply] {
            bytes.push(frame.len() as u8);
            bytes.extend_from_slice(frame);
        }
    }
    mend_length(&mut bytes);
    bytes
}

/// Writes the length field anew.
pub fn mend_length(bytes: &mut [u8]) {
    let length = (bytes.len() as u16).to_be_bytes();
    if let Some(field) = bytes.get_mut(1..3) {
        field.copy_from_slice(&length);
    }
}

#[cfg(test)]
mod tests {
    use super::*;

    fn number(bytes: &[u8]) -> Option<u8> {
        read(bytes, Fault::None).err()
    }

    #[test]
    fn refusals_in_order() {
        assert_eq!(number(&[]), Some(1));
        assert_eq!(number(&[1, 0, 4, 1]), Some(1));
        assert_eq!(number(&vec![1; 65_536]), Some(1));
        assert_eq!(number(&[2, 0, 6, 0, 9]), Some(2));
        assert_eq!(number(&[1, 0, 6, 0, 9]), Some(3));
        assert_eq!(number(&[1, 0, 6, 0, 3, 7]), Some(4));
        assert_eq!(number(&[1, 0, 6, 100, 3, 7]), Some(4));
        assert_eq!(number(&[1, 0, 6, 99, 4, 7]), Some(4));
        assert_eq!(number(&[1, 0, 6, 99, 3, 7]), Some(5));
        assert_eq!(number(&[1, 0, 6, 99, 3, 0]), Some(5));
        assert_eq!(number(&[1, 0, 8, 99, 3, 0, 1, 2]), None);
        assert_eq!(number(&[1, 0, 7, 99, 3, 0, 1]), Some(5));
    }

    #[test]
    fn exchanges_by_their_first_byte() {
        let bytes = build(9, 2, &[(vec![1, 2], vec![]), (vec![], vec![3])]);
        let at = |at| exchange_at(&bytes, at, Fault::None);
        let spans = |request, stop, reply, end| Spans {
            request,
            stop,
            reply,
            end,
        };
        assert_eq!(at(5), Ok(Some(spans(6, 8, 9, 9))));
        assert_eq!(at(9), Ok(Some(spans(10, 10, 11, 12))));
        assert_eq!(at(10), Err(5));
        assert_eq!(at(11), Err(5));
        assert_eq!(
            (at(12), at(13), at(usize::MAX)),
            (Ok(None), Ok(None), Ok(None))
        );
        assert_eq!(exchange_at(&[], 0, Fault::None), Ok(None));
    }

    #[test]
    fn built_recordings_are_read() {
        let bytes = build(9, 2, &[(vec![1, 2], vec![]), (vec![], vec![3])]);
        let recording = read(&bytes, Fault::None).unwrap();
        assert_eq!((recording.address, recording.access), (9, 2));
        assert_eq!(recording.exchanges.len(), 2);
        assert_eq!(recording.exchanges[0].request, [1, 2]);
        assert_eq!(recording.exchanges[1].reply, [3]);
    }
}
