//! One board, up to sixteen addresses: document 02's list of records, the request to the one with its
//! address.

use crate::controller::{self, Outcome};
use crate::fault::Fault;
use crate::frame::{self, Kind, LEAST_BUFFER};
use crate::record::Record;

pub const MOST_RECORDS: usize = 16;

/// One call over the list; only the record that has the request's address may change.
pub fn call(
    records: &mut [Record],
    kind: Kind,
    request: &[u8],
    reply: &mut [u8],
    fault: Fault,
) -> Outcome {
    let mut refused = refused(records, fault);
    if fault != Fault::None {
        let place = addressed(records, kind, request, fault);
        refused = misrefused(refused, records, place, reply.len(), fault);
    }
    if let Some(silence) = refused {
        return Outcome::Silence(silence);
    }
    // S2 to S7 are the same at every record, and S8 at every one that has another address.
    let place = addressed(records, kind, request, fault).unwrap_or(0);
    let mut lent = records[place];
    if fault == Fault::FirstAccessForAll {
        lent.access = records[0].access;
    }
    let (outcome, after) = controller::call(lent, kind, request, reply, fault);
    store(records, place, after, fault);
    outcome
}

/// The first of S9 to S11 that the list meets.
fn refused(records: &[Record], fault: Fault) -> Option<u8> {
    if let Some(silence) = refused_number(records.len(), fault) {
        return Some(silence);
    }
    if !records.iter().all(Record::is_valid) {
        return Some(10);
    }
    has_twice(records.iter().map(|record| record.address)).then_some(11)
}

/// S9, if there may not be so many records.
pub fn refused_number(number: usize, fault: Fault) -> Option<u8> {
    let most = match fault {
        Fault::SixteenRefused => MOST_RECORDS - 1,
        Fault::SeventeenTaken => MOST_RECORDS + 1,
        _ => MOST_RECORDS,
    };
    match number {
        0 if fault == Fault::EmptyListAsS8 => Some(8),
        _ if (1..=most).contains(&number) => None,
        _ => Some(9),
    }
}

/// Whether an address comes twice.
pub fn has_twice(mut addresses: impl Iterator<Item = u8>) -> bool {
    let mut seen = [false; 256];
    addresses.any(|address| std::mem::replace(&mut seen[usize::from(address)], true))
}

/// The place of the record that has the request's address.
fn addressed(records: &[Record], kind: Kind, request: &[u8], fault: Fault) -> Option<usize> {
    let text = frame::open(kind, request, fault).ok()?;
    let searched = match fault {
        Fault::BehindFirstNotFound => 1,
        _ => records.len(),
    };
    records
        .iter()
        .take(searched)
        .position(|record| text[..2] == controller::digits(record.address))
}

/// Puts the record after a call in its place, unless a planted fault does otherwise.
fn store(records: &mut [Record], place: usize, after: Record, fault: Fault) {
    match fault {
        Fault::FirstRecordOverwritten => records[0] = after,
        Fault::FirstAccessForAll => {
            let access = records[place].access;
            records[place] = Record { access, ..after };
        }
        _ => records[place] = after,
    }
    if fault == Fault::NeighbourTouched {
        if let Some(next) = records.get_mut(place + 1) {
            next.changed |= after.changed;
        }
    }
}

/// What planted faults make of the refusal of a list, in which the addressed record has this place.
#[cold]
fn misrefused(
    refused: Option<u8>,
    records: &[Record],
    place: Option<usize>,
    room: usize,
    fault: Fault,
) -> Option<u8> {
    let shared = |place: usize| {
        let same = |record: &&Record| record.address == records[place].address;
        records.iter().filter(same).count() > 1
    };
    match (fault, refused) {
        (Fault::BufferBeforeTwice, Some(11)) if room < LEAST_BUFFER => Some(2),
        (Fault::AddressedTwiceAlone, Some(11)) if !place.is_some_and(shared) => None,
        _ => refused,
    }
}

#[cfg(test)]
mod tests {
    use super::*;

    fn addressed_by(address: u8) -> Record {
        Record {
            address,
            ..Record::low()
        }
    }

    /// So many records, with addresses from 1 on.
    fn list(count: u8) -> Vec<Record> {
        (1..=count).map(addressed_by).collect()
    }

    /// The silence of a request to the first record, which writes if it is taken; no record and no byte
    /// may then have changed.
    fn silence(records: &[Record], room: usize) -> Option<u8> {
        silence_of(records, b"*01NR 02\r\n", room)
    }

    fn silence_of(records: &[Record], request: &[u8], room: usize) -> Option<u8> {
        let mut lent = records.to_vec();
        let mut reply = vec![9; room];
        match call(&mut lent, Kind::Terminal, request, &mut reply, Fault::None) {
            Outcome::Silence(number) => {
                assert_eq!(lent, records);
                assert_eq!(reply, vec![9; room]);
                Some(number)
            }
            Outcome::Reply(_) => None,
        }
    }

    /// A write to the second of two, which then shows it; the first stays as it was.
    #[test]
    fn a_write_to_the_second() {
        let mut records = [addressed_by(7), addressed_by(1)];
        let written = Record {
            recipe: 2,
            ..addressed_by(1)
        };
        let mut reply = [9; 64];
        let mut ask = |kind: Kind, request: &[u8]| {
            let outcome = call(&mut records, kind, request, &mut reply, Fault::None);
            (outcome, records, reply)
        };
        let write = frame::framed(Kind::Minicomputer, b"01NR 02");
        let (outcome, after, laid) = ask(Kind::Minicomputer, &write);
        assert_eq!(outcome, Outcome::Reply(8));
        assert_eq!(after, [addressed_by(7), written]);
        let ok = [0x02, 0x30, 0x31, 0x4F, 0x4B, 0x03, 0x06, 0x7F, 9];
        assert_eq!(laid[..9], ok);
        for (request, shown) in [
            (b"*01RR\r\n", b"*01RR 02\r\n"),
            (b"*07RR\r\n", b"*07RR 01\r\n"),
        ] {
            let (outcome, after, laid) = ask(Kind::Terminal, request);
            assert_eq!(outcome, Outcome::Reply(10));
            assert_eq!(after, [addressed_by(7), written]);
            assert_eq!(laid[..10], shown[..]);
        }
    }

    #[test]
    fn sixteen_records_at_most() {
        assert_eq!(silence(&[], 64), Some(9));
        for count in 1..=16 {
            assert_eq!(silence(&list(count), 64), None);
        }
        assert_eq!(silence(&list(17), 64), Some(9));
        assert_eq!(silence(&list(99).repeat(6), 64), Some(9));
    }

    /// Every record counts, not the addressed one alone.
    #[test]
    fn every_record_is_valid_and_alone_with_its_address() {
        for place in 0..16 {
            let mut records = list(16);
            records[place].recipe = 9;
            assert_eq!(silence(&records, 64), Some(10));
            for other in 0..place {
                let mut records = list(16);
                records[place].address = records[other].address;
                assert_eq!(silence(&records, 64), Some(11));
                assert_eq!(silence_of(&records, b"*99RR\r\n", 64), Some(11));
            }
        }
    }

    #[test]
    fn refusals_in_order() {
        let mut bad = addressed_by(1);
        bad.recipe = 9;
        let good = addressed_by(1);
        assert_eq!(silence(&[bad; 17], 63), Some(9));
        assert_eq!(silence(&[good, bad], 63), Some(10));
        assert_eq!(silence(&[good, good], 63), Some(11));
        // S2 to S8, each with what comes behind it.
        for (number, request, room) in [
            (2, &b"*"[..], 63),
            (3, b"*", 64),
            (4, b"/0\x01rr\r\n", 64),
            (6, b"*0\x01rr\r\n", 64),
            (7, b"*03rr\r\n", 64),
            (8, b"*03RR\r\n", 64),
        ] {
            assert_eq!(silence_of(&[good, good], request, room), Some(11));
            assert_eq!(silence_of(&list(2), request, room), Some(number));
        }
        let mut checked = frame::framed(Kind::Minicomputer, b"0\x01rr");
        checked[6] ^= 1;
        let outcome = call(
            &mut list(2),
            Kind::Minicomputer,
            &checked,
            &mut [0; 64],
            Fault::None,
        );
        assert_eq!(outcome, Outcome::Silence(5));
    }

    /// Neither the reply nor the addressed record hangs on what else another record holds.
    #[test]
    fn the_others_do_not_count() {
        let other = Record {
            access: 3,
            keypad: true,
            alarms: 1,
            ..addressed_by(2)
        };
        for others in [[addressed_by(2), addressed_by(3)], [other, addressed_by(3)]] {
            let mut records = [others[0], addressed_by(1), others[1]];
            let mut reply = [9; 64];
            let outcome = call(
                &mut records,
                Kind::Terminal,
                b"*01XC 011 1\r\n",
                &mut reply,
                Fault::None,
            );
            assert_eq!(outcome, Outcome::Reply(9));
            assert_eq!(reply[..9], *b"*01NO07\r\n");
            assert_eq!(records, [others[0], addressed_by(1), others[1]]);
        }
    }
}
