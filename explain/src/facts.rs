//! What the library tells of a recording.

use khuyapesh::{Exchanges, Following, FIELDS, FRAME_ROOM, MINICOMPUTER, STORED_LENGTH};

/// Where a stored record has its address.
const STORED_ADDRESS: usize = 3;

/// A set of a field that an exchange gave it.
#[derive(Clone, Copy, PartialEq, Eq, Debug)]
pub struct Told {
    pub field: usize,
    pub set: u32,
}

pub struct Exchange<'a> {
    pub request: &'a [u8],
    pub reply: &'a [u8],
    /// The fields whose sets it changed. Of the exchange at which the judge stops and those behind it there are none.
    pub told: Vec<Told>,
}

/// Why the judge goes no further: a kept batch is asked for, or else no controller gives the reply.
#[derive(Clone, Copy, PartialEq, Eq, Debug)]
pub enum Reason {
    KeptBatch,
    /// The request meets silence by this number.
    ReplyToSilence(u32),
    NoReply,
    NoRecord,
    /// What was known of the field, and what the reply needs of it.
    Field {
        field: usize,
        held: u32,
        needed: u32,
    },
}

/// The exchange at which the judge stops.
pub struct Stop {
    pub place: usize,
    pub reason: Reason,
}

/// Of a recording that is not refused.
pub struct Facts<'a> {
    pub address: u8,
    pub access: u8,
    pub exchanges: Vec<Exchange<'a>>,
    pub stop: Option<Stop>,
    /// The set of each field of which nothing is known.
    pub unknown: [u32; FIELDS],
    /// The set of each field at the end, or before the judge stops; and the exchange that gave it that set, or 0.
    pub sets: [u32; FIELDS],
    pub since: [usize; FIELDS],
}

impl<'a> Facts<'a> {
    /// An exchange by its number, from 1 on.
    pub fn exchange(&self, number: usize) -> &Exchange<'a> {
        &self.exchanges[number - 1]
    }

    pub fn is_unknown(&self, told: Told) -> bool {
        self.unknown[told.field] == told.set
    }

    pub fn known(&self, field: usize) -> Told {
        Told {
            field,
            set: self.sets[field],
        }
    }

    /// Whether no controller gives all these replies; else they fit up to where the judge stops, if it does.
    pub fn is_refuted(&self) -> bool {
        let stop = self.stop.as_ref();
        stop.is_some_and(|stop| stop.reason != Reason::KeptBatch)
    }

    /// Whether the answer rests on what the exchanges before told: not where a single exchange refutes, whatever the record,
    /// nor where the first is not judged.
    pub fn rests_on_record(&self) -> bool {
        match self.stop.as_ref().map(|stop| stop.reason) {
            Some(Reason::KeptBatch) => self.learnt() > 0,
            Some(reason) => matches!(reason, Reason::Field { .. }),
            None => true,
        }
    }

    /// How many exchanges were learnt from.
    pub fn learnt(&self) -> usize {
        match &self.stop {
            Some(stop) => stop.place - 1,
            None => self.exchanges.len(),
        }
    }
}

/// Asks the library, or gives n of Jn.
pub fn facts(recording: &[u8]) -> Result<Facts<'_>, u32> {
    let (answer, _, _) = khuyapesh::judge(recording);
    if answer >= khuyapesh::RECORDING {
        return Err(answer - khuyapesh::RECORDING);
    }
    let (address, access) = (recording[3], recording[4]);
    let begin = Following::begin(address, access).expect("a recording's header was looked at");
    let mut facts = Facts {
        address,
        access,
        exchanges: Vec::new(),
        stop: stop(recording),
        unknown: *begin.sets(),
        sets: *begin.sets(),
        since: [0; FIELDS],
    };
    follow(&mut facts, begin, recording);
    Ok(facts)
}

fn stop(recording: &[u8]) -> Option<Stop> {
    let (answer, why) = khuyapesh::why(recording);
    let reason = match answer {
        khuyapesh::KEPT_BATCH => Reason::KeptBatch,
        khuyapesh::REPLY_TO_SILENCE => Reason::ReplyToSilence(why.number),
        khuyapesh::NO_REPLY => Reason::NoReply,
        khuyapesh::NO_RECORD => Reason::NoRecord,
        khuyapesh::FIELD => Reason::Field {
            field: why.number as usize,
            held: why.held,
            needed: why.needed,
        },
        _ => return None,
    };
    Some(Stop {
        place: why.place,
        reason,
    })
}

/// Learns from the exchanges up to the one at which the judge stops.
fn follow<'a>(facts: &mut Facts<'a>, mut following: Following, recording: &'a [u8]) {
    let end = facts.stop.as_ref().map(|stop| stop.place);
    for (request, reply) in Exchanges::of(recording) {
        let number = facts.exchanges.len() + 1;
        let mut told = Vec::new();
        if end.is_none_or(|end| number < end) {
            let before = *following.sets();
            assert_eq!(
                following.learn(request, reply),
                khuyapesh::FITS,
                "the library refutes exchange {number} and does not"
            );
            told = changes(&before, following.sets());
        }
        facts.exchanges.push(Exchange {
            request,
            reply,
            told,
        });
    }
    facts.sets = *following.sets();
    for field in 0..FIELDS {
        facts.since[field] = following.since(field);
    }
}

fn changes(before: &[u32; FIELDS], after: &[u32; FIELDS]) -> Vec<Told> {
    (0..FIELDS)
        .filter(|&field| before[field] != after[field])
        .map(|field| Told {
            field,
            set: after[field],
        })
        .collect()
}

/// What a record of no special kind with this address makes of a request: n of Sn, or the reply's text behind the address.
/// No batches are kept beside it: a request for one, which is not judged, gets a reply that only says that it gets one.
pub fn met_by(address: u8, request: &[u8]) -> Result<Vec<u8>, u32> {
    let mut record = [0; STORED_LENGTH];
    // Nothing is no stored record, and the low record is written.
    khuyapesh::stored(&[], &mut record);
    record[STORED_ADDRESS] = address;
    let mut reply = [0; FRAME_ROOM];
    let answer = khuyapesh::call(MINICOMPUTER, &mut record, request, &mut reply);
    if answer >= khuyapesh::SILENCE {
        return Err(answer - khuyapesh::SILENCE);
    }
    text_of(&reply[..answer as usize]).map(|text| text[2..].to_vec())
}

/// The text of a frame, or n of the Sn that such a request would meet.
pub fn text_of(frame: &[u8]) -> Result<Vec<u8>, u32> {
    let mut text = vec![0; FRAME_ROOM];
    let answer = khuyapesh::read(MINICOMPUTER, frame, &mut text);
    if answer >= khuyapesh::SILENCE {
        return Err(answer - khuyapesh::SILENCE);
    }
    text.truncate(answer as usize);
    Ok(text)
}
