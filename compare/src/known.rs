//! What a recording tells of the record, exchange by exchange, and why it is refuted, or not judged to its
//! end, if it is.

use crate::alarms;
use crate::controller::{self, Request};
use crate::fault::Fault;
use crate::fields::{self, FIELDS};
use crate::frame::Kind;
use crate::judge::{Alarms, Candidates, Heard};
use crate::numbers::{Numbers, Sets};
use crate::record::RECIPES;
use crate::recording::{self, Exchange};

/// Why no controller can have given a reply; or why nothing is said of it.
#[derive(Clone, Copy, PartialEq, Eq, Debug)]
pub enum Reason {
    /// Silence was due, by this number of S3 to S8.
    ReplyToSilence(u8),
    NoReply,
    /// No valid record gives it.
    NoRecord,
    /// This field's set and what the reply needs of it have nothing in common; no field before it is so.
    Field {
        field: usize,
        held: Numbers,
        needed: Numbers,
    },
    /// The request asks for a kept batch.
    KeptBatch,
}

/// Why nothing is told of the record.
#[derive(Clone, Copy, PartialEq, Eq, Debug)]
pub enum Untold {
    /// H1.
    ShortBuffer,
    /// J1 to J5.
    Refused(u8),
    /// At this exchange, counted from 1.
    Refuted(usize),
    /// From this exchange on, counted from 1.
    NotJudged(usize),
}

/// A line that is followed: what is possible, what that tells of each field, and since which exchange.
#[derive(Clone)]
pub struct Following {
    address: u8,
    access: u8,
    exchanges: usize,
    candidates: Candidates,
    sets: Sets,
    since: fields::Of<usize>,
}

impl Following {
    /// From these records on.
    fn from(address: u8, access: u8, candidates: Candidates, fault: Fault) -> Following {
        Following {
            address,
            access,
            exchanges: 0,
            sets: sets_of(&candidates, fault),
            candidates,
            since: [0; FIELDS],
        }
    }

    /// From a header on, which is in range.
    pub fn begin(address: u8, access: u8, fault: Fault) -> Following {
        let candidates = Candidates::every(address, access, fault);
        Following::from(address, access, candidates, fault)
    }

    /// From sets on; none if one of them is empty.
    pub fn resume(address: u8, access: u8, sets: &Sets, fault: Fault) -> Option<Following> {
        let candidates = Candidates::within(address, access, sets);
        let some = !candidates.is_empty();
        some.then(|| Following::from(address, access, candidates, fault))
    }

    /// One exchange more, or why there can be none such; behind that one nothing can be learnt.
    pub fn learn(&mut self, exchange: Exchange, fault: Fault) -> Result<(), Reason> {
        let heard = self.candidates.hear(exchange, fault);
        if heard == Heard::KeptBatch {
            return Err(Reason::KeptBatch);
        }
        if self.candidates.is_empty() {
            return Err(self.reason(exchange, fault));
        }
        self.exchanges += 1;
        if heard != Heard::Nothing {
            let sets = sets_of(&self.candidates, fault);
            for (field, set) in sets.into_iter().enumerate() {
                self.take(field, set, fault);
            }
        }
        Ok(())
    }

    fn take(&mut self, field: usize, set: Numbers, fault: Fault) {
        let differs = self.sets[field] != set;
        self.sets[field] = set;
        let changed = match fault {
            Fault::SinceFirstChange => differs && self.since[field] == 0,
            Fault::SinceLastLook => differs || matches!(set, Numbers::Just(_)),
            _ => differs,
        };
        if changed {
            self.since[field] = match fault {
                Fault::SinceOneLate => self.exchanges + 1,
                Fault::SinceFromZero => self.exchanges - 1,
                _ => self.exchanges,
            };
        }
    }

    fn reason(&self, exchange: Exchange, fault: Fault) -> Reason {
        let kind = Kind::Minicomputer;
        match controller::understand(self.address, kind, exchange.request, fault) {
            Request::Silent(7) if fault == Fault::FormTakenForAddress => Reason::ReplyToSilence(8),
            Request::Silent(number) => Reason::ReplyToSilence(number),
            _ if exchange.reply.is_empty() => match fault {
                Fault::SilenceTakenForNoRecord => Reason::NoRecord,
                _ => Reason::NoReply,
            },
            _ => self.refuting_field(exchange, fault),
        }
    }

    fn refuting_field(&self, exchange: Exchange, fault: Fault) -> Reason {
        let Some(needed) = needed(self.address, self.access, exchange, fault) else {
            return match fault {
                Fault::ImpossibleTakenForField => self.field(fields::NUMBER, &self.sets, fault),
                _ => Reason::NoRecord,
            };
        };
        let apart = |&field: &usize| !self.sets[field].meets(field, needed[field]);
        let named = match fault {
            Fault::LastFieldNamed => (0..FIELDS).rfind(apart),
            Fault::OpenFieldNamed => (0..FIELDS).find(|field| !apart(field)),
            _ => (0..FIELDS).find(apart),
        };
        match named {
            Some(field) => self.field(field, &needed, fault),
            // Only with a planted fault: what each field needs and holds is all that there is.
            None => Reason::NoRecord,
        }
    }

    fn field(&self, field: usize, needed: &Sets, fault: Fault) -> Reason {
        let held = match fault {
            Fault::HeldAtTheBeginning => Following::begin(self.address, self.access, fault).sets,
            _ => self.sets,
        };
        Reason::Field {
            field,
            held: held[field],
            needed: needed[field],
        }
    }

    pub fn sets(&self) -> &Sets {
        &self.sets
    }

    #[cfg(not(feature = "library"))]
    pub fn exchanges(&self) -> usize {
        self.exchanges
    }

    #[cfg(not(feature = "library"))]
    pub fn since(&self, field: usize) -> usize {
        self.since[field]
    }
}

/// What each field has in the records that give this reply, before the request changes anything; none if
/// there is no such record.
fn needed(address: u8, access: u8, exchange: Exchange, fault: Fault) -> Option<Sets> {
    let keeping = match fault {
        Fault::NeededPhaseAlone => Fault::PhaseRefusalAlone,
        _ => fault,
    };
    let mut candidates = Candidates::every(address, access, fault);
    let heard = candidates.keep_agreeing(exchange, keeping);
    if candidates.is_empty() {
        return None;
    }
    if let (Fault::NeededAfterChange, Heard::Accepted(command)) = (fault, heard) {
        candidates.go_on(command, fault);
    }
    Some(candidates.sets())
}

fn sets_of(candidates: &Candidates, fault: Fault) -> Sets {
    let mut sets = candidates.sets();
    if fault != Fault::None {
        for (field, set) in sets.iter_mut().enumerate() {
            *set = misread(field, *set, fault);
        }
    }
    sets
}

/// A set as a planted fault has it.
fn misread(field: usize, set: Numbers, fault: Fault) -> Numbers {
    let is_value = fields::value_place(field).is_some();
    let is_level = fields::level_place(field).is_some();
    match (fault, set) {
        (Fault::LevelSetTooWide, Numbers::Few(bits)) if is_level => {
            Numbers::Few(bits | bits << 1 & 15)
        }
        (Fault::PhaseSetTooNarrow, Numbers::Few(bits))
            if field == fields::PHASE && bits.count_ones() > 1 =>
        {
            Numbers::Few(bits & (bits - 1))
        }
        (Fault::RecipeSetWithoutLast, Numbers::Few(bits))
            if field == fields::RECIPE && bits.count_ones() > 1 =>
        {
            Numbers::Few(bits & !(1 << RECIPES))
        }
        (Fault::KnownValueTakenForAny, Numbers::Just(_)) if is_value => Numbers::Any,
        (Fault::AnyRawTakenForZero, Numbers::Any) if field == fields::RAW => Numbers::Just(0),
        (Fault::SeenAlarmMayBeNone, Numbers::Alarms(Alarms::SomeOf(among))) => {
            Numbers::Alarms(Alarms::AnyOf(among))
        }
        (Fault::LastingNotTold, Numbers::Alarms(Alarms::AnyOf(_))) => {
            Numbers::Alarms(Alarms::AnyOf(alarms::ALL))
        }
        _ => set,
    }
}

/// What is told after some exchanges; it stays so up to the next stage.
struct Stage {
    exchanges: usize,
    sets: Sets,
    since: fields::Of<usize>,
}

/// All that a recording tells.
pub struct Told {
    /// J1 to J5.
    refused: Option<u8>,
    count: usize,
    stages: Vec<Stage>,
    /// Where it is refuted, or judged no further.
    ended: Option<(usize, Reason)>,
}

impl Told {
    pub fn by(bytes: &[u8], fault: Fault) -> Told {
        let reading = match fault {
            Fault::FormBehindRefutation => Fault::CutAfterRefutation,
            _ => fault,
        };
        let mut told = Told {
            refused: None,
            count: 0,
            stages: vec![],
            ended: None,
        };
        match recording::read(bytes, reading) {
            Ok(recording) => {
                told.follow(&recording, fault);
                if recording.cut && told.ended.is_none() {
                    told.refused = Some(5);
                }
            }
            Err(number) => told.refused = Some(number),
        }
        told
    }

    fn follow(&mut self, recording: &recording::Recording, fault: Fault) {
        self.count = recording.exchanges.len();
        let mut following = Following::begin(recording.address, recording.access, fault);
        self.keep(&following);
        for (before, &exchange) in recording.exchanges.iter().enumerate() {
            if let Err(reason) = following.learn(exchange, fault) {
                self.ended = Some((before + 1, reason));
                return;
            }
            self.keep(&following);
        }
    }

    fn keep(&mut self, following: &Following) {
        let same = |stage: &Stage| stage.sets == following.sets && stage.since == following.since;
        if !self.stages.last().is_some_and(same) {
            self.stages.push(Stage {
                exchanges: following.exchanges,
                sets: following.sets,
                since: following.since,
            });
        }
    }

    /// How many exchanges there are; none in a recording that is refused.
    pub fn count(&self) -> usize {
        self.count
    }

    /// The exchange that refutes, or at which it is judged no further, counted from 1.
    pub fn ended_at(&self) -> Option<usize> {
        self.ended.map(|(place, _)| place)
    }

    /// Whether that exchange asks for a kept batch.
    pub fn is_not_judged(&self) -> bool {
        matches!(self.ended, Some((_, Reason::KeptBatch)))
    }

    fn stage(&self, exchanges: usize) -> &Stage {
        let behind = self
            .stages
            .partition_point(|stage| stage.exchanges <= exchanges);
        &self.stages[behind - 1]
    }

    /// What is known after so many exchanges, to somebody with room for so many sets.
    pub fn known(&self, exchanges: usize, room: usize, fault: Fault) -> Result<&Sets, Untold> {
        let least = FIELDS - usize::from(fault == Fault::SeventySixSetsEnough);
        if room < least && !(fault == Fault::RoomBehindForm && self.refused.is_some()) {
            return Err(Untold::ShortBuffer);
        }
        if let Some(number) = self.refused {
            return Err(Untold::Refused(number));
        }
        let asked = match fault {
            Fault::KnownOneBehind => exchanges.saturating_sub(1),
            Fault::PastEndTakenForNothing if exchanges > self.count => 0,
            _ => exchanges,
        };
        match self.ended {
            Some((place, Reason::KeptBatch)) => self.known_before(place, asked, fault),
            Some((place, _)) if place <= asked || fault == Fault::LaterRefutationTold => {
                let from_zero = fault == Fault::KnownRefutedFromZero;
                Err(Untold::Refuted(place - usize::from(from_zero)))
            }
            _ => Ok(&self.stage(asked).sets),
        }
    }

    /// What is known after so many exchanges, if these are before the one that asks for a kept batch.
    fn known_before(&self, place: usize, asked: usize, fault: Fault) -> Result<&Sets, Untold> {
        let told = match fault {
            Fault::LaterKeptBatchTold => true,
            Fault::KnownBehindKeptBatch => false,
            _ => place <= asked,
        };
        match fault {
            _ if !told => Ok(&self.stage(asked).sets),
            Fault::KeptBatchToldAsRefuted => Err(Untold::Refuted(place)),
            _ => Err(Untold::NotJudged(place)),
        }
    }

    /// For each field the last exchange that changed what it may hold, 0 if none did.
    pub fn since(&self, exchanges: usize) -> &fields::Of<usize> {
        &self.stage(exchanges).since
    }

    /// The exchange that is refuted, or not judged, and the reason, if there is one; or J1 to J5.
    pub fn why(&self, fault: Fault) -> Result<Option<(usize, Reason)>, u8> {
        if let Some(number) = self.refused {
            return Err(number);
        }
        let from_zero = usize::from(fault == Fault::WhyFromZero);
        let ended = self
            .ended
            .map(|(place, reason)| (place - from_zero, reason));
        Ok(match (fault, ended) {
            (Fault::UnjudgedTakenForFits, Some((_, Reason::KeptBatch))) => None,
            (Fault::UnjudgedTakenForNoRecord, Some((place, Reason::KeptBatch))) => {
                Some((place, Reason::NoRecord))
            }
            _ => ended,
        })
    }
}
