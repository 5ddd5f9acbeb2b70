//! The judge, by explicit search over candidate records.
//!
//! Each combination of phase, flags and recipe is a candidate of its own that is stepped through the
//! controller's rules, exchange by exchange. The other fields are settled when a request first looks
//! at them: a level by trying each one that is left, a wide field (a value, raw, the batch number) by
//! the number that the recorded reply shows, since a reply that shows a field shows it whole. An
//! accepted PC looks at the value held only for whether it is the written one; where that is open and
//! tells, a candidate goes on as two. The preset is never shown, but known once it is set. Of the alarms
//! a reply shows all, or only whether any is on, so each candidate keeps which may be on.

use crate::alarms;
use crate::bank::MOST_BATCHES;
use crate::command::{Command, Named};
use crate::controller::{self, Request};
use crate::fault::Fault;
use crate::fields::{self, Sort};
use crate::frame::{self, Kind};
use crate::numbers::{Numbers, Sets};
use crate::parameters::{
    another_value, factor_place, is_factor, value_in_range, PARAMETERS, VALUE_RANGES,
};
use crate::record::{Phase, Record, HIGHEST_LEVEL, HIGHEST_NUMBER, HIGHEST_RAW, RECIPES};
use crate::recording::{self, Exchange, Recording};
use std::mem;

#[derive(Clone, Copy, PartialEq, Eq, Debug)]
pub enum Judgement {
    Fits {
        count: usize,
    },
    Refuted {
        place: usize,
        count: usize,
    },
    /// From this exchange on.
    NotJudged {
        place: usize,
        count: usize,
    },
    Refused(u8),
}

/// Which alarms may be on.
#[derive(Clone, Copy, PartialEq, Eq, PartialOrd, Ord, Debug)]
pub enum Alarms {
    /// These and no others.
    Exactly(u32),
    /// Any of these, or none.
    AnyOf(u32),
    /// Any of these, one at least.
    SomeOf(u32),
}

impl Alarms {
    /// What is left when it is seen whether any is on.
    fn seen(self, on: bool) -> Option<Alarms> {
        match (self, on) {
            (Alarms::Exactly(alarms), _) => ((alarms != 0) == on).then_some(self),
            (Alarms::AnyOf(_), false) => Some(Alarms::Exactly(0)),
            (Alarms::SomeOf(_), false) => None,
            (Alarms::AnyOf(among) | Alarms::SomeOf(among), true) => Some(Alarms::SomeOf(among)),
        }
    }

    /// What is left when all of them are shown.
    fn shown(self, alarms: u32) -> Option<Alarms> {
        self.has(alarms).then_some(Alarms::Exactly(alarms))
    }

    /// What may be on after AR. One that was on at least may have been one that AR switches off.
    fn after_reset(self, fault: Fault) -> Alarms {
        match self {
            _ if fault == Fault::ResetTakenForNoAlarm => Alarms::Exactly(0),
            Alarms::Exactly(known) => Alarms::Exactly(alarms::after_reset(known, fault)),
            Alarms::AnyOf(among) => Alarms::AnyOf(alarms::after_reset(among, fault)),
            Alarms::SomeOf(among) => {
                let left = alarms::after_reset(among, fault);
                let one_stays = match fault {
                    Fault::LastingAlarmForgotten => false,
                    Fault::SeenAlarmTakenForLasting => true,
                    _ => left == among,
                };
                if one_stays {
                    Alarms::SomeOf(left)
                } else {
                    Alarms::AnyOf(left)
                }
            }
        }
    }

    /// Whether just these may be on.
    pub fn has(self, alarms: u32) -> bool {
        match self {
            Alarms::Exactly(known) => alarms == known,
            Alarms::AnyOf(among) => alarms & !among == 0,
            Alarms::SomeOf(among) => alarms & !among == 0 && alarms != 0,
        }
    }

    /// Whether some alarms, or none, may be on by both.
    pub fn meets(self, other: Alarms) -> bool {
        match (self, other) {
            (Alarms::Exactly(known), set) | (set, Alarms::Exactly(known)) => set.has(known),
            (Alarms::AnyOf(_), Alarms::AnyOf(_)) => true,
            (
                Alarms::AnyOf(among) | Alarms::SomeOf(among),
                Alarms::AnyOf(others) | Alarms::SomeOf(others),
            ) => among & others != 0,
        }
    }

    /// Alarms that may be on: none, where that is possible.
    fn sample(self) -> u32 {
        match self {
            Alarms::Exactly(alarms) | Alarms::SomeOf(alarms) => alarms,
            Alarms::AnyOf(_) => 0,
        }
    }
}

/// A set of records that agree in phase, flags and recipe. In `record` an unknown wide field stands
/// at its low end, and so does each level, so that equal sets are equal candidates; the alarms there
/// are a sample of those that may be on.
#[derive(Clone, PartialEq, Eq, PartialOrd, Ord, Debug)]
struct Candidate {
    record: Record,
    preset_known: bool,
    raw_known: bool,
    number_known: bool,
    /// One bit for each parameter whose value is known.
    values_known: u32,
    alarms: Alarms,
    /// For each parameter, one bit for each level that it may have.
    levels: [u8; PARAMETERS],
}

/// A field whose value a read shows in full.
#[derive(Clone, Copy)]
enum Wide {
    Raw,
    Number,
    Value(usize),
}

/// Every candidate that is possible, with nothing known of it but phase, flags and recipe.
fn every_candidate(
    address: u8,
    access: u8,
    possible: impl Fn(&Candidate) -> bool,
) -> Vec<Candidate> {
    let mut candidate = Candidate {
        record: Record {
            address,
            access,
            ..Record::low()
        },
        preset_known: false,
        raw_known: false,
        number_known: false,
        values_known: 0,
        alarms: Alarms::AnyOf(alarms::ALL),
        levels: [(1 << (HIGHEST_LEVEL + 1)) - 1; PARAMETERS],
    };
    let mut candidates = Vec::with_capacity(5 * 32 * 8);
    for phase in Phase::ALL {
        for flags in 0..32 {
            for recipe in 1..=RECIPES {
                let flag = |bit: u8| flags & 1 << bit != 0;
                let record = &mut candidate.record;
                record.phase = phase;
                record.keypad = flag(0);
                record.flow = flag(1);
                record.changed = flag(2);
                record.batch_reset = flag(3);
                record.power_fail = flag(4);
                record.recipe = recipe;
                if possible(&candidate) {
                    candidates.push(candidate.clone());
                }
            }
        }
    }
    candidates
}

impl Candidate {
    /// The wide field that a command shows of this candidate.
    fn shown(&self, command: Command) -> Option<Wide> {
        match command {
            Command::RawTotal => Some(Wide::Raw),
            Command::BatchNumber => Some(Wide::Number),
            Command::Value(Named { place, .. }) => Some(Wide::Value(place)),
            Command::RecipeFactor => Some(Wide::Value(factor_place(self.record.recipe))),
            _ => None,
        }
    }

    fn knows(&self, field: Wide) -> bool {
        match field {
            Wide::Raw => self.raw_known,
            Wide::Number => self.number_known,
            Wide::Value(place) => self.values_known & 1 << place != 0,
        }
    }

    /// Settles a field, or answers false if no valid record has that number there.
    fn settle(&mut self, field: Wide, number: u32, fault: Fault) -> bool {
        match field {
            Wide::Raw => {
                self.record.raw = number;
                self.raw_known = true;
                number <= HIGHEST_RAW
            }
            Wide::Number => {
                self.record.number = number as u16;
                self.number_known = true;
                (1..=u32::from(HIGHEST_NUMBER)).contains(&number) || fault == Fault::RangeNotHeld
            }
            Wide::Value(place) => {
                self.record.parameters[place].value = number;
                self.values_known |= 1 << place;
                value_in_range(place, number) || fault == Fault::RangeNotHeld
            }
        }
    }

    fn forget(&mut self, field: Wide) {
        match field {
            Wide::Raw => {
                self.record.raw = 0;
                self.raw_known = false;
            }
            Wide::Number => {
                self.record.number = 1;
                self.number_known = false;
            }
            Wide::Value(place) => {
                self.record.parameters[place].value = VALUE_RANGES[place].0;
                self.values_known &= !(1 << place);
            }
        }
    }

    fn know_alarms(&mut self, alarms: Alarms) {
        self.alarms = alarms;
        self.record.alarms = alarms.sample();
    }

    /// Keeps the alarms that a reply leaves possible, or answers false if there are none.
    fn keep_alarms(&mut self, told: Told) -> bool {
        let left = match told {
            Told::Nothing => return true,
            Told::WhetherAny(on) => self.alarms.seen(on),
            Told::All(alarms) => self.alarms.shown(alarms),
        };
        let Some(left) = left else {
            return false;
        };
        self.know_alarms(left);
        true
    }

    /// Keeps what agrees with the reply to a command that looks at no level; false if nothing does.
    fn keep(&mut self, command: Command, reply: &[u8], told: Told, fault: Fault) -> bool {
        let alarms_before = self.alarms;
        if !self.keep_alarms(told) {
            return false;
        }
        let shown = self.shown(command);
        if let Some(field) = shown {
            if !self.knows(field) {
                let width = if command == Command::BatchNumber {
                    4
                } else {
                    8
                };
                let Some(number) = last_digits(reply, width) else {
                    return false;
                };
                if !self.settle(field, number, fault) {
                    return false;
                }
            }
        }
        if !agrees(&self.record, command, reply, fault) {
            return false;
        }
        let alarms_forgotten = match fault {
            Fault::ShownAlarmsForgotten => command == Command::Alarms,
            Fault::StartTeachesNothing => command == Command::Start && reply[2..] == *b"OK",
            Fault::AlarmRefusalTeachesNothing => {
                command == Command::Start && reply[2..] == *b"NO09"
            }
            _ => false,
        };
        if alarms_forgotten {
            self.know_alarms(alarms_before);
        }
        match (fault, shown) {
            (Fault::ShownValueForgotten, Some(field)) if command != Command::RecipeFactor => {
                self.forget(field)
            }
            (Fault::ShownFactorForgotten, Some(field)) if command == Command::RecipeFactor => {
                self.forget(field)
            }
            _ => {}
        }
        let teaches_keypad =
            fault == Fault::StopTeachesKeypad && command == Command::Stop && reply[2..] == *b"NO05";
        !(teaches_keypad && self.record.keypad)
    }

    /// Keeps the levels with which a parameter's record gives this reply to a command that looks at its
    /// level; false if there are none.
    fn keep_levels(&mut self, command: Command, place: usize, reply: &[u8], fault: Fault) -> bool {
        let phase_alone = fault == Fault::PhaseRefusalAlone && reply[2..] == *b"NO05";
        let mut trial = self.record;
        trial.keypad &= !phase_alone;
        let mut kept = 0;
        for level in 0..=HIGHEST_LEVEL {
            if self.levels[place] & 1 << level == 0
                || misjudged(trial.access, command, level, reply, fault)
            {
                continue;
            }
            trial.parameters[place].level = if phase_alone { 0 } else { level };
            if agrees(&trial, command, reply, fault) {
                kept |= 1 << level;
            }
        }
        let forgotten = match fault {
            Fault::ShownLevelForgotten => matches!(command, Command::Level(_)),
            Fault::RefusedLevelForgotten => reply[2..] == *b"NO07",
            _ => false,
        };
        if !forgotten {
            self.levels[place] = kept;
        }
        kept != 0
    }

    /// Has an accepted write take effect.
    fn go_on(&mut self, command: Command, fault: Fault) {
        if fault != Fault::RecordNotMoved {
            self.record = controller::record_after(self.record, command, fault);
            // No effect reads a level, and only XC writes one.
            if let Command::WriteLevel(Named { place, .. }, _) = command {
                let written = mem::replace(&mut self.record.parameters[place].level, 0);
                self.levels[place] = 1 << written;
            }
            if command == Command::ResetAlarms {
                self.know_alarms(self.alarms.after_reset(fault));
            }
        }
        match command {
            Command::WriteValue(parameter, value) => {
                self.learn_written_value(parameter.place, value, fault);
            }
            Command::SetBatch(_) => self.learn_batch(fault),
            _ => {}
        }
    }

    /// A batch that was set has a preset and a raw total that are known.
    fn learn_batch(&mut self, fault: Fault) {
        self.raw_known = true;
        self.preset_known = fault != Fault::PresetForgottenByBatch;
        if !self.preset_known {
            self.record.preset = 0;
        }
        // One more than an unknown number, or 1 after 9999, may again be any.
        if !self.number_known || fault == Fault::NumberForgottenByBatch {
            self.forget(Wide::Number);
        }
    }

    /// Settles before an accepted PC whether the value held is the written one, if that is open and
    /// tells: here it is, in the candidate that is answered it is another. A flag that is on stays on
    /// either way. After the PC all these records hold the written value, so they differ in the flag
    /// alone.
    fn split_by_held_value(&mut self, place: usize, value: u32, fault: Fault) -> Option<Candidate> {
        let field = Wide::Value(place);
        if self.knows(field) && fault != Fault::HeldValueForgotten {
            let equal = self.record.parameters[place].value == value;
            self.record.changed |= equal && fault == Fault::KnownEqualTakenForChange;
            return None;
        }
        if self.record.changed && fault != Fault::LitFlagForgotten {
            return None;
        }
        let mut other = self.clone();
        other.settle(field, another_value(place, value), fault);
        self.settle(field, value, fault);
        // Off already, unless a planted fault forgets that it was on.
        self.record.changed = false;
        match fault {
            Fault::UnknownValueTakenForEqual => None,
            Fault::UnknownValueTakenForOther => {
                *self = other;
                None
            }
            _ => Some(other),
        }
    }

    /// A value that was written is known.
    fn learn_written_value(&mut self, place: usize, value: u32, fault: Fault) {
        self.values_known |= 1 << place;
        if fault == Fault::WriteJudgedInCurrentRecipe && is_factor(place) {
            self.forget(Wide::Value(place));
            self.settle(Wide::Value(factor_place(self.record.recipe)), value, fault);
        }
    }

    /// The numbers that a field of these records has.
    fn numbers(&self, field: usize) -> Numbers {
        let number = fields::number(&self.record, field);
        match fields::sort(field) {
            Sort::Alarms => Numbers::Alarms(self.alarms),
            Sort::Few => Numbers::Few(match fields::level_place(field) {
                Some(place) => u32::from(self.levels[place]),
                None => 1 << number,
            }),
            Sort::Wide if self.knows_field(field) => Numbers::Just(number),
            Sort::Wide => Numbers::Any,
        }
    }

    fn knows_field(&self, field: usize) -> bool {
        match field {
            fields::ADDRESS | fields::ACCESS => true,
            fields::PRESET => self.preset_known,
            fields::RAW => self.raw_known,
            fields::NUMBER => self.number_known,
            _ => fields::value_place(field).is_some_and(|place| self.knows(Wide::Value(place))),
        }
    }

    /// Takes over all but phase, flags and recipe; false if a level has no number left.
    fn know(&mut self, sets: &Sets) -> bool {
        if let Numbers::Just(preset) = sets[fields::PRESET] {
            self.record.preset = preset;
            self.preset_known = true;
        }
        if let Numbers::Just(raw) = sets[fields::RAW] {
            self.settle(Wide::Raw, raw, Fault::None);
        }
        if let Numbers::Just(number) = sets[fields::NUMBER] {
            self.settle(Wide::Number, number, Fault::None);
        }
        if let Numbers::Alarms(alarms) = sets[fields::ALARMS] {
            self.know_alarms(alarms);
        }
        for place in 0..PARAMETERS {
            if let Numbers::Just(value) = sets[fields::value(place)] {
                self.settle(Wide::Value(place), value, Fault::None);
            }
            if let Numbers::Few(levels) = sets[fields::level(place)] {
                self.levels[place] &= levels as u8;
            }
        }
        self.levels.iter().all(|&levels| levels != 0)
    }

    /// Whether two candidates differ in phase, flags and recipe alone.
    fn same_but_for_state(&self, other: &Candidate) -> bool {
        let known = |candidate: &Candidate| {
            (
                candidate.preset_known,
                candidate.raw_known,
                candidate.number_known,
                candidate.values_known,
                candidate.alarms,
                candidate.record.preset,
                candidate.record.raw,
                candidate.record.number,
            )
        };
        known(self) == known(other)
            && self.levels == other.levels
            && self.record.parameters == other.record.parameters
    }
}

/// What a reply tells of the alarms, if it is one to its command.
#[derive(Clone, Copy)]
enum Told {
    Nothing,
    WhetherAny(bool),
    All(u32),
}

fn told_of_alarms(command: Command, reply: &[u8], fault: Fault) -> Told {
    match (command, &reply[2..]) {
        (Command::Status, status) => Told::WhetherAny(status.get(2) == Some(&b'1')),
        (Command::StatusCodes, codes) => Told::WhetherAny(codes.starts_with(b"RS AL ")),
        (Command::Alarms, characters) => match alarms::shown(characters) {
            Some(alarms) => Told::All(alarms),
            None => Told::Nothing,
        },
        // NO02 and NO05 come before the look at the alarms.
        (Command::Start, b"OK") => Told::WhetherAny(false),
        (Command::Start, b"NO09") => Told::WhetherAny(true),
        (Command::Start, b"NO05") if fault == Fault::PhaseRefusalTeachesNoAlarm => {
            Told::WhetherAny(false)
        }
        _ => Told::Nothing,
    }
}

/// Whether a reply's text is the one that a record gives to a command.
fn agrees(record: &Record, command: Command, reply: &[u8], fault: Fault) -> bool {
    match controller::answer(record, command, fault) {
        Ok(text) => text.bytes() == reply,
        Err(number) => controller::refusal(record.address, number).bytes() == reply,
    }
}

/// Whether a planted fault drops a level that the rules keep.
fn misjudged(access: u8, command: Command, level: u8, reply: &[u8], fault: Fault) -> bool {
    match (fault, command) {
        (Fault::LevelLearntAboveAccess, Command::WriteLevel(_, written)) => {
            reply[2..] == *b"NO07" && written > access && level <= access
        }
        (Fault::KeypadRefusalTeachesLevel, Command::WriteValue(..) | Command::WriteLevel(..)) => {
            reply[2..] == *b"NO02" && level > access
        }
        _ => false,
    }
}

/// The number in the last bytes of a reply, if they are digits.
fn last_digits(reply: &[u8], width: usize) -> Option<u32> {
    let start = reply.len().checked_sub(width)?;
    let digits = &reply[start..];
    digits.iter().all(u8::is_ascii_digit).then(|| {
        digits
            .iter()
            .fold(0, |number, digit| number * 10 + u32::from(digit - b'0'))
    })
}

/// What an exchange makes of the candidates.
#[derive(Clone, Copy, PartialEq, Eq, Debug)]
pub enum Heard {
    /// It tells nothing: a silence or a refusal that each of them gives.
    Nothing,
    /// It is a reply to a read, or a refusal that goes by the record.
    Told,
    /// It is a write that was accepted.
    Accepted(Command),
    /// It asks for a kept batch and meets no silence, so nothing is said of it.
    KeptBatch,
}

/// The records that are possible, as candidates.
#[derive(Clone, Debug)]
pub struct Candidates {
    address: u8,
    candidates: Vec<Candidate>,
}

impl Candidates {
    /// Nothing is known but the address and the access.
    pub fn every(address: u8, access: u8, fault: Fault) -> Candidates {
        let possible = |candidate: &Candidate| {
            let Record { phase, keypad, .. } = candidate.record;
            let reachable = !keypad || matches!(phase, Phase::Idle | Phase::Done);
            fault != Fault::ReachabilityUsed || reachable
        };
        Candidates {
            address,
            candidates: every_candidate(address, access, possible),
        }
    }

    /// Those whose every field is in its set.
    pub fn within(address: u8, access: u8, sets: &Sets) -> Candidates {
        let possible = |candidate: &Candidate| {
            let mut state = fields::STATE;
            state.all(|field| sets[field].has(field, fields::number(&candidate.record, field)))
        };
        let mut candidates = every_candidate(address, access, possible);
        candidates.retain_mut(|candidate| candidate.know(sets));
        Candidates {
            address,
            candidates,
        }
    }

    pub fn is_empty(&self) -> bool {
        self.candidates.is_empty()
    }

    /// Keeps those that agree with one exchange, as they are after it.
    pub fn hear(&mut self, exchange: Exchange, fault: Fault) -> Heard {
        let heard = self.keep_agreeing(exchange, fault);
        if let Heard::Accepted(command) = heard {
            self.go_on(command, fault);
        }
        heard
    }

    /// Keeps those that agree with one exchange, as they are before the request changes anything.
    pub fn keep_agreeing(&mut self, exchange: Exchange, fault: Fault) -> Heard {
        let Exchange { request, reply } = exchange;
        if fault == Fault::SilenceExcused && reply.is_empty() {
            return Heard::Nothing;
        }
        let understood = controller::understand(self.address, Kind::Minicomputer, request, fault);
        // A reply is a frame as it should be; no other bytes are one.
        let text = frame::open(Kind::Minicomputer, reply, fault);
        let (command, text) = match (understood, text) {
            (Request::Silent(_), _)
                if fault == Fault::SilentKeptBatchStops && names_a_kept_batch(request) =>
            {
                return Heard::KeptBatch
            }
            (Request::Silent(_), _) if reply.is_empty() => return Heard::Nothing,
            (Request::KeptBatch(number), text) => {
                match misjudged_kept_batch(self.address, number, text.ok(), fault) {
                    None => return Heard::KeptBatch,
                    Some(true) => return Heard::Nothing,
                    Some(false) => {
                        self.candidates.clear();
                        return Heard::Told;
                    }
                }
            }
            (Request::Refused(number, _), Ok(text))
                if text == controller::refusal(self.address, number).bytes() =>
            {
                return Heard::Nothing
            }
            (Request::Asked(command), Ok(text)) => (command, text),
            _ => {
                self.candidates.clear();
                return Heard::Told;
            }
        };
        if fault == Fault::UnknownRecipeRefuted && command == Command::RecipeFactor {
            let mut recipes = self.candidates.iter().map(|one| one.record.recipe);
            let first = recipes.next();
            if recipes.any(|other| Some(other) != first) {
                self.candidates.clear();
                return Heard::Told;
            }
        }
        let told = told_of_alarms(command, text, fault);
        self.candidates.retain_mut(|candidate| match command {
            Command::Level(parameter)
            | Command::WriteValue(parameter, _)
            | Command::WriteLevel(parameter, _) => {
                candidate.keep_levels(command, parameter.place, text, fault)
            }
            _ if fault == Fault::PhaseRefusalAlone && text[2..] == *b"NO05" => {
                let mut without_keypad = candidate.clone();
                without_keypad.record.keypad = false;
                without_keypad.keep(command, text, told, fault)
            }
            _ => candidate.keep(command, text, told, fault),
        });
        if !command.is_read() && text[2..] == *b"OK" {
            Heard::Accepted(command)
        } else {
            Heard::Told
        }
    }

    /// Has an accepted write take effect.
    pub fn go_on(&mut self, command: Command, fault: Fault) {
        if let Command::WriteValue(Named { place, .. }, value) = command {
            let split =
                |candidate: &mut Candidate| candidate.split_by_held_value(place, value, fault);
            let mut others: Vec<Candidate> = self.candidates.iter_mut().filter_map(split).collect();
            self.candidates.append(&mut others);
        }
        for candidate in &mut self.candidates {
            candidate.go_on(command, fault);
        }
        // Writes make different records equal; reads do not.
        self.candidates.sort_unstable();
        self.candidates.dedup();
    }

    /// For each field the numbers that it has in some candidate; there has to be one.
    pub fn sets(&self) -> Sets {
        let (first, others) = self.candidates.split_first().expect("there is a candidate");
        let mut sets = fields::each(|field| first.numbers(field));
        for other in others {
            let apart = if first.same_but_for_state(other) {
                fields::STATE
            } else {
                0..fields::FIELDS
            };
            for field in apart {
                sets[field] = sets[field].joined(other.numbers(field));
            }
        }
        sets
    }
}

/// Whether a reply to a request for a kept batch fits, where a planted fault judges that.
fn misjudged_kept_batch(
    address: u8,
    number: usize,
    reply: Option<&[u8]>,
    fault: Fault,
) -> Option<bool> {
    let is_refused_by = |number| reply == Some(controller::refusal(address, number).bytes());
    match fault {
        Fault::KeptBatchPassedOver => Some(true),
        Fault::KeptBatchTakenForNo01 => Some(is_refused_by(1)),
        Fault::KeptBatchNeedsReply if reply.is_none() => Some(false),
        Fault::ZeroJudged if number == 0 => Some(is_refused_by(3)),
        Fault::PastHundredJudged if number > MOST_BATCHES => Some(is_refused_by(3)),
        _ => None,
    }
}

/// Whether the letters before NNN stand somewhere in a request.
fn names_a_kept_batch(request: &[u8]) -> bool {
    request.windows(5).any(|part| part == b"RT R ")
}

/// Judges a recording.
pub fn judge(bytes: &[u8], fault: Fault) -> Judgement {
    let recording = match recording::read(bytes, fault) {
        Ok(recording) => recording,
        Err(number) => return Judgement::Refused(number),
    };
    let count = recording.exchanges.len();
    let mut candidates = Candidates::every(recording.address, recording.access, fault);
    for (before, &exchange) in recording.exchanges.iter().enumerate() {
        let place = before + 1;
        if candidates.hear(exchange, fault) == Heard::KeptBatch {
            return not_judged(place, count, fault);
        }
        if candidates.is_empty() {
            return refuted(place, &recording, fault);
        }
        if fault == Fault::FirstExchangeAlone {
            break;
        }
    }
    if recording.cut {
        return Judgement::Refused(5);
    }
    Judgement::Fits { count }
}

fn not_judged(place: usize, count: usize, fault: Fault) -> Judgement {
    Judgement::NotJudged {
        place: place - usize::from(fault == Fault::NotJudgedFromZero),
        count: match fault {
            Fault::CountUpToKeptBatch => place,
            _ => count,
        },
    }
}

fn refuted(place: usize, recording: &Recording, fault: Fault) -> Judgement {
    let count = recording.exchanges.len();
    let mut judgement = Judgement::Refuted { place, count };
    if fault != Fault::None {
        judgement = misrefuted(place, recording, fault).unwrap_or(judgement);
    }
    judgement
}

/// What a planted fault makes of a refutation, if anything.
#[cold]
fn misrefuted(place: usize, recording: &Recording, fault: Fault) -> Option<Judgement> {
    let count = recording.exchanges.len();
    let asks = |exchange: &Exchange| {
        let kind = Kind::Minicomputer;
        let asked = controller::understand(recording.address, kind, exchange.request, fault);
        matches!(asked, Request::KeptBatch(_))
    };
    let judged_behind = recording.exchanges[place..].iter().position(asks);
    let refuted = |place, count| Some(Judgement::Refuted { place, count });
    match (fault, judged_behind) {
        (Fault::PlaceFromZero, _) => refuted(place - 1, count),
        (Fault::CountUpToRefutation, _) => refuted(place, place),
        (Fault::UnjudgedNotCounted, Some(further)) => refuted(place, place + further),
        (Fault::KeptBatchBeforeRefutation, Some(further)) => {
            Some(not_judged(place + further + 1, count, fault))
        }
        (Fault::CutBehindKeptBatch, _) if recording.cut => Some(Judgement::Refused(5)),
        _ => None,
    }
}
