//! This program behind the byte interface of the proved library, so that both are lent the same
//! bytes.

use crate::bank::{Bank, BANK_LENGTH};
use crate::board;
use crate::controller::{self, Outcome};
use crate::drum::{self, Answer, Picks};
use crate::fault::Fault;
use crate::fields::FIELDS;
use crate::frame::{self, HostRefusal, Kind, LEAST_BUFFER};
use crate::judge::{self, Judgement};
use crate::known::{Following, Reason, Told, Untold};
use crate::modbus::{self, READ, REPLY_ROOM, WRITE};
use crate::numbers::{Numbers, Sets};
use crate::panel::{self, Event};
use crate::record::Record;
use crate::recording::{self, Exchange, Spans};
use crate::several::{self, Report};
use crate::stored::{self, STORED_LENGTH};
use crate::totals::{self, Lists, Totals, Units, RECIPES};

const STORED: u32 = 200;
const UNKNOWN_KIND_OR_EVENT: u32 = 300;
const OLD_RECORD: u32 = 206;
const BAD_BANK: u32 = 207;
const SHORT_BUFFER: u32 = 401;
/// The silences of the functions for Modbus, and what they answer to stored bytes that are refused.
pub const MODBUS: u32 = 900;
const MODBUS_STORED: u32 = 1200;

/// The least room for the text of totals.
pub const TEXT_ROOM: usize = 512;

fn kind_of(number: u8) -> Option<Kind> {
    match number {
        0 => Some(Kind::Minicomputer),
        1 => Some(Kind::Terminal),
        _ => None,
    }
}

/// The record in stored bytes that have room for the form that is written, or K1 to K4, then K6.
fn lent_record(stored: &[u8], fault: Fault) -> Result<Record, u32> {
    let room = stored.len() >= STORED_LENGTH;
    match stored::read(stored, fault) {
        (Some(4), _) if fault == Fault::RoomBeforeFields && !room => Err(206),
        (Some(number), _) => Err(200 + u32::from(number)),
        (None, _) if fault == Fault::OldVersionAsK2 && !room => Err(202),
        (None, _) if !room => Err(206),
        (None, record) => Ok(record),
    }
}

pub fn call(kind: u8, stored: &mut [u8], request: &[u8], reply: &mut [u8], fault: Fault) -> u32 {
    let Some(kind) = kind_of(kind) else {
        return UNKNOWN_KIND_OR_EVENT;
    };
    let record = match lent_record(stored, fault) {
        Ok(record) => record,
        Err(answer) => return answer,
    };
    match controller::call(record, kind, request, reply, fault) {
        (Outcome::Silence(number), _) => 100 + u32::from(number),
        (Outcome::Reply(length), after) => {
            stored.copy_from_slice(&stored::form(&after));
            length as u32
        }
    }
}

/// The answer, and what is reported beside it.
pub fn several(stored: &mut [u8], bytes: &[u8], reply: &mut [u8], fault: Fault) -> (u32, Report) {
    let mut record = match lent_record(stored, fault) {
        Ok(record) => record,
        Err(answer) => return (answer, nothing_taken(bytes, fault)),
    };
    match several::answer_all(&mut record, bytes, reply, fault) {
        Some(report) => {
            stored.copy_from_slice(&stored::form(&record));
            (0, report)
        }
        None => (101, nothing_taken(bytes, fault)),
    }
}

/// The bank that lent bytes begin with, which have room for the longest; or K7.
fn lent_bank(lent: &[u8], fault: Fault) -> Result<Bank, u32> {
    let room = match fault {
        Fault::LongBankBufferTaken => lent.len() >= BANK_LENGTH,
        Fault::ShortBankBufferTaken => lent.len() <= BANK_LENGTH,
        _ => lent.len() == BANK_LENGTH,
    };
    let length = match lent {
        [_, high, low, ..] => usize::from(*high) << 8 | usize::from(*low),
        _ => 0,
    };
    let stored = lent.get(..length).filter(|_| room).unwrap_or_default();
    match Bank::read(stored, fault) {
        (None, bank) => Ok(bank),
        (Some(number), _) => Err(200 + u32::from(number)),
    }
}

/// Puts a bank in the place of the one that was lent, which has as many batches at most; what stands behind
/// it stays.
fn store_bank(bank: &Bank, lent: &mut [u8], fault: Fault) {
    let form = bank.form(fault);
    // Less room only by a planted fault.
    let length = form.len().min(lent.len());
    let (place, behind) = lent.split_at_mut(length);
    place.copy_from_slice(&form[..length]);
    if fault == Fault::BehindBankOverwritten {
        behind.fill(0);
    }
}

/// The record and the bank that are lent; or K1 to K4 or K6 for the record, then K7.
fn lent_unit(stored: &[u8], bank: &[u8], fault: Fault) -> Result<(Record, Bank), u32> {
    let record = lent_record(stored, fault);
    let bank = lent_bank(bank, fault);
    let bank_first = match record {
        Err(206) => fault == Fault::BankBeforeRoom,
        _ => fault == Fault::BankBeforeRecord,
    };
    match (bank_first, &bank) {
        (true, Err(answer)) => Err(*answer),
        _ => Ok((record?, bank?)),
    }
}

pub fn banked_call(
    kind: u8,
    stored: &mut [u8],
    bank: &mut [u8],
    request: &[u8],
    reply: &mut [u8],
    fault: Fault,
) -> u32 {
    let Some(known_kind) = kind_of(kind) else {
        return match lent_bank(bank, fault) {
            Err(answer) if fault == Fault::BankBeforeKind => answer,
            _ => UNKNOWN_KIND_OR_EVENT,
        };
    };
    let (record, mut kept) = match lent_unit(stored, bank, fault) {
        Ok(unit) => unit,
        Err(BAD_BANK) => return misrefused_bank(kind, stored, request, reply, fault),
        Err(answer) => return answer,
    };
    match controller::banked_call(record, &mut kept, known_kind, request, reply, fault) {
        (Outcome::Silence(number), _) => 100 + u32::from(number),
        (Outcome::Reply(length), after) => {
            stored.copy_from_slice(&stored::form(&after));
            store_bank(&kept, bank, fault);
            length as u32
        }
    }
}

/// K7, or what planted faults make of a call whose bank is refused by it.
#[cold]
fn misrefused_bank(
    kind: u8,
    stored: &mut [u8],
    request: &[u8],
    reply: &mut [u8],
    fault: Fault,
) -> u32 {
    let needs_bank = |part: &[u8]| part == b"ET" || part == b"RT";
    match fault {
        Fault::BufferBeforeBank if reply.len() < LEAST_BUFFER => 102,
        Fault::UnneededBankUntested if !request.windows(2).any(needs_bank) => {
            call(kind, stored, request, reply, fault)
        }
        _ => BAD_BANK,
    }
}

/// The answer, and what is reported beside it.
pub fn banked_several(
    stored: &mut [u8],
    bank: &mut [u8],
    bytes: &[u8],
    reply: &mut [u8],
    fault: Fault,
) -> (u32, Report) {
    let (mut record, mut kept) = match lent_unit(stored, bank, fault) {
        Ok(unit) => unit,
        Err(answer) => return (answer, nothing_taken(bytes, fault)),
    };
    match several::answer_all_banked(&mut record, &mut kept, bytes, reply, fault) {
        Some(report) => {
            stored.copy_from_slice(&stored::form(&record));
            if fault != Fault::SeveralForgetBank {
                store_bank(&kept, bank, fault);
            }
            (0, report)
        }
        None => (101, nothing_taken(bytes, fault)),
    }
}

/// What is reported beside a refusal.
fn nothing_taken(bytes: &[u8], fault: Fault) -> Report {
    let taken = match fault {
        Fault::RefusedRecordTakesBytes => bytes.len(),
        _ => 0,
    };
    Report {
        taken,
        ..Report::default()
    }
}

/// The records of a board, end to end in stored bytes; or K1, S9, or K2 to K4 of the first that is
/// refused.
fn lent_records(stored: &[u8], request: &[u8], fault: Fault) -> Result<Vec<Record>, u32> {
    let forms = stored.chunks_exact(STORED_LENGTH);
    if !forms.remainder().is_empty() && fault != Fault::RestCutOff {
        return Err(201);
    }
    if let Some(silence) = board::refused_number(forms.len(), fault) {
        return Err(100 + u32::from(silence));
    }
    forms
        .filter(|form| !is_passed_over(form, request, fault))
        .map(|form| lent_record(form, fault))
        .collect()
}

/// Whether a planted fault passes over a form that is refused, since the request is to another.
fn is_passed_over(form: &[u8], request: &[u8], fault: Fault) -> bool {
    fault == Fault::AddressedValidAlone
        && lent_record(form, fault).is_err()
        && request.get(1..3) != Some(&controller::digits(form[3]))
}

/// What planted faults answer to a board instead of its refusal.
#[cold]
fn misrefused(stored: &[u8], refusal: u32, fault: Fault) -> u32 {
    let mut forms = stored.chunks_exact(STORED_LENGTH);
    let refused = |form| lent_record(form, fault).err();
    let of_a_record = (202..=204).contains(&refusal);
    match fault {
        Fault::ValidityBeforeNumber if refusal == 109 => forms.find_map(refused).unwrap_or(refusal),
        Fault::LastBadTold if of_a_record => forms.rev().find_map(refused).unwrap_or(refusal),
        Fault::TwiceBeforeValidity
            if of_a_record && board::has_twice(forms.map(|form| form[3])) =>
        {
            111
        }
        _ => refusal,
    }
}

pub fn board(kind: u8, stored: &mut [u8], request: &[u8], reply: &mut [u8], fault: Fault) -> u32 {
    let Some(kind) = kind_of(kind) else {
        return UNKNOWN_KIND_OR_EVENT;
    };
    let mut records = match lent_records(stored, request, fault) {
        Ok(records) => records,
        Err(answer) => return misrefused(stored, answer, fault),
    };
    match board::call(&mut records, kind, request, reply, fault) {
        Outcome::Silence(number) => 100 + u32::from(number),
        Outcome::Reply(length) => {
            // One record, one form: one that did not change is written as it stood.
            for (form, record) in stored.chunks_exact_mut(STORED_LENGTH).zip(&records) {
                form.copy_from_slice(&stored::form(record));
            }
            length as u32
        }
    }
}

pub fn modbus(stored: &mut [u8], request: &[u8], reply: &mut [u8], fault: Fault) -> u32 {
    match lent_record(stored, fault) {
        Ok(record) => modbus_answer(record, None, stored, request, reply, fault),
        Err(answer) => modbus_refusal(answer, stored, request, reply, fault),
    }
}

/// The bank is only read, but by a planted fault.
pub fn banked_modbus(
    stored: &mut [u8],
    bank: &mut [u8],
    request: &[u8],
    reply: &mut [u8],
    fault: Fault,
) -> u32 {
    let (record, kept) = match lent_unit(stored, bank, fault) {
        Ok(unit) => unit,
        Err(BAD_BANK) if is_unasked_bank(request, fault) => {
            return modbus(stored, request, reply, fault)
        }
        Err(answer) => return modbus_refusal(answer, stored, request, reply, fault),
    };
    if fault == Fault::BankRewritten {
        store_bank(&kept, bank, Fault::BehindBankOverwritten);
    }
    modbus_answer(record, Some(&kept), stored, request, reply, fault)
}

/// One call over a record that was lent.
fn modbus_answer(
    record: Record,
    bank: Option<&Bank>,
    stored: &mut [u8],
    request: &[u8],
    reply: &mut [u8],
    fault: Fault,
) -> u32 {
    let (outcome, after) = modbus::call(record, bank, request, reply, fault);
    let silent = matches!(outcome, Outcome::Silence(_));
    if !silent || fault == Fault::BroadcastTakesEffect {
        stored.copy_from_slice(&stored::form(&after));
    }
    modbus_number(outcome)
}

fn modbus_number(outcome: Outcome) -> u32 {
    match outcome {
        Outcome::Silence(number) => MODBUS + u32::from(number),
        Outcome::Reply(length) => length as u32,
    }
}

/// K of the stored record or bank in a class of its own, or what planted faults make of it.
#[cold]
fn modbus_refusal(
    answer: u32,
    stored: &[u8],
    request: &[u8],
    reply: &mut [u8],
    fault: Fault,
) -> u32 {
    let short = reply.len() < REPLY_ROOM;
    match (fault, answer) {
        (Fault::StoredInOtherClass, _) => answer,
        (Fault::RoomBeforeBank, BAD_BANK) if short => MODBUS + 2,
        (Fault::RoomBeforeRecord, STORED..=OLD_RECORD) if short => MODBUS + 2,
        (Fault::OldRecordRead, OLD_RECORD) if request.get(1) == Some(&READ) => {
            let (_, record) = stored::read(stored, fault);
            modbus_number(modbus::call(record, None, request, reply, fault).0)
        }
        _ => MODBUS_STORED + (answer - STORED),
    }
}

/// Whether a planted fault passes over a bank that is refused.
fn is_unasked_bank(request: &[u8], fault: Fault) -> bool {
    match fault {
        Fault::BankUntested => true,
        Fault::BankTestedForWrites => request.get(1) != Some(&WRITE),
        _ => false,
    }
}

fn drum_answer(answer: Answer) -> u32 {
    match answer {
        Answer::Request(length) => length as u32,
        Answer::Ended => 0,
        Answer::ShortBuffer => 401,
        Answer::Refused(number) => 600 + u32::from(number),
        Answer::Stopped(step) => 700 + step as u32,
    }
}

pub fn drum_begin(picks: Picks, state: &mut [u8], request: &mut [u8], fault: Fault) -> u32 {
    drum_answer(drum::begin(picks, state, request, fault))
}

pub fn drum_take(state: &mut [u8], reply: &[u8], request: &mut [u8], fault: Fault) -> u32 {
    drum_answer(drum::take(state, reply, request, fault))
}

pub fn panel(event: u8, number: u16, stored: &mut [u8], fault: Fault) -> u32 {
    let event = match event {
        0 => Event::Pulses(number),
        1 => Event::Still,
        2 => Event::KeypadOn,
        3 => Event::KeypadOff,
        4 => Event::PowerBack,
        5 => Event::AlarmOn(number),
        6 => Event::AlarmOff(number),
        _ => return UNKNOWN_KIND_OR_EVENT,
    };
    match lent_record(stored, fault) {
        Ok(record) => {
            let after = panel::after(record, event, fault);
            stored.copy_from_slice(&stored::form(&after));
            0
        }
        Err(answer) => answer,
    }
}

pub fn stored(stored: &[u8], out: &mut [u8], fault: Fault) -> u32 {
    if out.len() < STORED_LENGTH {
        return 206;
    }
    let (refusal, record) = stored::read(stored, fault);
    match stored::write(&record, out) {
        Ok(()) => refusal.map_or(0, |number| 200 + u32::from(number)),
        Err(number) => 200 + u32::from(number),
    }
}

pub fn bank(bank: &[u8], out: &mut [u8], fault: Fault) -> u32 {
    let (refusal, read) = Bank::read(bank, fault);
    let answer = bank_answer(refusal);
    match (fault, refusal) {
        (Fault::RefusedBankNotWritten, Some(_)) => return answer,
        (Fault::BankRefusedBeforeRoom, Some(_)) if out.len() < read.form(fault).len() => {
            return answer
        }
        _ => {}
    }
    match read.write(out, fault) {
        Ok(()) => answer,
        Err(number) => 200 + u32::from(number),
    }
}

/// The answer to a bank that is refused or not.
fn bank_answer(refusal: Option<u8>) -> u32 {
    refusal.map_or(0, |number| 200 + u32::from(number))
}

/// Whether the totals of all recipes have room; else H1.
fn has_totals_room(sums: &[u64], counts: &[u32], fault: Fault) -> bool {
    let (least_sums, least_counts) = match fault {
        Fault::SevenSumsTaken => (RECIPES - 1, RECIPES),
        Fault::NineSumsNeeded => (RECIPES + 1, RECIPES),
        Fault::SevenCountsTaken => (RECIPES, RECIPES - 1),
        Fault::NineCountsNeeded => (RECIPES, RECIPES + 1),
        _ => (RECIPES, RECIPES),
    };
    sums.len() >= least_sums && counts.len() >= least_counts
}

/// Lays totals at the start of buffers that have room for them, the rest of which stays.
fn lay_totals(totals: &Totals, sums: &mut [u64], counts: &mut [u32]) {
    for (place, sum) in sums.iter_mut().zip(totals.sums) {
        *place = sum;
    }
    for (place, count) in counts.iter_mut().zip(totals.counts) {
        *place = count;
    }
}

/// Lays totals as planted faults do.
#[cold]
fn mislay_totals(totals: &Totals, sums: &mut [u64], counts: &mut [u32], fault: Fault) {
    let mut laid = *totals;
    match fault {
        Fault::OldSumsAdded => {
            for (sum, old) in laid.sums.iter_mut().zip(&*sums) {
                *sum = sum.wrapping_add(*old);
            }
        }
        Fault::OldCountsAdded => {
            for (count, old) in laid.counts.iter_mut().zip(&*counts) {
                *count = count.wrapping_add(*old);
            }
        }
        Fault::NinthSumTouched => sums.iter_mut().skip(RECIPES).for_each(|sum| *sum = 0),
        Fault::NinthCountTouched => counts.iter_mut().skip(RECIPES).for_each(|count| *count = 0),
        _ => {}
    }
    lay_totals(&laid, sums, counts);
}

/// What planted faults do to a refusal.
struct MisrefusedTotals {
    before_room: Fault,
    sums_stay: Fault,
    counts_stay: Fault,
}

/// Lays what is added up into the lent buffers; or H1.
fn give_totals(
    add_up: impl Fn() -> (u32, Totals),
    sums: &mut [u64],
    counts: &mut [u32],
    planted: MisrefusedTotals,
    fault: Fault,
) -> u32 {
    if !has_totals_room(sums, counts, fault) {
        if fault == Fault::ShortRoomCleared {
            sums.fill(0);
            counts.fill(0);
        }
        let refused = || Some(add_up().0).filter(|&answer| answer != 0);
        let early = (fault == planted.before_room).then(refused).flatten();
        return early.unwrap_or(SHORT_BUFFER);
    }
    let (answer, totals) = add_up();
    match fault {
        Fault::None => lay_totals(&totals, sums, counts),
        _ if answer != 0 && fault == planted.sums_stay => lay_totals(&totals, &mut [], counts),
        _ if answer != 0 && fault == planted.counts_stay => lay_totals(&totals, sums, &mut []),
        _ => mislay_totals(&totals, sums, counts, fault),
    }
    answer
}

pub fn totals(lists: Lists, sums: &mut [u64], counts: &mut [u32], fault: Fault) -> u32 {
    let add_up = || {
        let (refusal, totals) = totals::of_lists(lists, fault);
        let answer = refusal.map_or(0, |number| 800 + u32::from(number));
        (answer, totals)
    };
    let planted = MisrefusedTotals {
        before_room: Fault::ListsBeforeRoom,
        sums_stay: Fault::RefusedSumsStay,
        counts_stay: Fault::RefusedCountsStay,
    };
    give_totals(add_up, sums, counts, planted, fault)
}

pub fn bank_totals(bank: &[u8], sums: &mut [u64], counts: &mut [u32], fault: Fault) -> u32 {
    let add_up = || {
        let (refusal, totals) = totals::of_bank(bank, fault);
        (bank_answer(refusal), totals)
    };
    let planted = MisrefusedTotals {
        before_room: Fault::BankBeforeTotalsRoom,
        sums_stay: Fault::RefusedBankSumsStay,
        counts_stay: Fault::RefusedBankCountsStay,
    };
    give_totals(add_up, sums, counts, planted, fault)
}

/// Lays a text at the start of a buffer that has room for it, the rest of which stays.
fn lay_text(text: &str, out: &mut [u8], overwritten: bool) {
    let (place, behind) = out.split_at_mut(text.len());
    place.copy_from_slice(text.as_bytes());
    if overwritten {
        behind.fill(0);
    }
}

pub fn units(sum: u64, out: &mut [u8], fault: Fault) -> u32 {
    let least = match fault {
        Fault::SixtyThreeForUnits => LEAST_BUFFER - 1,
        Fault::SixtyFiveForUnits => LEAST_BUFFER + 1,
        _ => LEAST_BUFFER,
    };
    if out.len() < least {
        return SHORT_BUFFER;
    }
    let text = Units { sum, fault }.to_string();
    lay_text(&text, out, fault == Fault::BehindUnitsOverwritten);
    text.len() as u32
}

/// The answer, and how many bytes were written.
pub fn totals_text(bank: &[u8], out: &mut [u8], fault: Fault) -> (u32, usize) {
    let least = match fault {
        Fault::FiveHundredElevenTaken => TEXT_ROOM - 1,
        Fault::FiveHundredThirteenNeeded => TEXT_ROOM + 1,
        Fault::FittingTextLaid => totals::text(bank, fault).1.len(),
        _ => TEXT_ROOM,
    };
    if out.len() < least {
        return short_text_room(bank, out, fault);
    }
    let (refusal, text) = totals::text(bank, fault);
    lay_text(&text, out, fault == Fault::BehindTextOverwritten);
    let written = match refusal {
        Some(_) if fault == Fault::RefusalWithoutLength => 0,
        _ => text.len(),
    };
    (bank_answer(refusal), written)
}

/// H1 and no bytes, or what planted faults make of it.
fn short_text_room(bank: &[u8], out: &mut [u8], fault: Fault) -> (u32, usize) {
    let text = || totals::text(bank, fault);
    match fault {
        Fault::BankBeforeTextRoom if text().0.is_some() => (BAD_BANK, 0),
        Fault::TextLaidBesideShortRoom => {
            let (_, text) = text();
            lay_text(&text[..text.len().min(out.len())], out, false);
            (SHORT_BUFFER, 0)
        }
        Fault::LengthBesideShortRoom => (SHORT_BUFFER, text().1.len()),
        _ => (SHORT_BUFFER, 0),
    }
}

fn host_answer(result: Result<usize, HostRefusal>) -> u32 {
    match result {
        Ok(length) => length as u32,
        Err(HostRefusal::Host(number)) => 400 + u32::from(number),
        Err(HostRefusal::Frame(number)) => 100 + u32::from(number),
    }
}

pub fn build(kind: u8, text: &[u8], out: &mut [u8], fault: Fault) -> u32 {
    match kind_of(kind) {
        Some(kind) => host_answer(frame::build(kind, text, out, fault)),
        None => UNKNOWN_KIND_OR_EVENT,
    }
}

pub fn read(kind: u8, frame: &[u8], out: &mut [u8], fault: Fault) -> u32 {
    match kind_of(kind) {
        Some(kind) => host_answer(frame::read(kind, frame, out, fault)),
        None => UNKNOWN_KIND_OR_EVENT,
    }
}

/// The answer, the place and the count.
pub fn judge(recording: &[u8], fault: Fault) -> (u32, usize, usize) {
    match judge::judge(recording, fault) {
        Judgement::Fits { count } => (0, 0, count),
        Judgement::Refuted { place, count } => (1, place, count),
        Judgement::NotJudged { place, count } => (NOT_JUDGED, place, count),
        Judgement::Refused(number) => (500 + u32::from(number), 0, 0),
    }
}

/// What is told of a recording that is refuted, or not judged, beside the answer: the exchange, the number
/// that goes with the reason, and a field's sets as the header writes them.
#[derive(Clone, Copy, PartialEq, Eq, Debug, Default)]
pub struct Why {
    pub place: usize,
    pub number: u32,
    pub held: u32,
    pub needed: u32,
}

const NOT_JUDGED: u32 = 2;

/// The answer and the place, where nothing is told.
pub fn known_answer(untold: Untold) -> (u32, usize) {
    match untold {
        Untold::ShortBuffer => (SHORT_BUFFER, 0),
        Untold::Refused(number) => (500 + u32::from(number), 0),
        Untold::Refuted(place) => (1, place),
        Untold::NotJudged(place) => (NOT_JUDGED, place),
    }
}

/// Lays sets at the start of a buffer that has room for them.
pub fn write_sets(known: &Sets, sets: &mut [u32]) {
    for (place, set) in sets.iter_mut().zip(known) {
        *place = set.written();
    }
}

/// One exchange more over sets that a recording told.
pub fn learn(address: u8, access: u8, exchange: Exchange, sets: &mut [u32], fault: Fault) -> u32 {
    let Some(lent) = sets.first_chunk_mut::<FIELDS>() else {
        return SHORT_BUFFER;
    };
    let mut field = 0;
    let before = lent.map(|set| {
        field += 1;
        Numbers::read(field - 1, set)
    });
    let Some(mut following) = Following::resume(address, access, &before, fault) else {
        return 1;
    };
    let learnt = following.learn(exchange, fault);
    let emptied = match learnt {
        Ok(()) => false,
        Err(Reason::KeptBatch) => fault == Fault::KeptBatchEmptiesSets,
        Err(_) => fault == Fault::RefutationEmptiesSets,
    };
    if emptied {
        lent.fill(0);
    }
    match learnt {
        Ok(()) => {
            write_sets(following.sets(), lent);
            0
        }
        Err(Reason::KeptBatch) => NOT_JUDGED,
        Err(_) => 1,
    }
}

/// Why a recording is refuted, or not judged: the answer, the place, the number that goes with it, and the
/// field's sets.
pub fn why(told: &Told, fault: Fault) -> (u32, usize, u32, Option<(Numbers, Numbers)>) {
    match told.why(fault) {
        Err(number) => (500 + u32::from(number), 0, 0, None),
        Ok(None) => (0, 0, 0, None),
        Ok(Some((place, reason))) => match reason {
            Reason::ReplyToSilence(number) => (1, place, number.into(), None),
            Reason::NoReply => (2, place, 0, None),
            Reason::NoRecord => (3, place, 0, None),
            Reason::Field {
                field,
                held,
                needed,
            } => (4, place, field as u32, Some((held, needed))),
            Reason::KeptBatch => (5, place, 0, None),
        },
    }
}

/// The exchange that begins at a byte: the answer, and where its request and its reply are.
pub fn exchange(recording: &[u8], at: usize, fault: Fault) -> (u32, Spans) {
    match recording::exchange_at(recording, at, fault) {
        Ok(Some(spans)) => (0, spans),
        Ok(None) => (1, Spans::default()),
        Err(_) if fault == Fault::CutTakenForEnd => (1, Spans::default()),
        Err(number) => (500 + u32::from(number), Spans::default()),
    }
}

#[cfg(test)]
mod tests {
    use super::*;
    use crate::alarms;
    use crate::bank::Batch;
    use crate::record::Phase;

    /// The answer to a call with EA over stored bytes, which come back with it.
    fn enquire(kind: u8, stored: &[u8], room: usize) -> (u32, Vec<u8>) {
        let mut lent = stored.to_vec();
        let request = frame::framed(Kind::Minicomputer, b"01EA");
        let answer = call(kind, &mut lent, &request, &mut vec![0; room], Fault::None);
        (answer, lent)
    }

    fn happens(event: u8, number: u16, stored: &[u8]) -> (u32, Vec<u8>) {
        let mut lent = stored.to_vec();
        let answer = panel(event, number, &mut lent, Fault::None);
        (answer, lent)
    }

    /// Stored bytes of version 1 are read, but have no room for what is written in their place.
    #[test]
    fn version_1_has_no_room() {
        let old = stored::old_form(&Record::low()).to_vec();
        let mut bad = old.clone();
        bad[3] = 0;
        assert_eq!(enquire(2, &bad, 63), (300, bad.clone()));
        assert_eq!(enquire(0, &bad, 63), (204, bad.clone()));
        assert_eq!(enquire(0, &old, 63), (206, old.clone()));
        assert_eq!(happens(7, 1, &bad), (300, bad.clone()));
        assert_eq!(happens(5, 1, &bad), (204, bad.clone()));
        assert_eq!(happens(5, 20, &old), (206, old.clone()));
        let mut out = [9; 182];
        assert_eq!(stored(&old, &mut out[..179], Fault::None), 206);
        assert_eq!(out, [9; 182]);
        assert_eq!(stored(&old, &mut out, Fault::None), 0);
        assert_eq!(out[..180], stored::form(&Record::low()));
        assert_eq!(out[180..], [9; 2]);
        assert_eq!(enquire(0, &out[..180], 63).0, 102);
    }

    /// Each refusal of the stored record reports nothing and leaves every byte.
    #[test]
    fn several_frames_to_stored_bytes() {
        let low = stored::form(&Record::low()).to_vec();
        let set = Record {
            recipe: 2,
            ..Record::low()
        };
        let stream = frame::framed(Kind::Minicomputer, b"01NR 02");
        let over = |stored: &[u8]| {
            let (mut lent, mut reply) = (stored.to_vec(), [9; 64]);
            let answered = several(&mut lent, &stream, &mut reply, Fault::None);
            (answered, lent, reply != [9; 64])
        };
        let report = Report {
            taken: 11,
            answered: 1,
            written: 8,
        };
        assert_eq!(over(&low), ((0, report), stored::form(&set).to_vec(), true));
        let mut refused = vec![
            (201, low[..179].to_vec()),
            (206, stored::old_form(&set).to_vec()),
        ];
        for (answer, place) in [(202, 0), (203, 2), (204, 3)] {
            let mut bad = low.clone();
            bad[place] = 0;
            refused.push((answer, bad));
        }
        for (answer, stored) in refused {
            let expected = ((answer, Report::default()), stored.clone(), false);
            assert_eq!(over(&stored), expected);
        }
    }

    /// The forms of the low record with these addresses, end to end.
    fn forms(addresses: impl IntoIterator<Item = u8>) -> Vec<u8> {
        let form = |address| {
            stored::form(&Record {
                address,
                ..Record::low()
            })
        };
        addresses.into_iter().flat_map(form).collect()
    }

    /// A write goes to the second of three alone; the bytes before and behind it stay.
    #[test]
    fn a_board_of_three() {
        let before = forms([9, 1, 99]);
        for (kind, request, answer) in [
            (0, &b"\x0201NR 02\x03\x3C\x7F"[..], 8),
            (1, b"*01NR 02\r\n", 7),
        ] {
            let (mut lent, mut reply) = (before.clone(), [9; 70]);
            let answered = board(kind, &mut lent, request, &mut reply, Fault::None);
            assert_eq!(answered, answer);
            assert_eq!(reply[answer as usize..], [9; 70][answer as usize..]);
            assert_eq!(lent[180 + 7], 2);
            lent[180 + 7] = 1;
            assert_eq!(lent, before);
        }
    }

    /// The answer to a write to address 1; no byte may change.
    fn board_refused(kind: u8, stored: &[u8], room: usize) -> u32 {
        let (mut lent, mut reply) = (stored.to_vec(), vec![9; room]);
        let answer = board(kind, &mut lent, b"*01NR 02\r\n", &mut reply, Fault::None);
        assert_eq!(lent, stored);
        assert_eq!(reply, vec![9; room]);
        answer
    }

    /// Each refusal with what comes behind it.
    #[test]
    fn boards_are_refused_in_order() {
        let twice = |count: usize| forms([1, 1]).repeat(count);
        let spoiled = |mut stored: Vec<u8>, changes: &[(usize, u8)]| {
            for &(place, byte) in changes {
                stored[place] = byte;
            }
            stored
        };
        let bad = spoiled(twice(9), &[(0, 1)]);
        assert_eq!(board_refused(2, &bad[1..], 63), 300);
        for length in [1, 177, 179, 181, 354, 17 * 180 + 1] {
            assert_eq!(board_refused(1, &bad[..length], 63), 201);
        }
        assert_eq!(board_refused(1, &[], 63), 109);
        assert_eq!(board_refused(1, &bad[..17 * 180], 63), 109);
        // The first that is refused, whatever the later ones are.
        let changes = [(180, 1), (361, 1), (543, 0)];
        for (answer, from) in [(202, 0), (203, 1), (204, 2)] {
            let bad = spoiled(twice(2), &changes[from..]);
            assert_eq!(board_refused(1, &bad, 63), answer);
            let bad = spoiled(twice(2), &changes[from..=from]);
            assert_eq!(board_refused(1, &bad, 63), answer);
        }
        assert_eq!(board_refused(1, &twice(2), 63), 111);
        assert_eq!(board_refused(1, &forms(1..=16), 63), 102);
        assert_eq!(board_refused(0, &forms(1..=16), 64), 104);
        assert_eq!(board_refused(1, &forms(2..=17), 64), 108);
    }

    /// A bank of so many batches as it is lent, other bytes behind it.
    fn lent(count: u16) -> Vec<u8> {
        let batch = |number| Batch {
            number,
            recipe: 1,
            factor: 8_000,
            raw: 7,
            preset: 9,
        };
        let mut lent = Bank::with((1..=count).map(batch)).form(Fault::None);
        lent.resize(BANK_LENGTH, 0xEE);
        lent
    }

    /// ET from Done over a stored record and a bank: the answer and the bank after it. Where it is no
    /// length, nothing may change.
    fn ended(kind: u8, stored: &[u8], bank: &[u8], room: usize) -> (u32, Vec<u8>) {
        let (mut record, mut lent, mut reply) = (stored.to_vec(), bank.to_vec(), vec![9; room]);
        let request = b"*01ET\r\n";
        let fault = Fault::None;
        let answer = banked_call(kind, &mut record, &mut lent, request, &mut reply, fault);
        if answer >= 100 {
            assert_eq!((&record[..], &lent[..]), (stored, bank));
            assert_eq!(reply, vec![9; room]);
        }
        (answer, lent)
    }

    fn done() -> Vec<u8> {
        let record = Record {
            phase: Phase::Done,
            ..Record::low()
        };
        stored::form(&record).to_vec()
    }

    /// The bank grows in its place, and what stands behind it stays.
    #[test]
    fn a_bank_grows_in_place() {
        let batch = [0, 1, 1, 0x1F, 0x40, 0, 0, 0, 0, 0, 0, 0];
        for (count, length) in [(0, 15), (1, 27), (99, 1203)] {
            let before = lent(count);
            let (answer, after) = ended(1, &done(), &before, 64);
            assert_eq!(answer, 7);
            assert_eq!(after[1..3], (length as u16).to_be_bytes());
            assert_eq!(after[3..length - 12], before[3..length - 12]);
            assert_eq!(after[length - 12..length], batch);
            assert_eq!(after[length..], before[length..]);
        }
        let before = lent(100);
        let (answer, after) = ended(1, &done(), &before, 64);
        assert_eq!((answer, &after[..3]), (7, &before[..3]));
        assert_eq!(after[3..1191], before[15..]);
        assert_eq!(after[1191..], batch);
    }

    /// Each refusal with what comes behind it.
    #[test]
    fn banked_units_are_refused_in_order() {
        let changed = |mut bytes: Vec<u8>, place: usize, byte: u8| {
            bytes[place] = byte;
            bytes
        };
        let bad = changed(lent(2), 0, 2);
        let old = stored::old_form(&Record::low());
        assert_eq!(ended(2, &[], &bad, 63).0, 300);
        for (answer, stored) in [
            (201, vec![]),
            (202, changed(done(), 0, 1)),
            (203, changed(done(), 2, 0)),
            (204, changed(done(), 7, 9)),
            (206, old.to_vec()),
        ] {
            assert_eq!(ended(1, &stored, &bad, 63).0, answer);
        }
        let of_each_reason = [
            bad,
            vec![],
            lent(0)[..3].to_vec(),
            lent(100)[..1202].to_vec(),
            [lent(100), vec![0]].concat(),
            changed(lent(2), 2, 28),
            changed(lent(2), 1, 4),
            changed(lent(2), 5, 0),
            changed(lent(2), 17, 9),
        ];
        for bank in of_each_reason {
            assert_eq!(ended(1, &done(), &bank, 63).0, 207);
        }
        assert_eq!(ended(1, &done(), &lent(2), 63).0, 102);
        assert_eq!(ended(0, &done(), &lent(2), 64).0, 103);
        assert_eq!(ended(1, &done(), &lent(2), 64).0, 7);
    }

    /// What is refused reports nothing and leaves every byte.
    #[test]
    fn several_frames_to_a_banked_unit() {
        let stream = [&b"\x0201ET\x03\x13\x7F"[..], b"\x0201RT R 001\x03\x67\x7F"].concat();
        let over = |stored: &[u8], bank: &[u8], room: usize| {
            let (mut record, mut lent, mut reply) = (stored.to_vec(), bank.to_vec(), vec![9; room]);
            let fault = Fault::None;
            let answered = banked_several(&mut record, &mut lent, &stream, &mut reply, fault);
            (answered, lent, reply)
        };
        let report = |taken, answered, written| Report {
            taken,
            answered,
            written,
        };
        let (answered, bank, reply) = over(&done(), &lent(1), 72);
        assert_eq!(answered, (0, report(22, 2, 31)));
        assert_eq!(reply[8..24], *b"\x0201RT R 00000000");
        assert_eq!(bank, ended(1, &done(), &lent(1), 64).1);
        let (answered, bank, _) = over(&done(), &lent(1), 71);
        assert_eq!(answered, (0, report(8, 1, 8)));
        assert_eq!(bank, ended(1, &done(), &lent(1), 64).1);
        let mut bad = lent(1);
        bad[0] = 0;
        for (answer, stored) in [(207, &done()[..]), (201, &[])] {
            let refused = ((answer, Report::default()), bad.clone(), vec![9; 72]);
            assert_eq!(over(stored, &bad, 72), refused);
        }
    }

    /// A stored bank needs the room of what is written, the empty one beside K7.
    #[test]
    fn stored_banks() {
        let written = |stored: &[u8], room: usize| {
            let mut out = vec![9; room];
            let answer = bank(stored, &mut out, Fault::None);
            (answer, out)
        };
        let form = lent(2)[..27].to_vec();
        assert_eq!(written(&form, 26), (206, vec![9; 26]));
        assert_eq!(written(&form, 27), (0, form.clone()));
        assert_eq!(written(&form, 29), (0, [&form[..], &[9, 9]].concat()));
        for bad in [&form[..26], &form[1..], &[], &lent(2)] {
            assert_eq!(written(bad, 2), (206, vec![9; 2]));
            assert_eq!(written(bad, 3), (207, vec![1, 0, 3]));
            assert_eq!(written(bad, 5), (207, vec![1, 0, 3, 9, 9]));
        }
        assert_eq!(written(&[1, 0, 3], 3), (0, vec![1, 0, 3]));
        assert_eq!(written(&[1, 0, 3], 2), (206, vec![9; 2]));
        let full = lent(100);
        assert_eq!(written(&full, 1203), (0, full.clone()));
        assert_eq!(written(&full, 1202), (206, vec![9; 1202]));
    }

    /// A week of two batches, of recipes 3 and 8.
    const WEEK: Lists = Lists {
        raws: &[500, 1],
        factors: &[10_150, 8_000],
        recipes: &[3, 8],
    };

    /// What totals leave in so many sums and counts that held 9.
    fn left(
        rooms: (usize, usize),
        add_up: impl Fn(&mut [u64], &mut [u32]) -> u32,
    ) -> (u32, Vec<u64>, Vec<u32>) {
        let (mut sums, mut counts) = (vec![9; rooms.0], vec![9; rooms.1]);
        let answer = add_up(&mut sums, &mut counts);
        (answer, sums, counts)
    }

    /// Eight sums and counts are written, also by a refusal; the others stay, and all of them by H1.
    #[test]
    fn totals_of_lists() {
        let of = |lists: Lists, rooms: (usize, usize)| {
            left(rooms, |sums, counts| {
                totals(lists, sums, counts, Fault::None)
            })
        };
        let sums = vec![0, 0, 5_075_000, 0, 0, 0, 0, 8_000, 9, 9];
        let counts = vec![0, 0, 1, 0, 0, 0, 0, 1, 9];
        assert_eq!(of(WEEK, (10, 9)), (0, sums, counts));
        let unequal = Lists {
            recipes: &[3],
            ..WEEK
        };
        let long = vec![8_000; 1_001];
        let too_many = Lists {
            raws: &long,
            factors: &long,
            recipes: &long,
        };
        let out_of_range = Lists {
            factors: &[10_150, 7_999],
            ..WEEK
        };
        for (answer, lists) in [(801, unequal), (802, too_many), (803, out_of_range)] {
            let zeros = (answer, vec![0; 8], vec![0, 0, 0, 0, 0, 0, 0, 0, 9]);
            assert_eq!(of(lists, (8, 9)), zeros);
            for rooms in [(7, 8), (8, 7), (0, 100), (100, 0), (0, 0)] {
                let untouched = (401, vec![9; rooms.0], vec![9; rooms.1]);
                assert_eq!(of(lists, rooms), untouched);
                assert_eq!(of(WEEK, rooms), untouched);
            }
        }
    }

    #[test]
    fn totals_of_banks() {
        let of = |bank: &[u8], rooms: (usize, usize)| {
            left(rooms, |sums, counts| {
                bank_totals(bank, sums, counts, Fault::None)
            })
        };
        // Each batch is 7 times 0.8.
        let full = (
            0,
            vec![5_600_000, 0, 0, 0, 0, 0, 0, 0, 9],
            vec![100, 0, 0, 0, 0, 0, 0, 0, 9],
        );
        assert_eq!(of(&lent(100), (9, 9)), full);
        assert_eq!(of(&[1, 0, 3], (8, 8)), (0, vec![0; 8], vec![0; 8]));
        // Lent to grow, a bank is longer than its field says.
        for bad in [&lent(2)[..], &[], &[1, 0], &[2, 0, 3]] {
            assert_eq!(of(bad, (8, 8)), (207, vec![0; 8], vec![0; 8]));
            assert_eq!(of(bad, (7, 8)), (401, vec![9; 7], vec![9; 8]));
            assert_eq!(of(bad, (8, 7)), (401, vec![9; 8], vec![9; 7]));
        }
    }

    #[test]
    fn units_in_a_buffer() {
        let mut out = [9; 70];
        assert_eq!(units(5_075_000, &mut out[..63], Fault::None), 401);
        assert_eq!(out, [9; 70]);
        assert_eq!(units(5_075_000, &mut out[..64], Fault::None), 8);
        assert_eq!((&out[..8], &out[8..]), (&b"507.5000"[..], &[9; 62][..]));
        assert_eq!(units(u64::MAX, &mut out, Fault::None), 21);
        let text = (&b"1844674407370955.1615"[..], &[9; 49][..]);
        assert_eq!((&out[..21], &out[21..]), text);
    }

    /// A line or none; what stands behind it stays.
    #[test]
    fn texts_of_totals() {
        let bank = &lent(2)[..27];
        for (answer, stored, text) in [
            (0, bank, &b"01 2 11.2000\n"[..]),
            (0, &[1, 0, 3], b""),
            (207, &[], b"refused K7\n"),
            (207, &bank[..26], b"refused K7\n"),
        ] {
            for room in [0, 13, 511] {
                let mut out = vec![9; room];
                assert_eq!(totals_text(stored, &mut out, Fault::None), (401, 0));
                assert_eq!(out, vec![9; room]);
            }
            for room in [512, 600] {
                let mut out = vec![9; room];
                let answered = totals_text(stored, &mut out, Fault::None);
                assert_eq!(answered, (answer, text.len()));
                let behind = vec![9; room - text.len()];
                assert_eq!(out, [text, &behind].concat());
            }
        }
    }

    /// What is answered to a read of two registers over stored bytes and a bank, and what comes back.
    fn read_banked(stored: &[u8], bank: &[u8], room: usize) -> (u32, Vec<u8>) {
        let (mut lent, mut kept) = (stored.to_vec(), bank.to_vec());
        let mut reply = vec![9; room];
        let request = modbus::read_request(1, 0, 2);
        let answer = banked_modbus(&mut lent, &mut kept, &request, &mut reply, Fault::None);
        assert_eq!((&lent[..], &kept[..]), (stored, bank));
        (answer, reply)
    }

    /// K1 to K4 or K6, then K7, then M2, each with every byte as it was.
    #[test]
    fn modbus_over_stored_bytes() {
        let low = stored::form(&Record::low()).to_vec();
        let old = stored::old_form(&Record::low()).to_vec();
        let changed = |place: usize| {
            let mut bad = low.clone();
            bad[place] = 0;
            bad
        };
        let (good, short) = (lent(2), &lent(2)[1..]);
        for (answer, stored) in [
            (1201, low[1..].to_vec()),
            (1202, changed(0)),
            (1203, changed(2)),
            (1204, changed(3)),
            (1206, old),
        ] {
            for (bank, room) in [(&good[..], 256), (short, 0)] {
                assert_eq!(read_banked(&stored, bank, room), (answer, vec![9; room]));
            }
            let mut form = stored.clone();
            let alone = modbus(&mut form, &[], &mut [], Fault::None);
            assert_eq!((alone, form), (answer, stored));
        }
        for room in [0, 255, 256] {
            assert_eq!(read_banked(&low, short, room), (1207, vec![9; room]));
        }
        assert_eq!(read_banked(&low, &good, 255), (902, vec![9; 255]));
        let (answer, reply) = read_banked(&low, &good, 260);
        assert_eq!(answer, 9);
        assert_eq!(reply[..9], modbus::framed(&[1, 3, 4, 0, 0, 0, 0]));
        assert_eq!(reply[9..], [9; 251]);
    }

    #[test]
    fn alarm_events() {
        let none = stored::form(&Record::low()).to_vec();
        let raised = Record {
            alarms: alarms::numbered(17),
            ..Record::low()
        };
        let (answer, form) = happens(5, 17, &none);
        assert_eq!((answer, &form[..]), (0, &stored::form(&raised)[..]));
        assert_eq!(happens(6, 16, &form), (0, form.clone()));
        assert_eq!(happens(6, 17, &form), (0, none.clone()));
        for number in [0, 20, 273, 65_535] {
            assert_eq!(happens(5, number, &none), (0, none.clone()));
            assert_eq!(happens(6, number, &form), (0, form.clone()));
        }
    }
}
