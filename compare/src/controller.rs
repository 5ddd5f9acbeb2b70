//! One call of the controller, the record by value.

use crate::alarms;
use crate::bank::{Bank, Batch};
use crate::command::{self, Command, Named};
use crate::fault::Fault;
use crate::frame::{self, Kind, LEAST_BUFFER};
use crate::parameters::{factor_place, is_factor, parameter_code, same_kind_place};
use crate::record::{Phase, Record, HIGHEST_NUMBER};

/// What a call answers beside the record after it and the lent reply buffer.
#[derive(Clone, Copy, PartialEq, Eq, Debug)]
pub enum Outcome {
    /// S1 to S8, over a board S2 to S11, on Modbus M1 to M8: the buffer is untouched.
    Silence(u8),
    /// The length of the reply frame at the start of the buffer.
    Reply(usize),
}

/// What a request frame is to a controller of some address, whatever else is in its record.
#[derive(Clone, Copy, PartialEq, Eq, Debug)]
pub enum Request {
    /// S3 to S8.
    Silent(u8),
    /// NO00, 01, 08, 04, 30 or 06, with the code of the request.
    Refused(u8, [u8; 2]),
    /// RT R NNN. Where there is no bank it is NO01.
    KeptBatch(usize),
    Asked(Command),
}

/// The text of a reply, the address digits first.
#[derive(Clone, Copy)]
pub struct ReplyText {
    bytes: [u8; 32],
    length: usize,
}

impl ReplyText {
    fn new(address: u8) -> ReplyText {
        let mut text = ReplyText {
            bytes: [0; 32],
            length: 0,
        };
        text.number(u32::from(address), 2);
        text
    }

    fn word(&mut self, word: &[u8]) {
        self.bytes[self.length..self.length + word.len()].copy_from_slice(word);
        self.length += word.len();
    }

    /// A number in its full width.
    fn number(&mut self, mut number: u32, width: usize) {
        for place in (self.length..self.length + width).rev() {
            self.bytes[place] = b'0' + (number % 10) as u8;
            number /= 10;
        }
        self.length += width;
    }

    pub fn bytes(&self) -> &[u8] {
        &self.bytes[..self.length]
    }
}

/// The text of a refusal.
pub fn refusal(address: u8, number: u8) -> ReplyText {
    let mut text = ReplyText::new(address);
    text.word(b"NO");
    text.number(u32::from(number), 2);
    text
}

/// The digits of an address in a text.
pub fn digits(address: u8) -> [u8; 2] {
    [b'0' + address / 10, b'0' + address % 10]
}

/// Reads a request frame up to what needs no more of the record than its address.
pub fn understand(address: u8, kind: Kind, request: &[u8], fault: Fault) -> Request {
    let text = match frame::open(kind, request, fault) {
        Ok(text) => text,
        Err(silence) => return Request::Silent(silence),
    };
    let has_digits = text[..2].iter().all(u8::is_ascii_digit);
    let capitals = text[2..4].iter().all(u8::is_ascii_uppercase);
    let own = text[..2] == digits(address);
    if fault == Fault::AddressBeforeForm && has_digits && !own {
        return Request::Silent(8);
    }
    if !has_digits || !capitals {
        return Request::Silent(7);
    }
    if !own {
        return Request::Silent(8);
    }
    if let Some(number) = command::kept_batch(&text[2..], fault) {
        return Request::KeptBatch(number);
    }
    match command::parse(&text[2..], fault) {
        Ok(command) => Request::Asked(command),
        Err(number) => Request::Refused(number, [text[2], text[3]]),
    }
}

fn needs_keypad_off(command: Command, fault: Fault) -> bool {
    if command == Command::Stop {
        return fault == Fault::StopRefusedByKeypad;
    }
    !command.is_read()
}

fn level_passes(record: &Record, command: Command, fault: Fault) -> bool {
    match command {
        Command::WriteValue(Named { place, .. }, _) => {
            record.parameters[place].level <= record.access
        }
        Command::WriteLevel(Named { place, .. }, level) => {
            record.parameters[place].level <= record.access
                && (level <= record.access || fault == Fault::LevelAboveAccessWritten)
        }
        _ => true,
    }
}

fn phase_passes(phase: Phase, command: Command, fault: Fault) -> bool {
    match command {
        Command::WriteValue(..) | Command::WriteRecipe(_) | Command::SetBatch(_) => {
            matches!(phase, Phase::Idle | Phase::Done)
        }
        Command::Start => matches!(phase, Phase::Set | Phase::Stopped),
        Command::Stop => phase == Phase::Running,
        Command::End => {
            matches!(phase, Phase::Set | Phase::Stopped | Phase::Done)
                || fault == Fault::EndAcceptedIdle
        }
        Command::WriteLevel(..) if fault == Fault::LevelWriteNeedsPhase => {
            matches!(phase, Phase::Idle | Phase::Done)
        }
        _ => true,
    }
}

fn alarms_pass(record: &Record, command: Command, fault: Fault) -> bool {
    command != Command::Start || record.alarms == 0 || fault == Fault::StartIgnoresAlarms
}

/// The first refusal of NO02, NO07, NO05 and NO09 that applies. Always inlined: what the benchmarks tell of
/// calls does not hang on Modbus.
#[inline(always)]
fn refused_by_record(record: &Record, command: Command, fault: Fault) -> Option<u8> {
    let mut tests = [
        (2, !(record.keypad && needs_keypad_off(command, fault))),
        (7, level_passes(record, command, fault)),
        (5, phase_passes(record.phase, command, fault)),
        (9, alarms_pass(record, command, fault)),
    ];
    match fault {
        Fault::No07BeforeNo02 => tests.swap(0, 1),
        Fault::No05BeforeNo07 => tests.swap(1, 2),
        Fault::No05BeforeNo02 => tests[..3].rotate_right(1),
        Fault::No09BeforeNo05 => tests.swap(2, 3),
        Fault::No09BeforeNo02 => tests.rotate_right(1),
        Fault::No09ForNo05 if command == Command::Start => tests[2].0 = 9,
        _ => {}
    }
    tests
        .iter()
        .find(|(_, passed)| !passed)
        .map(|&(number, _)| number)
}

fn status(record: &Record, fault: Fault) -> [u8; 6] {
    let running = record.phase == Phase::Running;
    let begun = matches!(record.phase, Phase::Running | Phase::Stopped);
    let weigh = |bits: &[(u8, bool)]| -> u8 {
        let value = bits
            .iter()
            .filter(|(_, on)| *on)
            .map(|(weight, _)| weight)
            .sum::<u8>();
        if fault == Fault::StatusAboveNineAsLetter && value > 9 {
            return b'A' + value - 10;
        }
        0x30 + value
    };
    [
        weigh(&[
            (8, record.keypad),
            (4, running),
            (2, record.flow),
            (1, begun || record.phase == Phase::Set),
        ]),
        weigh(&[
            (8, begun),
            (4, record.phase == Phase::Done),
            (2, record.batch_reset),
        ]),
        weigh(&[(1, record.alarms != 0)]),
        weigh(&[(8, record.changed), (1, record.power_fail)]),
        weigh(&[]),
        weigh(&[]),
    ]
}

fn status_codes(record: &Record, fault: Fault) -> [(&'static [u8; 3], bool); 9] {
    let running = record.phase == Phase::Running;
    let stopped = record.phase == Phase::Stopped;
    let mut codes: [(&[u8; 3], bool); 9] = [
        (b"AL ", record.alarms != 0),
        (b"FL ", record.flow),
        (b"BD ", record.batch_reset),
        (b"PC ", record.changed),
        (b"PF ", record.power_fail),
        (b"PW ", record.keypad),
        (b"TD ", record.phase == Phase::Done),
        (b"TP ", running || stopped),
        (
            b"RL ",
            running || (stopped && fault == Fault::ReleaseWhenStopped),
        ),
    ];
    if fault == Fault::AlarmCodeNotFirst {
        codes.swap(0, 1);
    }
    codes
}

/// Has a command take effect, or refuses it; answers the reply's text.
fn carry_out(
    record: &mut Record,
    bank: Option<&mut Bank>,
    command: Command,
    fault: Fault,
) -> ReplyText {
    match answer(record, command, fault) {
        Ok(text) => {
            if let Some(bank) = bank {
                keep_batch(bank, record, command, fault);
            }
            take_effect(record, command, fault);
            text
        }
        Err(number) => {
            record.changed |= fault == Fault::RecordChangedOnRefusal && number == 5;
            if let Some(bank) = bank {
                if command == Command::End && keeps_refused(number, fault) {
                    bank.keep(Batch::of(record, fault), fault);
                }
            }
            refusal(record.address, number)
        }
    }
}

/// What a command that is accepted does to the bank: ET keeps the batch as the record still holds it.
fn keep_batch(bank: &mut Bank, record: &Record, command: Command, fault: Fault) {
    let kept = match (command, record.phase) {
        (Command::End, Phase::Stopped) => fault != Fault::StoppedBatchLost,
        (Command::End, Phase::Done) => fault != Fault::DoneBatchLost,
        (Command::End, _) => fault == Fault::SetBatchKept,
        (Command::SetBatch(_), Phase::Done) => fault == Fault::NextBatchKeeps,
        (Command::WriteValue(Named { place, .. }, value), _)
            if fault == Fault::FactorAfterwards && place == factor_place(record.recipe) =>
        {
            bank.change_newest_factor(record.recipe, value);
            false
        }
        _ => false,
    };
    if kept {
        bank.keep(Batch::of(record, fault), fault);
    }
}

/// Whether a planted fault keeps a batch though ET is refused by this number.
fn keeps_refused(number: u8, fault: Fault) -> bool {
    match fault {
        Fault::KeptThoughKeypad => number == 2,
        Fault::KeptThoughPhase => number == 5,
        _ => false,
    }
}

/// The text of the reply to RT R NNN: the raw volume of that batch, or NO03; NO01 without a bank.
fn kept_batch(record: &Record, bank: Option<&Bank>, number: usize, fault: Fault) -> ReplyText {
    let Some(bank) = bank else {
        let number = if fault == Fault::NoBankTakenForEmpty {
            3
        } else {
            1
        };
        return refusal(record.address, number);
    };
    match fault {
        Fault::KeptBatchNeedsKeypadOff if record.keypad => return refusal(record.address, 2),
        Fault::KeptBatchNeedsPhase if record.phase == Phase::Running => {
            return refusal(record.address, 5)
        }
        _ => {}
    }
    let Some(batch) = bank.asked(number, fault) else {
        let number = if fault == Fault::No01ForNo03 { 1 } else { 3 };
        return refusal(record.address, number);
    };
    let volume = match fault {
        Fault::PresetShown => batch.preset,
        Fault::CurrentRawShown => record.raw,
        _ => batch.raw,
    };
    let mut text = ReplyText::new(record.address);
    text.word(b"RT R ");
    if fault == Fault::NumberBeforeVolume {
        text.number(number as u32, 3);
        text.word(b" ");
        text.number(volume, 8);
    } else {
        text.number(volume, 8);
        text.word(b" ");
        text.number(number as u32, 3);
    }
    text
}

/// The text of the reply to a command that is accepted, or the number of NO02, NO07, NO05 or NO09.
pub fn answer(record: &Record, command: Command, fault: Fault) -> Result<ReplyText, u8> {
    if let Some(number) = refused_by_record(record, command, fault) {
        return Err(number);
    }
    let mut text = ReplyText::new(record.address);
    match command {
        Command::Status => text.word(&status(record, fault)),
        Command::StatusCodes => {
            text.word(b"RS ");
            for (code, on) in status_codes(record, fault) {
                if on {
                    text.word(code);
                }
            }
        }
        Command::Alarms => text.word(&alarms::characters(record.alarms, fault)),
        Command::BatchNumber => {
            text.word(b"TN ");
            text.number(u32::from(record.number), 4);
        }
        Command::Recipe => {
            text.word(b"RR ");
            text.number(u32::from(record.recipe), 2);
        }
        Command::RecipeFactor => {
            text.word(b"RC ");
            text.number(u32::from(record.recipe), 2);
            text.word(b" ");
            let factor = record.parameters[factor_place(record.recipe)];
            text.number(factor.value, 8);
        }
        Command::RawTotal => {
            text.word(b"RT R ");
            text.number(record.raw, 8);
        }
        Command::Value(Named { code, place }) => {
            text.word(b"PV ");
            text.number(code, 3);
            text.word(b" ");
            text.number(record.parameters[place].value, 8);
        }
        Command::Level(Named { code, place }) => {
            text.word(b"XV ");
            text.number(code, 3);
            text.word(b" ");
            text.number(u32::from(record.parameters[place].level), 1);
        }
        _ => text.word(b"OK"),
    }
    Ok(text)
}

/// The value that a PC is held against: the parameter's own before the write.
fn held_value(record: &Record, place: usize, fault: Fault) -> u32 {
    let place = match fault {
        Fault::HeldAgainstCurrentRecipe => same_kind_place(place, record.recipe),
        _ => place,
    };
    record.parameters[place].value
}

/// The effect of a command that was accepted. Always inlined, as above.
#[inline(always)]
fn take_effect(record: &mut Record, command: Command, fault: Fault) {
    match command {
        Command::WriteValue(Named { mut place, .. }, value) => {
            if fault == Fault::WriteInOtherFactor && is_factor(place) {
                place = (place + 3) % 24;
            }
            let differs = value != held_value(record, place, fault);
            record.parameters[place].value = value;
            record.changed = match fault {
                Fault::WriteKeepsChanged => record.changed,
                Fault::EqualWriteSetsChanged => true,
                Fault::EqualWriteClearsChanged => differs,
                _ => record.changed || differs,
            };
        }
        Command::WriteLevel(Named { place, .. }, level) => record.parameters[place].level = level,
        Command::WriteRecipe(recipe) => record.recipe = recipe,
        Command::SetBatch(preset) => {
            record.phase = Phase::Set;
            record.preset = preset;
            if fault != Fault::BatchKeepsRaw {
                record.raw = 0;
            }
            if fault == Fault::BatchClearsChanged {
                record.changed = false;
            }
            record.batch_reset = true;
            record.number = match record.number {
                HIGHEST_NUMBER if fault != Fault::NumberNotWrapping => 1,
                number => number + 1,
            };
        }
        Command::Start => record.phase = Phase::Running,
        Command::Stop => record.phase = Phase::Stopped,
        Command::End => {
            record.phase = Phase::Idle;
            if fault == Fault::EndResetsAlarms {
                record.alarms = alarms::after_reset(record.alarms, fault);
            }
        }
        Command::ClearBatchReset => record.batch_reset = false,
        Command::ClearChanged => record.changed = false,
        Command::ResetAlarms => record.alarms = alarms::after_reset(record.alarms, fault),
        _ => {}
    }
}

/// The record after a command that was accepted.
pub fn record_after(mut record: Record, command: Command, fault: Fault) -> Record {
    take_effect(&mut record, command, fault);
    record
}

/// Has a PC of a value to the parameter at a place take effect, or answers the number of NO06, NO02, NO07 or
/// NO05.
pub fn write_value(record: &mut Record, place: usize, value: u32, fault: Fault) -> Result<(), u8> {
    if !command::writable(place, value, fault) {
        return Err(6);
    }
    let code = parameter_code(place);
    let command = Command::WriteValue(Named { code, place }, value);
    match refused_by_record(record, command, fault) {
        Some(number) => Err(number),
        None => {
            take_effect(record, command, fault);
            Ok(())
        }
    }
}

/// A refusal that stands before those of the record, unless a planted fault turns the order.
fn early_refusal(record: &Record, number: u8, code: [u8; 2], fault: Fault) -> u8 {
    let keypad_first = match fault {
        Fault::No02BeforeNo08 => number == 8 && code == *b"RE",
        Fault::No02BeforeNo30 => number == 30,
        Fault::No02BeforeNo06 => number == 6,
        _ => false,
    };
    if keypad_first && record.keypad {
        return 2;
    }
    let waits_for_phase = fault == Fault::No05BeforeNo06 && number == 6 && code != *b"XC";
    if waits_for_phase && !matches!(record.phase, Phase::Idle | Phase::Done) {
        return 5;
    }
    number
}

/// Answers a request that was understood, the reply laid into a buffer that has room for it, and
/// changes the record as it asks, and the bank, if there is one.
pub fn respond(
    record: &mut Record,
    bank: Option<&mut Bank>,
    kind: Kind,
    request: Request,
    buffer: &mut [u8],
    fault: Fault,
) -> Outcome {
    let text = match request {
        Request::Silent(silence) => return Outcome::Silence(silence),
        Request::Refused(number, code) => {
            let number = early_refusal(record, number, code, fault);
            refusal(record.address, number)
        }
        Request::KeptBatch(number) => kept_batch(record, bank.as_deref(), number, fault),
        Request::Asked(command) => carry_out(record, bank, command, fault),
    };
    let length = frame::lay(kind, text.bytes(), buffer);
    if fault == Fault::ReplyTailOverwritten {
        buffer[length..].fill(0);
    }
    Outcome::Reply(length)
}

/// One call: the outcome, the record after it, and the reply in the lent buffer.
pub fn call(
    record: Record,
    kind: Kind,
    request: &[u8],
    buffer: &mut [u8],
    fault: Fault,
) -> (Outcome, Record) {
    call_with(record, None, kind, request, buffer, fault)
}

/// One call with a bank beside the record, which is changed in its place.
pub fn banked_call(
    record: Record,
    bank: &mut Bank,
    kind: Kind,
    request: &[u8],
    buffer: &mut [u8],
    fault: Fault,
) -> (Outcome, Record) {
    if !bank.is_valid() {
        return (Outcome::Silence(1), record);
    }
    call_with(record, Some(bank), kind, request, buffer, fault)
}

/// One call, with a good bank or without one.
fn call_with(
    mut record: Record,
    bank: Option<&mut Bank>,
    kind: Kind,
    request: &[u8],
    buffer: &mut [u8],
    fault: Fault,
) -> (Outcome, Record) {
    if !record.is_valid() {
        return (Outcome::Silence(1), record);
    }
    let understood = understand(record.address, kind, request, fault);
    if fault == Fault::LengthBeforeBuffer && understood == Request::Silent(3) {
        return (Outcome::Silence(3), record);
    }
    if buffer.len() < LEAST_BUFFER {
        return (Outcome::Silence(2), record);
    }
    let outcome = respond(&mut record, bank, kind, understood, buffer, fault);
    (outcome, record)
}
