//! The comparison run: random inputs in rounds, then the enumeration.

use crate::comparison::{reply_laid, Comparison, Counts, Difference, Unit};
use crate::drum::{Step, STEP};
use crate::enumeration;
use crate::fault::Fault;
use crate::fields::{self, ANY, ANY_ALARMS, FIELDS, LASTING_ALARMS};
use crate::frame::{self, Kind};
use crate::generate::streams::Talk;
use crate::generate::{
    banks, boards, drum_changes, host, kept_batches, modbus, recordings, records, refutations,
    requests, stored_forms, streams, weeks,
};
use crate::random::Random;
use crate::record::Record;
use crate::stored;
use std::time::{Duration, Instant};

const PROGRESS_INTERVAL: Duration = Duration::from_secs(10);

/// The answer by H1.
const SHORT_BUFFER: u32 = 401;

#[derive(Clone, Copy)]
pub struct Amounts {
    pub calls: u64,
    pub recordings: u64,
    pub seed: u64,
}

impl Default for Amounts {
    fn default() -> Amounts {
        Amounts {
            calls: 200_000,
            recordings: 4_000,
            seed: 1,
        }
    }
}

/// Runs the comparison and answers what was compared, up to the first difference.
pub fn run(fault: Fault, amounts: Amounts, progress: bool) -> (Counts, Result<(), Difference>) {
    let mut comparison = Comparison::new(fault);
    let result = random_rounds(&mut comparison, amounts, progress).and_then(|()| {
        comparison.enumerating = true;
        enumeration::enumerate(&mut comparison)
    });
    (comparison.counts, result)
}

fn random_rounds(
    comparison: &mut Comparison,
    amounts: Amounts,
    progress: bool,
) -> Result<(), Difference> {
    let mut random = Random::new(amounts.seed);
    let rounds = amounts.recordings.max(amounts.calls / 100).max(1);
    let share = |total: u64, round: u64| {
        let up_to =
            |round: u64| (u128::from(total) * u128::from(round) / u128::from(rounds)) as u64;
        up_to(round + 1) - up_to(round)
    };
    let mut record = any_record(&mut random);
    // Numbers of their own: all else that a seed gives does not hang on the streams, the boards, the drum
    // changes, what recordings tell, the banks, the totals or Modbus.
    let mut random_of_streams = Random::new(!amounts.seed);
    let mut record_of_streams = any_record(&mut random_of_streams);
    let mut random_of_boards = Random::new(amounts.seed ^ 1 << 63);
    let mut board = boards::board(&mut random_of_boards);
    let mut random_of_drum_changes = Random::new(amounts.seed ^ 1 << 62);
    let mut random_of_refutations = Random::new(amounts.seed ^ 1 << 61);
    let mut random_of_banks = Random::new(amounts.seed ^ 1 << 60);
    let mut unit = any_unit(&mut random_of_banks);
    let mut random_of_totals = Random::new(amounts.seed ^ 1 << 59);
    let mut random_of_modbus = Random::new(amounts.seed ^ 1 << 58);
    let mut unit_of_modbus = any_unit(&mut random_of_modbus);
    let mut last_progress = Instant::now();
    for round in 0..rounds {
        for _ in 0..share(amounts.calls, round) {
            record = one_call(comparison, &mut random, record)?;
        }
        for _ in 0..share(amounts.calls / 10, round) {
            record_of_streams = one_stream(comparison, &mut random_of_streams, record_of_streams)?;
        }
        for _ in 0..share(amounts.calls / 10, round) {
            let form = stored_forms::stored_form(&mut random);
            let out = out_buffer(&mut random, stored::STORED_LENGTH);
            comparison.stored(&form, &out)?;
        }
        for _ in 0..share(amounts.calls / 10, round) {
            host_side(comparison, &mut random)?;
        }
        for _ in 0..share(amounts.recordings, round) {
            let recording = recordings::recording(&mut random);
            comparison.judge(&recording)?;
            one_telling(comparison, &mut random_of_refutations, &recording)?;
        }
        for _ in 0..share(amounts.calls / 10, round) {
            board = one_board(comparison, &mut random_of_boards, board)?;
        }
        for _ in 0..share(amounts.calls / 10, round) {
            one_drum_change(comparison, &mut random_of_drum_changes)?;
        }
        for _ in 0..share(amounts.calls / 10, round) {
            unit = one_banked_call(comparison, &mut random_of_banks, unit)?;
        }
        for _ in 0..share(amounts.calls / 40, round) {
            unit = one_banked_stream(comparison, &mut random_of_banks, unit)?;
        }
        for _ in 0..share(amounts.calls / 20, round) {
            let form = banks::form(&mut random_of_banks);
            let out = banks::out(&mut random_of_banks, &form);
            comparison.bank(&form, &out)?;
        }
        for _ in 0..share(amounts.recordings / 4, round) {
            one_unjudged(comparison, &mut random_of_banks)?;
        }
        for _ in 0..share(amounts.calls / 10, round) {
            one_week(comparison, &mut random_of_totals)?;
        }
        for _ in 0..share(amounts.calls / 5, round) {
            unit_of_modbus = one_modbus(comparison, &mut random_of_modbus, unit_of_modbus)?;
        }
        if progress && last_progress.elapsed() >= PROGRESS_INTERVAL {
            eprintln!("round {} of {rounds}: {}", round + 1, comparison.counts);
            last_progress = Instant::now();
        }
    }
    Ok(())
}

fn any_record(random: &mut Random) -> Vec<u8> {
    stored::form(&records::record(random)).to_vec()
}

/// A kind of link, and its number, seldom that of a kind that there is not.
fn any_kind(random: &mut Random) -> (Kind, u8) {
    let kind = random.pick(&[Kind::Minicomputer, Kind::Terminal]);
    let mut kind_number = kind as u8;
    if random.percent(1) {
        kind_number = random.byte();
    }
    (kind, kind_number)
}

/// A lent buffer of random bytes, mostly of the least length or somewhat more.
fn out_buffer(random: &mut Random, least: usize) -> Vec<u8> {
    let length = match random.below(10) {
        0 => random.below(least),
        1 => least,
        _ => least + random.below(17),
    };
    random.bytes(length)
}

/// One panel event, seldom one that there is not or over any stored bytes; answers the stored record
/// to go on with.
fn one_event(
    comparison: &mut Comparison,
    random: &mut Random,
    record: Vec<u8>,
) -> Result<Vec<u8>, Difference> {
    let event = if random.percent(2) {
        random.byte()
    } else {
        random.below(7) as u8
    };
    // Counts of pulses, and numbers of alarms or about them.
    let number = match random.below(3) {
        0 => random.between(0, 20) as u16,
        1 => random.between(0, 80) as u16,
        _ => random.next() as u16,
    };
    if random.percent(2) {
        comparison.panel(event, number, &stored_forms::stored_form(random))?;
        return Ok(record);
    }
    comparison.panel(event, number, &record)
}

/// One call and now and then a panel event; answers the stored record to go on with.
fn one_call(
    comparison: &mut Comparison,
    random: &mut Random,
    mut record: Vec<u8>,
) -> Result<Vec<u8>, Difference> {
    if random.percent(20) {
        record = any_record(random);
    }
    if random.percent(25) {
        record = one_event(comparison, random, record)?;
    }
    let (kind, kind_number) = any_kind(random);
    let (_, held) = stored::read(&record, Fault::None);
    let request = requests::request(random, kind, &held, requests::command);
    let reply = out_buffer(random, 64);
    if random.percent(2) {
        let form = stored_forms::stored_form(random);
        comparison.call(kind_number, &form, &request, &reply)?;
        return Ok(record);
    }
    let (_, after, _) = comparison.call(kind_number, &record, &request, &reply)?;
    Ok(after)
}

/// One stream in ticks, what was not taken before what comes next, and now and then a panel event;
/// answers the stored record to go on with.
fn one_stream(
    comparison: &mut Comparison,
    random: &mut Random,
    mut record: Vec<u8>,
) -> Result<Vec<u8>, Difference> {
    if random.percent(20) {
        record = any_record(random);
    }
    let (_, held) = stored::read(&record, Fault::None);
    let talk = Talk {
        record: &held,
        command: requests::command,
    };
    let stream = streams::stream(random, talk);
    let mut untaken = Vec::new();
    for tick in streams::ticks(random, &stream) {
        if random.percent(25) {
            record = one_event(comparison, random, record)?;
        }
        untaken.extend(tick);
        let (_, held) = stored::read(&record, Fault::None);
        let replied = |part: &[u8]| streams::replied(held, None, part);
        let length = streams::reply_length(random, &untaken, replied);
        let reply = random.bytes(length);
        if random.percent(3) {
            let form = stored_forms::stored_form(random);
            comparison.several(&form, &untaken, &reply)?;
        }
        let (report, after, _) = comparison.several(&record, &untaken, &reply)?;
        untaken.drain(..report.taken);
        record = after;
    }
    Ok(record)
}

fn any_unit(random: &mut Random) -> Unit {
    Unit {
        stored: stored::form(&banks::record(random)).to_vec(),
        bank: banks::lent(random),
    }
}

/// A unit to go on with: now and then another record, another bank, or a panel event.
fn next_unit(
    comparison: &mut Comparison,
    random: &mut Random,
    mut unit: Unit,
) -> Result<Unit, Difference> {
    if random.percent(10) {
        unit.stored = stored::form(&banks::record(random)).to_vec();
    }
    if random.percent(6) {
        unit.bank = banks::lent(random);
    }
    if random.percent(25) {
        unit.stored = one_event(comparison, random, unit.stored)?;
    }
    Ok(unit)
}

/// The unit with its bank spoiled, now and then with a record of any stored bytes.
fn spoiled_unit(random: &mut Random, unit: &Unit) -> Unit {
    let stored = match random.below(4) {
        0 => stored_forms::stored_form(random),
        _ => unit.stored.clone(),
    };
    let bank = match random.below(8) {
        0 => unit.bank.clone(),
        _ => banks::spoiled(random, &unit.bank),
    };
    Unit { stored, bank }
}

/// One call with a bank, now and then over a spoiled copy of the unit, or without the bank; answers the
/// unit to go on with.
fn one_banked_call(
    comparison: &mut Comparison,
    random: &mut Random,
    unit: Unit,
) -> Result<Unit, Difference> {
    let unit = next_unit(comparison, random, unit)?;
    let (kind, kind_number) = any_kind(random);
    let (_, held) = stored::read(&unit.stored, Fault::None);
    let request = requests::request(random, kind, &held, requests::banked_command);
    let reply = out_buffer(random, 64);
    if random.percent(15) {
        let spoiled = spoiled_unit(random, &unit);
        let kind_number = if random.percent(8) { 2 } else { kind_number };
        comparison.banked_call(kind_number, &spoiled, &request, &reply)?;
        return Ok(unit);
    }
    if random.percent(5) {
        comparison.call(kind_number, &unit.stored, &request, &reply)?;
        comparison.board(kind_number, &unit.stored, &request, &reply)?;
    }
    let (_, after, _) = comparison.banked_call(kind_number, &unit, &request, &reply)?;
    Ok(after)
}

/// One stream in ticks over a unit with a bank, what was not taken before what comes next; answers the
/// unit to go on with.
fn one_banked_stream(
    comparison: &mut Comparison,
    random: &mut Random,
    mut unit: Unit,
) -> Result<Unit, Difference> {
    let (_, held) = stored::read(&unit.stored, Fault::None);
    let talk = Talk {
        record: &held,
        command: requests::banked_command,
    };
    let stream = streams::stream(random, talk);
    let mut untaken = Vec::new();
    for tick in streams::ticks(random, &stream) {
        unit = next_unit(comparison, random, unit)?;
        untaken.extend(tick);
        let (_, held) = stored::read(&unit.stored, Fault::None);
        let bank = banks::held(&unit.bank);
        let replied = |part: &[u8]| streams::replied(held, Some(&bank), part);
        let length = streams::reply_length(random, &untaken, replied);
        let reply = random.bytes(length);
        if random.percent(10) {
            let spoiled = spoiled_unit(random, &unit);
            comparison.banked_several(&spoiled, &untaken, &reply)?;
        }
        let (report, after, _) = comparison.banked_several(&unit, &untaken, &reply)?;
        untaken.drain(..report.taken);
        unit = after;
    }
    Ok(unit)
}

/// A recording in which kept batches are asked for: its judgement and, now and then, what it tells.
fn one_unjudged(comparison: &mut Comparison, random: &mut Random) -> Result<(), Difference> {
    let recording = kept_batches::recording(random);
    comparison.judge(&recording)?;
    if random.percent(40) {
        comparison.told(&recording)?;
    }
    Ok(())
}

/// The totals of one week, of a stored bank and as text, and a sum written as units.
fn one_week(comparison: &mut Comparison, random: &mut Random) -> Result<(), Difference> {
    let week = weeks::week(random);
    comparison.totals(week.lists(), &weeks::room(random))?;
    let form = banks::form(random);
    comparison.bank_totals(&form, &weeks::room(random))?;
    comparison.totals_text(&form, &weeks::text_room(random))?;
    comparison.units(weeks::sum(random), &out_buffer(random, 64))?;
    if random.percent(5) {
        comparison.bank_and_lists(&banks::bank(random))?;
    }
    Ok(())
}

/// One Modbus request with a bank, without it or both, now and then over a spoiled copy of the unit; before it,
/// now and then, a call of either kind, a panel event, or a value written by Modbus and by PC. Answers the unit
/// to go on with.
fn one_modbus(
    comparison: &mut Comparison,
    random: &mut Random,
    mut unit: Unit,
) -> Result<Unit, Difference> {
    if random.percent(10) {
        unit.stored = stored::form(&modbus::record(random)).to_vec();
    }
    unit = match random.below(20) {
        0 => one_banked_call(comparison, random, unit)?,
        1 => Unit {
            stored: one_call(comparison, random, unit.stored)?,
            ..unit
        },
        2 => Unit {
            stored: one_event(comparison, random, unit.stored)?,
            ..unit
        },
        _ => unit,
    };
    let (_, held) = stored::read(&unit.stored, Fault::None);
    if random.percent(15) {
        let place = modbus::place(random);
        let value = modbus::value(random, &held, place);
        unit.stored = comparison.modbus_and_pc(&unit.stored, place, value)?;
    }
    let request = modbus::request(random, &held);
    let reply = modbus::room(random);
    match random.below(12) {
        0 => {
            let spoiled = spoiled_unit(random, &unit);
            comparison.banked_modbus(&spoiled, &request, &reply)?;
        }
        1 => {
            let form = stored_forms::stored_form(random);
            comparison.modbus(&form, &request, &reply)?;
        }
        _ => {}
    }
    (_, unit.stored, _) = match random.below(4) {
        0 => comparison.modbus_and_banked(&unit, &request, &reply)?,
        1 => comparison.banked_modbus(&unit, &request, &reply)?,
        _ => comparison.modbus(&unit.stored, &request, &reply)?,
    };
    Ok(unit)
}

/// One call over a board, now and then over a spoiled copy of it; answers the board to go on with.
fn one_board(
    comparison: &mut Comparison,
    random: &mut Random,
    mut board: Vec<u8>,
) -> Result<Vec<u8>, Difference> {
    if random.percent(10) {
        board = boards::board(random);
    }
    let (kind, kind_number) = any_kind(random);
    let held = boards::held(random, &board);
    let request = requests::request(random, kind, &held, requests::command);
    let reply = out_buffer(random, 64);
    if random.percent(30) {
        let spoiled = boards::spoiled(random, &board);
        comparison.board(kind_number, &spoiled, &request, &reply)?;
        return Ok(board);
    }
    let (_, after, _) = comparison.board(kind_number, &board, &request, &reply)?;
    Ok(after)
}

/// One drum change against a controller, until it ends or stops, and a reply after that; now and then
/// the reply is not the controller's, or something else acts on it.
fn one_drum_change(comparison: &mut Comparison, random: &mut Random) -> Result<(), Difference> {
    let held = drum_changes::controller(random);
    let picks = drum_changes::picks(random, &held);
    let mut record = stored::form(&held).to_vec();
    let room = drum_changes::state_room(random);
    let (mut answer, mut state, mut request) =
        comparison.drum_begin(picks, &room, &out_buffer(random, 64))?;
    let mut reply = vec![];
    while (1..100).contains(&answer) {
        if random.percent(3) {
            record = one_event(comparison, random, record)?;
        }
        let asked = &request[..answer as usize];
        let (replied, after, laid) = comparison.call(0, &record, asked, &random.bytes(64))?;
        record = after;
        let step = Step::ALL[usize::from(state[STEP]) - 1];
        reply = drum_changes::reply(random, picks, step, reply_laid(replied, &laid));
        (answer, state, request) = one_reply(comparison, random, &state, &reply)?;
    }
    one_reply(comparison, random, &state, &reply)?;
    Ok(())
}

/// Lends a reply to a held state until there is room for the next request, now and then to a spoiled
/// copy of the state before.
fn one_reply(
    comparison: &mut Comparison,
    random: &mut Random,
    state: &[u8],
    reply: &[u8],
) -> Result<(u32, Vec<u8>, Vec<u8>), Difference> {
    if random.percent(20) {
        let spoiled = drum_changes::spoiled(random, state);
        comparison.drum_take(&spoiled, reply, &out_buffer(random, 64))?;
    }
    loop {
        let taken = comparison.drum_take(state, reply, &out_buffer(random, 64))?;
        if taken.0 != SHORT_BUFFER {
            return Ok(taken);
        }
    }
}

/// What a recording tells, now and then; and what one tells that is likely refuted.
fn one_telling(
    comparison: &mut Comparison,
    random: &mut Random,
    recording: &[u8],
) -> Result<(), Difference> {
    if random.percent(20) {
        comparison.told(recording)?;
    }
    if random.percent(40) {
        comparison.told(&refutations::recording(random))?;
    }
    one_set(comparison, random)
}

/// Whether a set has a number, both about limits or of any size.
fn one_set(comparison: &mut Comparison, random: &mut Random) -> Result<(), Difference> {
    let size = |random: &mut Random| random.next() as u32 >> random.below(32);
    let field = match random.below(4) {
        0 => fields::ALARMS,
        _ => random.below(FIELDS + 3),
    };
    let set = match random.below(5) {
        0 => ANY,
        1 => LASTING_ALARMS << 1 | random.below(2) as u32,
        2 => ANY_ALARMS << 1 | random.below(2) as u32,
        _ => size(random),
    };
    let number = match random.below(4) {
        0 => 0,
        1 => random.below(34) as u32,
        2 => set.wrapping_add(random.below(3) as u32).wrapping_sub(1),
        _ => size(random),
    };
    comparison.may_hold(field, set, number)
}

fn host_side(comparison: &mut Comparison, random: &mut Random) -> Result<(), Difference> {
    let (kind, kind_number) = any_kind(random);
    let out = out_buffer(random, 64);
    match random.below(3) {
        0 => comparison.build_and_read(kind_number, &host::text(random), &out),
        1 => {
            let frame = frame::framed(kind, &host::text(random));
            comparison.read_and_build(kind_number, &frame, &out)
        }
        _ => {
            let frame = requests::request(random, kind, &Record::low(), requests::command);
            comparison.read_and_build(kind_number, &frame, &out)
        }
    }
}
