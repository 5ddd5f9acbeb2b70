//! What a recording tells against its definition, by replaying it from every starting record that could
//! matter.
//!
//! A field that a request of the recording looks at or changes starts with every number of its range if
//! these are few, else with those that the recording shows or writes (for the batch number, also as they
//! stand some batches before and after; for the alarms, also one of each sort and what AR leaves of them)
//! and with one other. The other fields start with the numbers of some record, one each, since they stay.
//! Where a kept batch is asked for, the exchanges before that are replayed alone.

use crate::alarms;
use crate::command::{Command, Named};
use crate::controller::{self, Outcome, Request};
use crate::fault::Fault;
use crate::fields::{self, Of, Sort, FIELDS};
use crate::frame::{self, Kind};
use crate::generate::recordings::{self, Exchanges};
use crate::generate::{kept_batches, records, refutations};
use crate::judge_by_definition::{after, kept_batch_asked, shown_number, telling_recording};
use crate::known::{Reason, Told, Untold};
use crate::parameters::factor_place;
use crate::random::Random;
use crate::record::{Phase, Record, HIGHEST_NUMBER, RECIPES};
use crate::recording::{self, Exchange, Recording};
use std::iter;

/// The fields that a command looks at or changes.
fn touched(command: Command) -> Vec<usize> {
    use fields::*;
    match command {
        Command::Status | Command::StatusCodes => vec![
            PHASE,
            KEYPAD,
            FLOW,
            CHANGED,
            BATCH_RESET,
            POWER_FAIL,
            ALARMS,
        ],
        Command::Alarms => vec![ALARMS],
        Command::BatchNumber => vec![NUMBER],
        Command::Recipe => vec![RECIPE],
        Command::RecipeFactor => {
            let factors = (1..=RECIPES).map(|recipe| value(factor_place(recipe)));
            factors.chain([RECIPE]).collect()
        }
        Command::RawTotal => vec![RAW],
        Command::Value(Named { place, .. }) => vec![value(place)],
        Command::Level(Named { place, .. }) => vec![level(place)],
        Command::WriteValue(Named { place, .. }, _) => {
            vec![KEYPAD, level(place), PHASE, value(place), CHANGED]
        }
        Command::WriteLevel(Named { place, .. }, _) => vec![KEYPAD, level(place)],
        Command::WriteRecipe(_) => vec![KEYPAD, PHASE, RECIPE],
        Command::SetBatch(_) => vec![KEYPAD, PHASE, PRESET, RAW, BATCH_RESET, NUMBER],
        Command::Start => vec![KEYPAD, PHASE, ALARMS],
        Command::Stop => vec![PHASE],
        Command::End => vec![KEYPAD, PHASE],
        Command::ClearBatchReset => vec![KEYPAD, BATCH_RESET],
        Command::ClearChanged => vec![KEYPAD, CHANGED],
        Command::ResetAlarms => vec![KEYPAD, ALARMS],
    }
}

fn sorted(mut numbers: Vec<u32>) -> Vec<u32> {
    numbers.sort_unstable();
    numbers.dedup();
    numbers
}

/// The batch number after so many batches more.
fn advanced(number: u32, batches: u32) -> u32 {
    (number - 1 + batches) % u32::from(HIGHEST_NUMBER) + 1
}

fn reply_text<'reply>(exchange: &Exchange<'reply>) -> Option<&'reply [u8]> {
    let text = frame::open(Kind::Minicomputer, exchange.reply, Fault::None);
    text.ok().map(|text| &text[2..])
}

/// A recording with what its requests ask, up to one that asks for a kept batch.
struct Asked<'recording> {
    recording: Recording<'recording>,
    /// Whether there is such a request behind these exchanges.
    not_judged: bool,
    /// None for a request that meets a silence or a refusal whatever the record.
    commands: Vec<Option<Command>>,
}

impl<'recording> Asked<'recording> {
    fn of(bytes: &'recording [u8]) -> Asked<'recording> {
        let mut recording = recording::read(bytes, Fault::None).expect("the form is right");
        let kept_batch = kept_batch_asked(recording.address, &recording.exchanges);
        recording
            .exchanges
            .truncate(kept_batch.unwrap_or(usize::MAX));
        let understood = |exchange: &Exchange| {
            let kind = Kind::Minicomputer;
            controller::understand(recording.address, kind, exchange.request, Fault::None)
        };
        let commands = recording
            .exchanges
            .iter()
            .map(|exchange| match understood(exchange) {
                Request::Asked(command) => Some(command),
                _ => None,
            })
            .collect();
        Asked {
            recording,
            not_judged: kept_batch.is_some(),
            commands,
        }
    }

    /// How often a command of some sort was accepted among the first exchanges.
    fn accepted(&self, exchanges: usize, sort: fn(Command) -> bool) -> u32 {
        let asked = self.commands.iter().zip(&self.recording.exchanges);
        asked
            .take(exchanges)
            .filter(|(command, exchange)| {
                command.is_some_and(sort) && reply_text(exchange) == Some(b"OK")
            })
            .count() as u32
    }

    /// The numbers of a field that the recording shows or writes.
    fn mentioned(&self, field: usize) -> Vec<u32> {
        let mut numbers = vec![];
        for (command, exchange) in self.commands.iter().zip(&self.recording.exchanges) {
            let Some(command) = *command else { continue };
            numbers.extend(match command {
                Command::BatchNumber if field == fields::NUMBER => shown_number(exchange, 4),
                Command::RawTotal if field == fields::RAW => shown_number(exchange, 8),
                Command::RecipeFactor | Command::Value(_) if touched(command).contains(&field) => {
                    shown_number(exchange, 8)
                }
                Command::WriteValue(Named { place, .. }, value)
                    if field == fields::value(place) =>
                {
                    Some(value)
                }
                Command::SetBatch(preset) if field == fields::PRESET => Some(preset),
                Command::SetBatch(_) if field == fields::RAW => Some(0),
                Command::Alarms if field == fields::ALARMS => {
                    reply_text(exchange).and_then(alarms::shown)
                }
                _ => None,
            });
        }
        numbers
    }

    /// The numbers that a field which is looked at or changed starts with.
    fn starting(&self, field: usize, base: &Record) -> Vec<u32> {
        let (low, high) = fields::range(field);
        if fields::sort(field) == Sort::Few {
            return (low..=high).collect();
        }
        let mut numbers = self.mentioned(field);
        let mut others = iter::once(fields::number(base, field)).chain(low..=high);
        numbers.extend(others.find(|other| !numbers.contains(other)));
        if field == fields::ALARMS {
            let (resettable, lasting) = (alarms::numbered(12), alarms::numbered(1));
            numbers.extend([0, resettable, lasting, resettable | lasting]);
            let left = numbers.iter().map(|&shown| shown & alarms::LASTING);
            numbers.extend(left.collect::<Vec<_>>());
        }
        numbers.retain(|number| (low..=high).contains(number));
        if field == fields::NUMBER {
            let batches = self.accepted(usize::MAX, |command| {
                matches!(command, Command::SetBatch(_))
            });
            let others = u32::from(HIGHEST_NUMBER);
            let about = |&number: &u32| {
                (0..=batches)
                    .flat_map(move |by| [advanced(number, by), advanced(number, others - by)])
            };
            numbers = numbers.iter().flat_map(about).collect();
        }
        sorted(numbers)
    }

    /// For each field the numbers to start with.
    fn universe(&self, base: &Record) -> Of<Vec<u32>> {
        let asked: Vec<Command> = self.commands.iter().flatten().copied().collect();
        fields::each(|field| {
            if asked
                .iter()
                .any(|&command| touched(command).contains(&field))
            {
                self.starting(field, base)
            } else {
                vec![fields::number(base, field)]
            }
        })
    }

    /// The numbers that a field may have after the first exchanges, if it starts with one of these.
    fn reached(&self, field: usize, starting: &[u32], exchanges: usize) -> Vec<u32> {
        let numbers = starting.iter();
        sorted(match field {
            fields::NUMBER => {
                let batches =
                    self.accepted(exchanges, |command| matches!(command, Command::SetBatch(_)));
                numbers.map(|&number| advanced(number, batches)).collect()
            }
            fields::ALARMS
                if self.accepted(exchanges, |command| command == Command::ResetAlarms) > 0 =>
            {
                numbers.map(|&on| on & alarms::LASTING).collect()
            }
            _ => starting.to_vec(),
        })
    }
}

fn put(record: &mut Record, field: usize, number: u32) {
    match field {
        fields::ADDRESS => record.address = number as u8,
        fields::ACCESS => record.access = number as u8,
        fields::PHASE => record.phase = Phase::ALL[number as usize],
        fields::KEYPAD => record.keypad = number == 1,
        fields::FLOW => record.flow = number == 1,
        fields::CHANGED => record.changed = number == 1,
        fields::BATCH_RESET => record.batch_reset = number == 1,
        fields::POWER_FAIL => record.power_fail = number == 1,
        fields::RECIPE => record.recipe = number as u8,
        fields::PRESET => record.preset = number,
        fields::RAW => record.raw = number,
        fields::NUMBER => record.number = number as u16,
        fields::ALARMS => record.alarms = number,
        _ => match (fields::value_place(field), fields::level_place(field)) {
            (Some(place), _) => record.parameters[place].value = number,
            (_, Some(place)) => record.parameters[place].level = number as u8,
            _ => panic!("there is no field {field}"),
        },
    }
}

/// Every record whose fields have these numbers, or none if there are more than so many.
fn every_record(base: &Record, universe: &Of<Vec<u32>>, most: usize) -> Option<Vec<Record>> {
    let mut records = vec![*base];
    for (field, numbers) in universe.iter().enumerate() {
        if records.len() * numbers.len() > most {
            return None;
        }
        let (first, others) = numbers.split_first().expect("a field has a number");
        let mut spread = vec![];
        for record in &mut records {
            put(record, field, *first);
            spread.extend(others.iter().map(|&number| {
                let mut other = *record;
                put(&mut other, field, number);
                other
            }));
        }
        records.append(&mut spread);
    }
    Some(records)
}

/// What was found of a recording.
#[derive(Clone, Copy, PartialEq, Eq, Debug)]
enum Found {
    Fits,
    Refuted(usize),
    NotJudged,
}

/// Holds what is told of a recording against its definition; none if there are more than so many starting
/// records.
fn agrees(bytes: &[u8], base: &Record, most: usize, fault: Fault) -> Option<Result<Found, String>> {
    let asked = Asked::of(bytes);
    let base = Record {
        address: asked.recording.address,
        access: asked.recording.access,
        ..*base
    };
    let universe = asked.universe(&base);
    let records = every_record(&base, &universe, most)?;
    let told = Told::by(bytes, fault);
    Some(replayed(&asked, &base, &universe, records, &told, fault))
}

fn replayed(
    asked: &Asked,
    base: &Record,
    universe: &Of<Vec<u32>>,
    mut records: Vec<Record>,
    told: &Told,
    fault: Fault,
) -> Result<Found, String> {
    same_product(asked, universe, &records, told, 0, fault)?;
    for (before, exchange) in asked.recording.exchanges.iter().enumerate() {
        let place = before + 1;
        let pair = (exchange.request, exchange.reply);
        let mut left: Vec<Record> = records
            .iter()
            .filter_map(|&record| after(record, pair))
            .collect();
        left.sort_unstable();
        left.dedup();
        if left.is_empty() {
            if told.ended_at() != Some(place) || told.is_not_judged() {
                return Err(format!("refuted at {place}"));
            }
            return right_reason(asked, base, universe, told, place, fault)
                .map(|()| Found::Refuted(place));
        }
        same_product(asked, universe, &left, told, place, fault)?;
        records = left;
    }
    match told.ended_at() {
        None if !asked.not_judged => Ok(Found::Fits),
        _ if asked.not_judged => not_judged(asked, told, fault),
        ended => Err(format!("ended at {ended:?}")),
    }
}

/// From the request for a kept batch on nothing is told but where it is.
fn not_judged(asked: &Asked, told: &Told, fault: Fault) -> Result<Found, String> {
    let place = asked.recording.exchanges.len() + 1;
    let known = |exchanges| told.known(exchanges, FIELDS, fault);
    let why = told.why(fault);
    let right = known(place - 1).is_ok()
        && [place, place + 1, usize::MAX]
            .iter()
            .all(|&exchanges| known(exchanges) == Err(Untold::NotJudged(place)))
        && why == Ok(Some((place, Reason::KeptBatch)));
    match right {
        true => Ok(Found::NotJudged),
        false => Err(format!("not judged at {place}, but why {why:?}")),
    }
}

/// The records are just those of the universe whose every field is in its set.
fn same_product(
    asked: &Asked,
    universe: &Of<Vec<u32>>,
    records: &[Record],
    told: &Told,
    exchanges: usize,
    fault: Fault,
) -> Result<(), String> {
    let Ok(sets) = told.known(exchanges, FIELDS, fault) else {
        return Err(format!("not refuted after {exchanges}"));
    };
    let mut product = 1;
    for field in 0..FIELDS {
        let mut numbers = asked.reached(field, &universe[field], exchanges);
        numbers.retain(|&number| sets[field].has(field, number));
        let mut held = vec![false; numbers.len()];
        for record in records {
            let number = fields::number(record, field);
            match numbers.binary_search(&number) {
                Ok(place) => held[place] = true,
                Err(_) => return Err(format!("field {field} after {exchanges}: {number} is held")),
            }
        }
        if let Some(place) = held.iter().position(|&held| !held) {
            let number = numbers[place];
            return Err(format!(
                "field {field} after {exchanges}: {number} is not held"
            ));
        }
        product *= numbers.len();
    }
    if product != records.len() {
        return Err(format!(
            "after {exchanges}: {product} told, {} held",
            records.len()
        ));
    }
    Ok(())
}

/// The reason is the right one for what may be held before the exchange.
fn right_reason(
    asked: &Asked,
    base: &Record,
    universe: &Of<Vec<u32>>,
    told: &Told,
    place: usize,
    fault: Fault,
) -> Result<(), String> {
    let exchange = asked.recording.exchanges[place - 1];
    let reason = match told.why(fault) {
        Ok(Some((told_place, reason))) if told_place == place => reason,
        other => return Err(format!("why {other:?}, refuted at {place}")),
    };
    let mut buffer = [0; 64];
    let kind = Kind::Minicomputer;
    let (outcome, _) = controller::call(*base, kind, exchange.request, &mut buffer, Fault::None);
    let expected = match outcome {
        Outcome::Silence(number) => Reason::ReplyToSilence(number),
        Outcome::Reply(_) if exchange.reply.is_empty() => Reason::NoReply,
        Outcome::Reply(_) => match asked.commands[place - 1] {
            None => Reason::NoRecord,
            Some(command) => {
                return right_field(command, exchange, base, universe, told, place, reason);
            }
        },
    };
    if reason == expected {
        return Ok(());
    }
    Err(format!("{reason:?}, but {expected:?}"))
}

/// The field is the first of which the records that give this reply have no number that is possible.
fn right_field(
    command: Command,
    exchange: Exchange,
    base: &Record,
    universe: &Of<Vec<u32>>,
    told: &Told,
    place: usize,
    reason: Reason,
) -> Result<(), String> {
    let looked_at = touched(command);
    let few: Of<Vec<u32>> = fields::each(|field| match looked_at.contains(&field) {
        true => universe[field].clone(),
        false => vec![fields::number(base, field)],
    });
    let mut giving = every_record(base, &few, usize::MAX).expect("there is no limit");
    giving.retain(|&record| after(record, (exchange.request, exchange.reply)).is_some());
    let Ok(sets) = told.known(place - 1, FIELDS, Fault::None) else {
        return Err(format!("refuted before {place}"));
    };
    let refutes = |field: &usize| {
        let possible = |record: &Record| sets[*field].has(*field, fields::number(record, *field));
        looked_at.contains(field) && !giving.iter().any(possible)
    };
    let named = (0..FIELDS).find(refutes);
    let right = match (reason, named) {
        (Reason::NoRecord, _) => giving.is_empty(),
        (
            Reason::Field {
                field,
                held,
                needed,
            },
            Some(named),
        ) => {
            let mut needs: Vec<u32> = few[field].clone();
            needs.retain(|&number| needed.has(field, number));
            let given = giving.iter().map(|record| fields::number(record, field));
            !giving.is_empty()
                && field == named
                && held == sets[field]
                && needs == sorted(given.collect())
        }
        _ => false,
    };
    if right {
        return Ok(());
    }
    Err(format!("{reason:?}, but field {named:?}"))
}

/// Exchanges with one controller, and then with another that has the same address and access.
fn exchanged_controllers(random: &mut Random) -> Vec<u8> {
    let first = records::record(random);
    let mut second = records::record(random);
    (second.address, second.access) = (first.address, first.access);
    let mut exchanges = Exchanges::new();
    for mut record in [first, second] {
        let command = random.pick(&["EQ", "RS", "SA", "SB 1", "RE PC", "EA"]);
        let text = format!("{:02}{command}", record.address);
        let request = frame::framed(Kind::Minicomputer, text.as_bytes());
        exchanges.push(recordings::exchange(&mut record, request));
    }
    recording::build(first.address, first.access, &exchanges)
}

fn any_recording(random: &mut Random) -> Vec<u8> {
    match random.below(9) {
        0 | 1 => telling_recording(random, 5),
        2 | 3 => recordings::adversarial(random, 12),
        4 | 5 => exchanged_controllers(random),
        6 => {
            let bytes = exchanged_controllers(random);
            kept_batches::with_kept_batches(random, bytes)
        }
        _ => loop {
            let bytes = refutations::recording(random);
            if recording::read(&bytes, Fault::None).is_ok() {
                return bytes;
            }
        },
    }
}

/// Holds random recordings against the definition; answers how many fit, how many were refuted, how many of
/// these behind two exchanges at least, and how many were not judged.
fn compare(seed: u64, wanted: usize, most: usize) -> (usize, usize, usize, usize) {
    let mut random = Random::new(seed);
    let (mut fits, mut refuted, mut behind_two, mut not_judged) = (0, 0, 0, 0);
    while fits + refuted + not_judged < wanted {
        let bytes = any_recording(&mut random);
        let base = records::record(&mut random);
        match agrees(&bytes, &base, most, Fault::None) {
            None => {}
            Some(Ok(Found::Fits)) => fits += 1,
            Some(Ok(Found::Refuted(place))) => {
                refuted += 1;
                behind_two += usize::from(place > 2);
            }
            Some(Ok(Found::NotJudged)) => not_judged += 1,
            Some(Err(text)) => panic!("{text}\n{bytes:02X?}"),
        }
    }
    (fits, refuted, behind_two, not_judged)
}

#[test]
fn random_recordings() {
    let (fits, refuted, behind_two, not_judged) = compare(1, 1_500, 8_000);
    let enough = fits > 400 && refuted > 300 && behind_two > 100 && not_judged > 100;
    assert!(
        enough,
        "{fits} fit, {refuted} refuted, {behind_two}, {not_judged} not judged"
    );
}

/// Minutes long; run with `--ignored`.
#[test]
#[ignore]
fn many_recordings() {
    compare(5, 20_000, 8_000);
    compare(6, 2_000, 200_000);
}

/// Every sequence of up to so many of these exchanges.
fn sequences(exchanges: &[(&str, &str)], most: usize) -> usize {
    let text = |text: &str| frame::framed(Kind::Minicomputer, format!("01{text}").as_bytes());
    let pairs = exchanges.iter();
    let exchanges: Exchanges = pairs
        .map(|(request, reply)| (text(request), text(reply)))
        .collect();
    let mut random = Random::new(2);
    let mut checked = 0;
    let mut ahead: Vec<Exchanges> = vec![vec![]];
    while let Some(before) = ahead.pop() {
        let bytes = recording::build(1, 2, &before);
        let base = records::record(&mut random);
        match agrees(&bytes, &base, usize::MAX, Fault::None) {
            Some(Ok(Found::Fits)) if before.len() < most => {
                ahead.extend(exchanges.iter().map(|exchange| {
                    let mut further = before.clone();
                    further.push(exchange.clone());
                    further
                }));
            }
            Some(Ok(_)) => {}
            Some(Err(text)) => panic!("{text}\n{bytes:02X?}"),
            None => unreachable!("there is no limit"),
        }
        checked += 1;
    }
    checked
}

#[test]
fn sequences_about_alarms() {
    let checked = sequences(
        &[
            ("EQ", "100000"),
            ("EQ", "101000"),
            ("EA", "80100"),
            ("AR", "OK"),
            ("SA", "NO09"),
        ],
        4,
    );
    assert!(checked > 100, "{checked}");
}

#[test]
fn sequences_about_levels_and_values() {
    let checked = sequences(
        &[
            ("PC 032 9000", "OK"),
            ("PC 032 9000", "NO07"),
            ("PC 032 9001", "NO05"),
            ("XC 032 1", "OK"),
            ("XC 032 3", "NO07"),
            ("XV 032", "XV 032 1"),
            ("PV 032", "PV 032 00009001"),
            ("RE PC", "OK"),
        ],
        3,
    );
    assert!(checked > 200, "{checked}");
}

#[test]
fn sequences_about_batches_and_recipes() {
    let checked = sequences(
        &[
            ("SB 500", "OK"),
            ("SB 7", "NO05"),
            ("TN", "TN 0001"),
            ("TN", "TN 9999"),
            ("ET", "OK"),
            ("RT R", "RT R 00000000"),
        ],
        3,
    );
    assert!(checked > 100, "{checked}");
    let checked = sequences(
        &[
            ("RC", "RC 03 00009000"),
            ("RC", "RC 04 00009000"),
            ("NR 03", "OK"),
            ("RR", "RR 04"),
            ("SP", "NO05"),
        ],
        3,
    );
    assert!(checked > 50, "{checked}");
}

/// The definition has power: it notices each planted fault that has a set or a reason wrong.
#[test]
fn faults_are_noticed() {
    for fault in [
        Fault::LevelSetTooWide,
        Fault::PhaseSetTooNarrow,
        Fault::RecipeSetWithoutLast,
        Fault::KnownValueTakenForAny,
        Fault::AnyRawTakenForZero,
        Fault::PresetForgottenByBatch,
        Fault::SeenAlarmMayBeNone,
        Fault::LastingNotTold,
        Fault::KnownOneBehind,
        Fault::LaterRefutationTold,
        Fault::LastFieldNamed,
        Fault::OpenFieldNamed,
        Fault::HeldAtTheBeginning,
        Fault::NeededPhaseAlone,
        Fault::NeededAfterChange,
        Fault::FormTakenForAddress,
        Fault::SilenceTakenForNoRecord,
        Fault::ImpossibleTakenForField,
        Fault::WhyFromZero,
        Fault::LaterKeptBatchTold,
        Fault::KnownBehindKeptBatch,
        Fault::KeptBatchToldAsRefuted,
        Fault::UnjudgedTakenForFits,
        Fault::UnjudgedTakenForNoRecord,
    ] {
        let mut random = Random::new(3);
        let noticed = (0..4_000).any(|_| {
            let bytes = any_recording(&mut random);
            let base = records::record(&mut random);
            agrees(&bytes, &base, 2_000, fault).is_some_and(|result| result.is_err())
        });
        assert!(noticed, "{fault:?}");
    }
}
