//! The judge against its definition, by replaying recordings from every starting record that could
//! matter.
//!
//! A recording of few commands looks at few fields. Those are enumerated in full but for the wide
//! ones, of which the numbers in the recording (for the batch number, also as they stood some batches
//! before; for a value, those shown and those written) and one other are taken; and for the alarms, of
//! which those that the recording shows are taken, each also as it may have been before AR, and one of
//! each sort. Where a kept batch is asked for, the exchanges before that are replayed alone. The
//! controller has a bank, and any is as good as an empty one: nothing that is replayed asks for what it
//! keeps.

use crate::alarms;
use crate::bank::Bank;
use crate::command::{Command, Named};
use crate::controller::{self, Outcome, Request};
use crate::fault::{Fault, PLANTED};
use crate::frame::{self, Kind};
use crate::generate::recordings::{self, Exchanges};
use crate::generate::{kept_batches, records, requests};
use crate::judge::{judge, Judgement};
use crate::parameters::{factor_place, is_factor, PARAMETERS, VALUE_RANGES};
use crate::random::Random;
use crate::record::{Phase, Record, RECIPES};
use crate::recording::{self, Exchange};

/// The record after an exchange, if the exchange agrees.
pub fn after(record: Record, (request, reply): (&[u8], &[u8])) -> Option<Record> {
    let mut buffer = [0; 64];
    let (outcome, after) = controller::banked_call(
        record,
        &mut Bank::default(),
        Kind::Minicomputer,
        request,
        &mut buffer,
        Fault::None,
    );
    let length = match outcome {
        Outcome::Silence(_) => 0,
        Outcome::Reply(length) => length,
    };
    (buffer[..length] == *reply).then_some(after)
}

/// The place of the first exchange, from 0, whose request is a good frame to this address with RT R and
/// three digits.
pub fn kept_batch_asked(address: u8, exchanges: &[Exchange]) -> Option<usize> {
    let asking = format!("{address:02}RT R ");
    let asks = |exchange: &Exchange| {
        let text = frame::open(Kind::Minicomputer, exchange.request, Fault::None);
        let number = text
            .ok()
            .and_then(|text| text.strip_prefix(asking.as_bytes()));
        number.is_some_and(|number| number.len() == 3 && number.iter().all(u8::is_ascii_digit))
    };
    exchanges.iter().position(asks)
}

/// How many exchanges agree from this record, before the first that does not.
fn agreeing(mut record: Record, exchanges: &[Exchange]) -> usize {
    for (place, exchange) in exchanges.iter().enumerate() {
        match after(record, (exchange.request, exchange.reply)) {
            Some(after) => record = after,
            None => return place,
        }
    }
    exchanges.len()
}

/// The number in so many digits that a reply ends with.
pub fn shown_number(exchange: &Exchange, width: usize) -> Option<u32> {
    let start = exchange.reply.len().checked_sub(3 + width)?;
    let digits = std::str::from_utf8(&exchange.reply[start..start + width]).ok()?;
    digits.parse().ok()
}

fn sorted<Item: Ord>(mut items: Vec<Item>) -> Vec<Item> {
    items.sort_unstable();
    items.dedup();
    items
}

/// The numbers that replies to such commands show.
fn shown_numbers(
    asked: &[(Command, Exchange)],
    width: usize,
    shows: impl Fn(Command) -> bool,
) -> Vec<u32> {
    let replies = asked.iter().filter(|(command, _)| shows(*command));
    sorted(
        replies
            .filter_map(|(_, exchange)| shown_number(exchange, width))
            .collect(),
    )
}

/// The values to start with at a place: those that are shown or written there, and one other, if the
/// range has one. Two others are never told apart.
fn starting_values(asked: &[(Command, Exchange)], place: usize) -> Vec<u32> {
    let mut values = shown_numbers(asked, 8, |command| match command {
        Command::Value(parameter) => parameter.place == place,
        Command::RecipeFactor => is_factor(place),
        _ => false,
    });
    values.extend(asked.iter().filter_map(|(command, _)| match *command {
        Command::WriteValue(parameter, value) if parameter.place == place => Some(value),
        _ => None,
    }));
    let (low, high) = VALUE_RANGES[place];
    values.extend((low..=high).find(|value| !values.contains(value)));
    sorted(values)
}

/// The alarms to start with: two starts that show the same, or that show nothing in this recording,
/// differ only in whether any alarm is on and, if there is an AR, whether a lasting one is.
fn starting_alarms(asked: &[(Command, Exchange)]) -> Vec<u32> {
    let (resettable, lasting) = (alarms::numbered(12), alarms::numbered(1));
    let mut starts = vec![0, resettable];
    for (command, exchange) in asked {
        if *command == Command::ResetAlarms {
            starts.extend([lasting, resettable | lasting]);
        }
        let text = frame::open(Kind::Minicomputer, exchange.reply, Fault::None);
        if let Some(shown) = text.ok().and_then(|text| alarms::shown(&text[2..])) {
            starts.extend([shown, shown | resettable]);
        }
    }
    sorted(starts)
}

/// Flow and power fail as a reply shows them.
fn shown_flow_and_power_fail((command, exchange): &(Command, Exchange)) -> Option<(bool, bool)> {
    let text = frame::open(Kind::Minicomputer, exchange.reply, Fault::None).ok()?;
    match command {
        Command::Status => Some((text.get(2)? & 2 != 0, text.get(5)? & 1 != 0)),
        Command::StatusCodes => {
            let shows = |code: &[u8; 3]| text.windows(3).any(|part| part == code);
            Some((shows(b"FL "), shows(b"PF ")))
        }
        _ => None,
    }
}

/// Flow and power fail to start with: no request changes them, so from others than those shown no
/// reply that shows them agrees.
fn starting_flow_and_power_fail(asked: &[(Command, Exchange)]) -> Vec<(bool, bool)> {
    let shown = sorted(asked.iter().filter_map(shown_flow_and_power_fail).collect());
    if shown.is_empty() {
        vec![(false, false)]
    } else {
        shown
    }
}

/// The batch numbers to start with: those shown, also as they stood some batches before, and another.
fn starting_batch_numbers(asked: &[(Command, Exchange)]) -> Vec<u32> {
    let batches = asked
        .iter()
        .filter(|(command, _)| matches!(command, Command::SetBatch(_)))
        .count() as u32;
    let mut numbers = vec![5_000];
    for number in shown_numbers(asked, 4, |command| command == Command::BatchNumber) {
        if (1..=9_999).contains(&number) {
            numbers.extend((0..=batches).map(|before| (number + 9_999 - 1 - before) % 9_999 + 1));
        }
    }
    sorted(numbers)
}

/// Every record with one more field taken through these numbers.
fn spread<Number: Copy>(
    records: Vec<Record>,
    numbers: &[Number],
    put: impl Fn(&mut Record, Number),
) -> Vec<Record> {
    let mut spread = Vec::with_capacity(records.len() * numbers.len());
    for record in records {
        for &number in numbers {
            let mut record = record;
            put(&mut record, number);
            if record.is_valid() {
                spread.push(record);
            }
        }
    }
    spread
}

/// The starting records, or none if they are more than can be gone through.
fn starting_records(address: u8, access: u8, exchanges: &[Exchange]) -> Option<Vec<Record>> {
    const MOST: usize = 150_000;
    let asked: Vec<(Command, Exchange)> = exchanges
        .iter()
        .filter_map(|exchange| {
            match controller::understand(address, Kind::Minicomputer, exchange.request, Fault::None)
            {
                Request::Asked(command) => Some((command, *exchange)),
                _ => None,
            }
        })
        .collect();
    let asks = |wanted: &[Command]| asked.iter().any(|(command, _)| wanted.contains(command));
    let flags_shown = asks(&[Command::Status, Command::StatusCodes]);
    let factor_shown = asks(&[Command::RecipeFactor]);
    let mut records = vec![Record {
        address,
        access,
        ..Record::low()
    }];
    let flags = [false, true];
    records = spread(records, &Phase::ALL, |record, phase| record.phase = phase);
    records = spread(records, &flags, |record, on| record.keypad = on);
    if flags_shown {
        records = spread(records, &flags, |record, on| record.changed = on);
        records = spread(records, &flags, |record, on| record.batch_reset = on);
        let pairs = starting_flow_and_power_fail(&asked);
        records = spread(records, &pairs, |record, (flow, power_fail)| {
            record.flow = flow;
            record.power_fail = power_fail;
        });
    }
    if flags_shown || asks(&[Command::Alarms, Command::Start]) {
        records = spread(records, &starting_alarms(&asked), |record, alarms| {
            record.alarms = alarms;
        });
    }
    if factor_shown || asks(&[Command::Recipe]) {
        let recipes: Vec<u8> = (1..=RECIPES).collect();
        records = spread(records, &recipes, |record, recipe| record.recipe = recipe);
    }
    if asks(&[Command::RawTotal]) {
        let shown = shown_numbers(&asked, 8, |command| command == Command::RawTotal);
        let numbers = [&shown[..], &[77]].concat();
        records = spread(records, &numbers, |record, raw| record.raw = raw);
    }
    if asks(&[Command::BatchNumber]) {
        records = spread(
            records,
            &starting_batch_numbers(&asked),
            |record, number| record.number = number as u16,
        );
    }
    let mut levels_seen = [false; PARAMETERS];
    let mut values_seen = [false; PARAMETERS];
    for (command, _) in &asked {
        match *command {
            Command::Value(Named { place, .. }) => values_seen[place] = true,
            Command::Level(Named { place, .. }) | Command::WriteLevel(Named { place, .. }, _) => {
                levels_seen[place] = true;
            }
            Command::WriteValue(Named { place, .. }, _) => {
                levels_seen[place] = true;
                // The flag tells of the value that was written over.
                values_seen[place] |= flags_shown;
            }
            Command::WriteRecipe(recipe) => values_seen[factor_place(recipe)] |= factor_shown,
            _ => {}
        }
    }
    for place in 0..PARAMETERS {
        if records.len() > MOST {
            return None;
        }
        if levels_seen[place] {
            records = spread(records, &[0, 1, 2, 3], |record, level| {
                record.parameters[place].level = level;
            });
        }
        let (seen, unseen): (Vec<_>, Vec<_>) = records.into_iter().partition(|record| {
            values_seen[place] || factor_shown && factor_place(record.recipe) == place
        });
        records = spread(seen, &starting_values(&asked, place), |record, value| {
            record.parameters[place].value = value;
        });
        records.extend(unseen);
    }
    (records.len() <= MOST).then_some(records)
}

fn by_definition(bytes: &[u8]) -> Option<Judgement> {
    let recording = match recording::read(bytes, Fault::None) {
        Ok(recording) => recording,
        Err(number) => return Some(Judgement::Refused(number)),
    };
    let count = recording.exchanges.len();
    let asked = kept_batch_asked(recording.address, &recording.exchanges);
    let judged = &recording.exchanges[..asked.unwrap_or(count)];
    let best = starting_records(recording.address, recording.access, judged)?
        .into_iter()
        .map(|record| agreeing(record, judged))
        .max()?;
    let place = best + 1;
    Some(if best < judged.len() {
        Judgement::Refuted { place, count }
    } else if asked.is_some() {
        Judgement::NotJudged { place, count }
    } else {
        Judgement::Fits { count }
    })
}

/// A recording of up to so many commands, or of some in an order that tells; in some of them kept batches
/// are asked for.
pub fn telling_recording(random: &mut Random, longest: u32) -> Vec<u8> {
    let bytes = if random.percent(30) {
        recordings::ordered(random)
    } else {
        recordings::adversarial(random, longest)
    };
    if random.percent(25) {
        kept_batches::with_kept_batches(random, bytes)
    } else {
        bytes
    }
}

/// Judges random recordings both ways; answers how many fit, were refuted and were not judged.
fn compare(seed: u64, wanted: usize, longest: u32) -> (usize, usize, usize) {
    let mut random = Random::new(seed);
    let (mut fits, mut refuted, mut not_judged) = (0, 0, 0);
    while fits + refuted + not_judged < wanted {
        let bytes = telling_recording(&mut random, longest);
        let Some(expected) = by_definition(&bytes) else {
            continue;
        };
        assert_eq!(judge(&bytes, Fault::None), expected, "{bytes:02X?}");
        match expected {
            Judgement::Fits { .. } => fits += 1,
            Judgement::Refuted { .. } => refuted += 1,
            Judgement::NotJudged { .. } => not_judged += 1,
            Judgement::Refused(_) => panic!("the form is right"),
        }
    }
    (fits, refuted, not_judged)
}

#[test]
fn short_recordings() {
    let (fits, refuted, not_judged) = compare(1, 1_500, 5);
    let enough = fits > 100 && refuted > 100 && not_judged > 100;
    assert!(
        enough,
        "{fits} fit, {refuted} refuted, {not_judged} not judged"
    );
}

#[test]
fn longer_recordings() {
    let (fits, refuted, not_judged) = compare(2, 600, 25);
    let enough = fits > 50 && refuted > 50 && not_judged > 30;
    assert!(
        enough,
        "{fits} fit, {refuted} refuted, {not_judged} not judged"
    );
}

/// Judges every sequence of up to so many of these exchanges both ways, as long as it fits; answers how
/// many. The records are those to which the exchanges before it have led.
fn compare_sequences(
    exchanges: &Exchanges,
    most: usize,
    before: &mut Exchanges,
    records: &[Record],
) -> usize {
    let mut judged = 0;
    for (request, reply) in exchanges {
        before.push((request.clone(), reply.clone()));
        let left: Vec<Record> = records
            .iter()
            .filter_map(|&record| after(record, (request, reply)))
            .collect();
        let count = before.len();
        let expected = if left.is_empty() {
            Judgement::Refuted {
                place: count,
                count,
            }
        } else {
            Judgement::Fits { count }
        };
        let bytes = recording::build(1, 2, before);
        assert_eq!(judge(&bytes, Fault::None), expected, "{bytes:02X?}");
        judged += 1;
        if !left.is_empty() && count < most {
            judged += compare_sequences(exchanges, most, before, &left);
        }
        before.pop();
    }
    judged
}

/// Judges the sequences of these exchanges, from every record that could matter to one of them.
fn judged_sequences(exchanges: &[(&str, &str)], most: usize) -> usize {
    let text = |text: &str| frame::framed(Kind::Minicomputer, format!("01{text}").as_bytes());
    let exchanges: Exchanges = exchanges
        .iter()
        .map(|(request, reply)| (text(request), text(reply)))
        .collect();
    let bytes = recording::build(1, 2, &exchanges);
    let recording = recording::read(&bytes, Fault::None).unwrap();
    let records = starting_records(1, 2, &recording.exchanges).unwrap();
    compare_sequences(&exchanges, most, &mut vec![], &records)
}

#[test]
fn sequences_about_alarms() {
    let exchanges = [
        ("EQ", "100000"),
        ("EQ", "101000"),
        ("EA", "80000"),
        ("EA", "80100"),
        ("AR", "OK"),
        ("SA", "OK"),
        ("SA", "NO09"),
    ];
    let judged = judged_sequences(&exchanges, 5);
    assert!(judged > 1_000, "{judged}");
}

/// Over a value of many and over one of two.
#[test]
fn sequences_about_the_changed_flag() {
    for (code, held, other) in [("032", 9_000, 12_000), ("806", 0, 1)] {
        let exchanges = [
            ("EQ", "000000"),
            ("RS", "RS PC "),
            ("RE PC", "OK"),
            (&format!("PC {code} {held}"), "OK"),
            (&format!("PC {code} {other}"), "OK"),
            (&format!("PV {code}"), &format!("PV {code} {held:08}")),
        ];
        let judged = judged_sequences(&exchanges, 4);
        assert!(judged > 1_000, "{judged}");
    }
}

/// Minutes long; run with `--ignored`.
#[test]
#[ignore]
fn many_recordings() {
    compare(5, 40_000, 6);
    compare(6, 10_000, 30);
}

/// The comparison above has power: it notices each planted fault that is the judge's alone.
#[test]
fn faults_of_the_judge_are_noticed() {
    let place = |sought| PLANTED.iter().position(|&(fault, _)| fault == sought);
    let first = place(Fault::CountUpToRefutation).unwrap();
    let last = place(Fault::UnjudgedNotCounted).unwrap();
    for &(fault, name) in &PLANTED[first..=last] {
        let mut random = Random::new(4);
        let noticed = (0..20_000).any(|_| {
            let bytes = telling_recording(&mut random, 8);
            let faulty = judge(&bytes, fault);
            faulty != judge(&bytes, Fault::None)
                && by_definition(&bytes).is_some_and(|expected| expected != faulty)
        });
        assert!(noticed, "{name}");
    }
}

/// Whatever the record, a recording of its own replies fits.
#[test]
fn honest_recordings_fit() {
    let mut random = Random::new(3);
    for _ in 0..100 {
        let record = records::record(&mut random);
        let bytes = recordings::long(&mut random, record, requests::command, 3_000);
        let count = recording::read(&bytes, Fault::None)
            .unwrap()
            .exchanges
            .len();
        assert_eq!(judge(&bytes, Fault::None), Judgement::Fits { count });
    }
}
