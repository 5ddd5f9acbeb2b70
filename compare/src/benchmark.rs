//! The library beside this program on the same inputs: times, which are of one run and test nothing,
//! or a fixed amount of work for callgrind to count the instructions of. The inputs are of document
//! 01, without alarms, so that the numbers of one delivery can be held against another's; those with a bank
//! come behind these, then totals, and Modbus last.

use crate::bank::MOST_BATCHES;
use crate::board::MOST_RECORDS;
use crate::fault::Fault;
use crate::frame::{self, Kind, ETX, LEAST_BUFFER, STX};
use crate::generate::banks;
use crate::generate::recordings;
use crate::generate::records::record_without_alarms;
use crate::generate::requests::{self, command_of_document_01, Commands};
use crate::generate::weeks;
use crate::interface::TEXT_ROOM;
use crate::modbus::{self, read_request, write_request, PAIR, REGISTERS, REPLY_ROOM};
use crate::parameters::{PARAMETERS, VALUE_RANGES};
use crate::random::Random;
use crate::record::{Phase, Record};
use crate::stored::{self, STORED_LENGTH};
use crate::totals::RECIPES;
use crate::{interface, library};
use std::hint::black_box;
use std::time::{Duration, Instant};

/// Whatever the record holds, so that the requests stay the same.
const COMMANDS: Commands = |random, _| command_of_document_01(random);

/// The same work for both, by turns.
struct Class {
    name: String,
    unit: &'static str,
    /// How many of the unit one turn is.
    units: usize,
    library: Box<dyn FnMut()>,
    second: Box<dyn FnMut()>,
}

fn classes(seed: u64) -> Vec<Class> {
    let mut random = Random::new(seed);
    let mut classes = calls(&mut random);
    classes.push(conversion(&mut random));
    for length in [1_000, 8_000, 65_535] {
        classes.push(judged(&mut random, length));
    }
    for length in [8_192, 65_536] {
        classes.extend(streams(&mut random, length));
    }
    for count in [2, MOST_RECORDS] {
        classes.push(board(&mut random, count));
    }
    classes.push(banked(&mut random));
    classes.push(added_up(&mut random));
    classes.push(printed(&mut random));
    classes.extend(modbus(&mut random));
    classes
}

type Mix = (&'static str, Vec<Vec<u8>>);

const READS: [&str; 8] = ["EQ", "RS", "TN", "RR", "RC", "RT R", "PV 032", "XV 807"];
const WRITES: [&str; 8] = [
    "PC 032 10150",
    "XC 011 1",
    "NR 05",
    "SB 500",
    "SA",
    "SP",
    "ET",
    "RE BD",
];

/// A batch from SB to ET, between reads of the record and of what is kept.
const BATCH: [&str; 12] = [
    "EQ", "RT R 001", "SB 500", "RT R", "SA", "RT R 050", "RS", "SP", "RT R 100", "TN", "ET", "RC",
];

/// Requests to this record.
fn framed(record: &Record, commands: &[&str]) -> Vec<Vec<u8>> {
    let text = |command: &&str| format!("{:02}{command}", record.address);
    let texts = commands.iter().map(text);
    texts
        .map(|text| frame::framed(Kind::Minicomputer, text.as_bytes()))
        .collect()
}

/// Reads and writes by turns to this record.
fn by_turns(record: &Record) -> Vec<Vec<u8>> {
    let (reads, writes) = (framed(record, &READS), framed(record, &WRITES));
    let pairs = reads.into_iter().zip(writes);
    pairs.flat_map(|(read, write)| [read, write]).collect()
}

/// A record that accepts the writes in their order.
fn open_record(random: &mut Random) -> Record {
    Record {
        address: 1,
        access: 3,
        phase: Phase::Idle,
        keypad: false,
        ..record_without_alarms(random)
    }
}

fn mixes(random: &mut Random, record: &Record) -> Vec<Mix> {
    let framed = |commands: &[&str]| framed(record, commands);
    let mut damaged = framed(&["EQ", "PC 032 10150", "PV 807"]);
    for frame in &mut damaged {
        let check = frame.len() - 2;
        frame[check] ^= 1;
    }
    vec![
        ("calls: reads", framed(&READS)),
        ("calls: writes", framed(&WRITES)),
        (
            "calls: refusals",
            framed(&["QQ", "EQ ", "RT G", "PV 999", "NR 09", "PC 032 1", "SP"]),
        ),
        ("calls: wrong check (S5)", damaged),
        (
            "calls: random mix",
            (0..1_000)
                .map(|_| requests::request(random, Kind::Minicomputer, record, COMMANDS))
                .collect(),
        ),
    ]
}

/// One function over a kind, stored bytes, a request and a reply buffer.
type Call = fn(u8, &mut [u8], &[u8], &mut [u8]) -> u32;

/// The requests one by one, each over what the last one left, with so much room for the reply.
fn called<const ROOM: usize>(
    call: Call,
    mut stored: Vec<u8>,
    requests: Vec<Vec<u8>>,
) -> Box<dyn FnMut()> {
    let mut reply = [0; ROOM];
    Box::new(move || {
        for request in &requests {
            black_box(call(0, &mut stored, request, &mut reply));
        }
    })
}

fn calls(random: &mut Random) -> Vec<Class> {
    let record = open_record(random);
    let form = stored::form(&record).to_vec();
    let second: Call =
        |kind, stored, request, reply| interface::call(kind, stored, request, reply, Fault::None);
    let class = |(name, requests): Mix| Class {
        name: name.to_string(),
        unit: "call",
        units: requests.len(),
        library: called::<LEAST_BUFFER>(library::call, form.clone(), requests.clone()),
        second: called::<LEAST_BUFFER>(second, form.clone(), requests),
    };
    mixes(random, &record).into_iter().map(class).collect()
}

/// Reads and writes by turns to the last record of a board.
fn board(random: &mut Random, count: usize) -> Class {
    let mut record = open_record(random);
    let mut forms = Vec::new();
    for address in 1..=count as u8 {
        record.address = address;
        forms.extend(stored::form(&record));
    }
    let requests = by_turns(&record);
    let second: Call =
        |kind, stored, request, reply| interface::board(kind, stored, request, reply, Fault::None);
    Class {
        name: format!("board: {count} records"),
        unit: "call",
        units: requests.len(),
        library: called::<LEAST_BUFFER>(library::board, forms.clone(), requests.clone()),
        second: called::<LEAST_BUFFER>(second, forms, requests),
    }
}

/// One function over a kind, stored bytes, a bank, a request and a reply buffer.
type BankedCall = fn(u8, &mut [u8], &mut [u8], &[u8], &mut [u8]) -> u32;

/// The requests one by one, each over what the last one left.
fn banked_called(
    call: BankedCall,
    mut stored: Vec<u8>,
    mut bank: Vec<u8>,
    requests: Vec<Vec<u8>>,
) -> Box<dyn FnMut()> {
    let mut reply = [0; LEAST_BUFFER];
    Box::new(move || {
        for request in &requests {
            black_box(call(0, &mut stored, &mut bank, request, &mut reply));
        }
    })
}

/// Batches in a row beside a full bank.
fn banked(random: &mut Random) -> Class {
    let record = open_record(random);
    let form = stored::form(&record).to_vec();
    let bank = banks::full(random).form(Fault::None);
    let requests = framed(&record, &BATCH);
    let second: BankedCall = |kind, stored, bank, request, reply| {
        interface::banked_call(kind, stored, bank, request, reply, Fault::None)
    };
    Class {
        name: format!("banked: {MOST_BATCHES} batches kept"),
        unit: "call",
        units: requests.len(),
        library: banked_called(
            library::banked_call,
            form.clone(),
            bank.clone(),
            requests.clone(),
        ),
        second: banked_called(second, form, bank, requests),
    }
}

/// The totals of as many batches as are added up at once.
fn added_up(random: &mut Random) -> Class {
    let week = weeks::full(random);
    let week_second = week.clone();
    let (mut sums_first, mut counts_first) = ([0; RECIPES], [0; RECIPES]);
    let (mut sums_second, mut counts_second) = (sums_first, counts_first);
    Class {
        name: format!("totals: {} batches", week.raws.len()),
        unit: "batch",
        units: week.raws.len(),
        library: Box::new(move || {
            let lists = black_box(week.lists());
            black_box(library::totals(lists, &mut sums_first, &mut counts_first));
        }),
        second: Box::new(move || {
            let lists = black_box(week_second.lists());
            let (sums, counts) = (&mut sums_second, &mut counts_second);
            black_box(interface::totals(lists, sums, counts, Fault::None));
        }),
    }
}

/// The text of a full bank's totals.
fn printed(random: &mut Random) -> Class {
    let bank = banks::full(random).form(Fault::None);
    let bank_second = bank.clone();
    let (mut out_first, mut out_second) = ([0; TEXT_ROOM], [0; TEXT_ROOM]);
    Class {
        name: format!("totals: text of {MOST_BATCHES} batches"),
        unit: "text",
        units: 1,
        library: Box::new(move || {
            black_box(library::totals_text(black_box(&bank), &mut out_first));
        }),
        second: Box::new(move || {
            let answer =
                interface::totals_text(black_box(&bank_second), &mut out_second, Fault::None);
            black_box(answer);
        }),
    }
}

/// Modbus requests that are served: all registers read, and each parameter written with its lowest value, then
/// with its highest.
fn modbus_served(slave: u8) -> [Mix; 2] {
    let all = read_request(slave, 0, REGISTERS as u16);
    let lowest = (0..PARAMETERS).map(|place| write_request(slave, place, VALUE_RANGES[place].0));
    let highest = (0..PARAMETERS).map(|place| write_request(slave, place, VALUE_RANGES[place].1));
    [
        ("modbus: read of all registers", vec![all]),
        ("modbus: writes", lowest.chain(highest).collect()),
    ]
}

/// Modbus requests that are refused whatever the record: by 01, 03, 02, 02 and 03, M4 and M5.
fn modbus_refused(slave: u8) -> Mix {
    let mut damaged = write_request(slave, 7, 10_150);
    damaged[10] ^= 1;
    let requests = vec![
        modbus::framed(&[slave, 6, 0, 15, 0x27, 0xA6]),
        read_request(slave, 0, 0),
        read_request(slave, 63, PAIR),
        modbus::any_write_request(slave, 15, PAIR, 4, &[0, 0, 0x27, 0xA6]),
        write_request(slave, 7, 7_999),
        damaged,
        read_request(slave + 1, 0, PAIR),
    ];
    ("modbus: refusals", requests)
}

fn modbus(random: &mut Random) -> Vec<Class> {
    let record = open_record(random);
    let form = stored::form(&record).to_vec();
    let first: Call = |_, stored, request, reply| library::modbus(stored, request, reply);
    let second: Call =
        |_, stored, request, reply| interface::modbus(stored, request, reply, Fault::None);
    let called = |call: Call, requests| called::<REPLY_ROOM>(call, form.clone(), requests);
    let class = |(name, requests): Mix| Class {
        name: name.to_string(),
        unit: "call",
        units: requests.len(),
        library: called(first, requests.clone()),
        second: called(second, requests),
    };
    let refused = modbus_refused(record.address);
    let mixes = modbus_served(record.address).into_iter().chain([refused]);
    mixes.map(class).collect()
}

/// Reading a stored form and writing it again, which each call over bytes does beside its own work.
fn conversion(random: &mut Random) -> Class {
    let form = stored::form(&record_without_alarms(random));
    let (mut out_first, mut out_second) = ([0; STORED_LENGTH], [0; STORED_LENGTH]);
    Class {
        name: "stored form read and written".to_string(),
        unit: "form",
        units: 1,
        library: Box::new(move || {
            black_box(library::stored(black_box(&form), &mut out_first));
        }),
        second: Box::new(move || {
            let answer = interface::stored(black_box(&form), &mut out_second, Fault::None);
            black_box(answer);
        }),
    }
}

fn judged(random: &mut Random, length: usize) -> Class {
    let record = record_without_alarms(random);
    let recording = recordings::long(random, record, COMMANDS, length);
    let recording_second = recording.clone();
    Class {
        name: format!("judge: {} bytes that fit", recording.len()),
        unit: "byte",
        units: recording.len(),
        library: Box::new(move || {
            black_box(library::judge(black_box(&recording)));
        }),
        second: Box::new(move || {
            black_box(interface::judge(black_box(&recording_second), Fault::None));
        }),
    }
}

/// Streams of about this length: good frames, reads and writes by turns; noise; nothing but STX, each
/// of which is looked at; STX and ETX by turns, which hand over a frame every two bytes.
fn streams(random: &mut Random, length: usize) -> Vec<Class> {
    let record = open_record(random);
    let form = stored::form(&record);
    let turn = by_turns(&record).concat();
    [
        ("frames", turn.repeat(length / turn.len())),
        ("noise", random.bytes(length)),
        ("STX", vec![STX; length]),
        ("STX and ETX", [STX, ETX].repeat(length / 2)),
    ]
    .map(|(name, stream)| walked(name, form, stream))
    .into()
}

fn walked(name: &str, form: [u8; STORED_LENGTH], stream: Vec<u8>) -> Class {
    let (mut form_first, mut form_second) = (form, form);
    // Room for the longest reply to each of the shortest frames.
    let mut reply_first = vec![0; LEAST_BUFFER * (1 + stream.len() / 8)];
    let mut reply_second = reply_first.clone();
    let stream_second = stream.clone();
    Class {
        name: format!("several: {} bytes of {name}", stream.len()),
        unit: "byte",
        units: stream.len(),
        library: Box::new(move || {
            let answer = library::several(&mut form_first, black_box(&stream), &mut reply_first);
            black_box(answer);
        }),
        second: Box::new(move || {
            let answer = interface::several(
                &mut form_second,
                black_box(&stream_second),
                &mut reply_second,
                Fault::None,
            );
            black_box(answer);
        }),
    }
}

const SLICE: Duration = Duration::from_millis(25);
const SLICES: usize = 12;

/// Seconds for one turn within a slice of time.
fn slice(turn: &mut dyn FnMut()) -> f64 {
    let start = Instant::now();
    let mut turns = 0;
    while start.elapsed() < SLICE {
        turn();
        turns += 1;
    }
    start.elapsed().as_secs_f64() / f64::from(turns)
}

/// Seconds for one turn of each, by turns, the best of several slices: other work on the machine
/// then tells least.
fn seconds(class: &mut Class) -> (f64, f64) {
    let mut best = (f64::INFINITY, f64::INFINITY);
    for _ in 0..SLICES {
        best.0 = best.0.min(slice(&mut class.library));
        best.1 = best.1.min(slice(&mut class.second));
    }
    best
}

/// The word for more than one of a unit.
fn several(unit: &str) -> String {
    match unit {
        "batch" => "batches".to_string(),
        _ => format!("{unit}s"),
    }
}

pub fn timed(seed: u64) {
    println!(
        "{:<34} {:>13} {:>13} {:<10} {:>6}",
        "", "library", "second", "per second", "ratio"
    );
    for mut class in classes(seed) {
        let (library, second) = seconds(&mut class);
        let units = class.units as f64;
        println!(
            "{:<34} {:>13.0} {:>13.0} {:<10} {:>6.2}",
            class.name,
            units / library,
            units / second,
            several(class.unit),
            second / library
        );
        if class.unit == "byte" {
            println!(
                "{:<34} {:>13.2} {:>13.2} ns a byte",
                "",
                library / units * 1e9,
                second / units * 1e9
            );
        }
    }
    println!("ratio: how many times faster the library is in this run");
}

/// At least so many units are counted, so that what one turn leaves for the next is among them.
const COUNTED_UNITS: usize = 1_000;

/// All that `scripts/benchmark` has callgrind count; it knows the function by its name.
#[inline(never)]
fn counted_turns(turn: &mut dyn FnMut(), turns: usize) {
    for _ in 0..turns {
        turn();
    }
}

/// Prints name, unit and number of units for each class, and does that work with the library, then
/// with this program.
pub fn counted(seed: u64) {
    for mut class in classes(seed) {
        let turns = COUNTED_UNITS.div_ceil(class.units);
        println!("{}\t{}\t{}", class.name, class.unit, turns * class.units);
        for side in [&mut class.library, &mut class.second] {
            // What only a first turn does, as asking the system for memory, is not counted.
            side();
            counted_turns(side, turns);
        }
    }
}
