//! Recordings: honest, plausibly wrong, adversarial, damaged and noise.

use crate::controller::{self, Outcome};
use crate::fault::Fault;
use crate::frame::{self, Kind};
use crate::generate::records::{self, Field};
use crate::generate::requests;
use crate::parameters::{factor_place, parameter_code, PARAMETERS, VALUE_RANGES};
use crate::random::Random;
use crate::record::{Phase, Record, HIGHEST_LEVEL, RECIPES};
use crate::recording;

pub type Exchanges = Vec<(Vec<u8>, Vec<u8>)>;

/// One exchange as the controller makes it.
pub fn exchange(record: &mut Record, request: Vec<u8>) -> (Vec<u8>, Vec<u8>) {
    let mut buffer = [0; 64];
    let (outcome, after) = controller::call(
        *record,
        Kind::Minicomputer,
        &request,
        &mut buffer,
        Fault::None,
    );
    *record = after;
    match outcome {
        Outcome::Silence(_) => (request, vec![]),
        Outcome::Reply(length) => (request, buffer[..length].to_vec()),
    }
}

/// Exchanges with one record, of any requests.
fn honest(random: &mut Random, count: usize) -> (u8, u8, Exchanges) {
    let mut record = records::record(random);
    let exchanges = (0..count)
        .map(|_| {
            let mut request =
                requests::request(random, Kind::Minicomputer, &record, requests::command);
            request.truncate(255);
            exchange(&mut record, request)
        })
        .collect();
    (record.address, record.access, exchanges)
}

/// A recording of up to so many exchanges with one record, of any requests.
pub fn honest_recording(random: &mut Random, most: usize) -> Vec<u8> {
    let count = random.below(most + 1);
    let (address, access, exchanges) = honest(random, count);
    recording::build(address, access, &exchanges)
}

/// Another reply that a controller might have given.
pub fn another_reply(random: &mut Random, address: u8, reply: &[u8]) -> Vec<u8> {
    let Ok(text) = frame::open(Kind::Minicomputer, reply, Fault::None) else {
        let answer = random.pick(&["OK", "NO00", "NO01", "000000", "RS ", "00000"]);
        let text = format!("{address:02}{answer}");
        return frame::framed(Kind::Minicomputer, text.as_bytes());
    };
    let mut text = text.to_vec();
    match random.below(15) {
        12..=14 if text.len() > 8 && text[text.len() - 4..].iter().all(u8::is_ascii_digit) => {
            // Numbers at or past the ends of ranges.
            let width = if text.len() == 9 { 4 } else { 8 };
            let number = random.pick(&[0, 1, 7_999, 8_000, 12_000, 12_001, 9_999, 10_000, 10_001]);
            text.truncate(text.len() - width);
            text.extend(format!("{number:0width$}").bytes());
        }
        0..=2 => {
            text.truncate(2);
            let number = random.pick(&[0, 1, 2, 4, 5, 6, 7, 8, 9, 30]);
            text.extend(format!("NO{number:02}").bytes());
        }
        3 => {
            text.truncate(2);
            text.extend(b"OK");
        }
        4..=6 => {
            // A digit one up or down; in a status it is a bit or more.
            let digits: Vec<usize> = (2..text.len())
                .filter(|&place| (0x30..0x40).contains(&text[place]))
                .collect();
            if let Some(&place) = digits.get(random.below(digits.len().max(1))) {
                text[place] = match random.below(3) {
                    0 => 0x30 | (text[place] ^ 1 << random.below(4)) & 0x0F,
                    1 => text[place] + 1,
                    _ => text[place] - 1,
                };
            }
        }
        7 if text[2..].starts_with(b"RS ") => {
            let code = random.pick(&[
                "AL ", "FL ", "BD ", "PC ", "PF ", "PW ", "TD ", "TP ", "RL ",
            ]);
            let places = (text.len() - 5) / 3;
            let place = 5 + 3 * random.below(places + 1);
            if random.percent(50) || place == text.len() {
                text.splice(place..place, code.bytes());
            } else {
                text.drain(place..place + 3);
            }
        }
        7 | 8 => return vec![],
        9 => {
            text[random.below(2)] = random.pick(b"0123456789");
        }
        10 => {
            text.pop();
        }
        _ => {
            let mut frame = reply.to_vec();
            let place = random.below(frame.len());
            match random.below(3) {
                0 => frame[place] ^= 1 << random.below(8),
                1 => frame.push(0x7F),
                _ => frame.truncate(place),
            }
            return frame;
        }
    }
    frame::framed(Kind::Minicomputer, &text)
}

/// Values to be written to a parameter: the one that it holds, the ends and the middle of its range.
pub fn telling_values(record: &Record, place: usize) -> [u32; 4] {
    let (low, high) = VALUE_RANGES[place];
    let held = record.parameters[place].value;
    [held, low, high, (low + high) / 2]
}

/// Command texts that have to do with one another, over the parameters at two places, and a field
/// that they have to do with.
fn related_commands(
    random: &mut Random,
    record: &Record,
    recipes: [u8; 2],
    places: [usize; 2],
) -> (Vec<String>, Field) {
    let code = |place: usize| format!("{:03}", parameter_code(place));
    let values = places.map(|place| random.pick(&telling_values(record, place)));
    let [first, second] = places.map(code);
    let (texts, field) = match random.below(9) {
        0 => (vec!["TN", "TN", "SB 1", "SA", "SP", "ET"], Field::Number),
        1 => (vec!["RT R", "RT R", "SB 7", "TN", "ET", "SA"], Field::Raw),
        2 => (
            vec!["XV {p}", "XC {p} {l}", "XC {p} {m}", "PC {p} {v}", "XV {p}"],
            Field::Level,
        ),
        3 => (
            vec![
                "RC",
                "NR {r}",
                "NR {s}",
                "PC {p} {v}",
                "PC {q} {w}",
                "PV {p}",
                "RR",
            ],
            random.pick(&[Field::Value, Field::Recipe]),
        ),
        4 => (
            vec!["EQ", "SA", "SP", "SB 1", "ET", "RS"],
            random.pick(&[Field::Phase, Field::Keypad, Field::Alarms]),
        ),
        5 => (vec!["EQ", "AR", "AR", "RS"], Field::Alarms),
        6 => (vec!["EA", "SA", "SP", "SA", "AR"], Field::Alarms),
        7 => (
            vec!["EQ", "PC {p} {h}", "PC {p} {v}", "PV {p}", "RE PC", "RC"],
            random.pick(&[Field::Changed, Field::Value]),
        ),
        _ => (
            vec!["RS", "RE BD", "RE PC", "SB 1", "PC {p} {v}", "EQ"],
            random.pick(&[Field::Changed, Field::BatchReset]),
        ),
    };
    let parts = [
        ("{p}", first),
        ("{q}", second),
        ("{h}", record.parameters[places[0]].value.to_string()),
        ("{v}", values[0].to_string()),
        ("{w}", values[1].to_string()),
        ("{r}", format!("{:02}", recipes[0])),
        ("{s}", format!("{:02}", recipes[1])),
        ("{l}", random.below(5).to_string()),
        ("{m}", random.below(4).to_string()),
    ];
    let mut texts: Vec<String> = texts
        .into_iter()
        .map(|text| {
            parts.iter().fold(text.to_string(), |text, (name, part)| {
                text.replace(name, part)
            })
        })
        .collect();
    // Any but all of them, so that what is not asked stays unknown.
    while texts.len() > 1 && random.percent(50) {
        let place = random.below(texts.len());
        texts.remove(place);
    }
    (texts, field)
}

/// Command texts of every sort over the parameters at two places.
fn mixed_commands(
    random: &mut Random,
    record: &Record,
    recipes: [u8; 2],
    places: [usize; 2],
) -> Vec<String> {
    let mut pool: Vec<String> = [
        "EQ", "RS", "TN", "RR", "RC", "RC", "RT R", "SB 1", "SB 500", "SB 0", "SA", "SA", "SP",
        "SP", "ET", "RE BD", "RE PC", "SB 7", "QQ", "EQ ", "EA", "AR", "AR", "EA ", "AR 1",
    ]
    .map(String::from)
    .to_vec();
    for recipe in recipes {
        pool.push(format!("NR {recipe:02}"));
    }
    for place in places {
        let code = parameter_code(place);
        pool.push(format!("PV {code:03}"));
        pool.push(format!("XV {code:03}"));
        pool.push(format!("XV {code:03}"));
        for value in telling_values(record, place) {
            pool.push(format!("PC {code:03} {value}"));
        }
        for level in 0..=4 {
            pool.push(format!("XC {code:03} {level}"));
        }
    }
    let count = random.between(1, 7);
    (0..count)
        .map(|_| pool[random.below(pool.len())].clone())
        .collect()
}

/// Few commands over few parameters, those parameters, and a field to jump in.
fn few_commands(random: &mut Random, record: &Record) -> (Vec<Vec<u8>>, [usize; 2], Field) {
    let recipes = [1, 2].map(|_| random.between(1, u32::from(RECIPES)) as u8);
    let second = if random.percent(50) {
        factor_place(recipes[1])
    } else {
        random.below(PARAMETERS)
    };
    let places = [factor_place(recipes[0]), second];
    let (texts, field) = if random.percent(70) {
        related_commands(random, record, recipes, places)
    } else {
        let texts = mixed_commands(random, record, recipes, places);
        (texts, records::field(random))
    };
    let texts = texts
        .iter()
        .map(|text| format!("{:02}{text}", record.address).into_bytes())
        .collect();
    (texts, places, field)
}

/// Few commands over few parameters, where the record jumps in one field now and then.
pub fn adversarial(random: &mut Random, longest: u32) -> Vec<u8> {
    let mut record = records::record(random);
    record.keypad &= random.percent(50);
    if random.percent(50) {
        record.alarms = 0;
    }
    if random.percent(30) {
        record.access = 3;
    }
    let (texts, places, related) = few_commands(random, &record);
    let jumps = random.pick(&[0, 3, 8, 20]);
    let count = random.between(1, longest);
    let mut exchanges = Vec::new();
    for _ in 0..count {
        if random.percent(jumps) {
            let field = match random.below(4) {
                0 => records::field(random),
                _ => related,
            };
            records::jump(random, &mut record, field, &places);
        }
        let text = &texts[random.below(texts.len())];
        let request = frame::framed(Kind::Minicomputer, text);
        exchanges.push(exchange(&mut record, request));
    }
    if random.percent(15) {
        change_one(random, record.address, &mut exchanges);
    }
    recording::build(record.address, record.access, &exchanges)
}

/// Requests in an order that tells, each with the cases of a hundred in which it is sent, and the field
/// that they tell of.
fn telling_order(
    random: &mut Random,
    record: &Record,
    place: usize,
) -> (Vec<(usize, String)>, Field) {
    let code = parameter_code(place);
    let mut write = || {
        let value = random.pick(&telling_values(record, place));
        format!("PC {code:03} {value}")
    };
    let (first, second) = (write(), write());
    let value = format!("PV {code:03}");
    let level = format!("XV {code:03}");
    let write_level = format!("XC {code:03} {}", records::level(random));
    let (steps, field) = match random.below(3) {
        0 => (
            vec![
                (50, "EQ"),
                (30, &value),
                (10, "RC"),
                (20, &first),
                (20, "RE PC"),
                (30, "EQ"),
                (100, &second),
                (100, random.pick(&["EQ", "RS"])),
            ],
            Field::Changed,
        ),
        1 => (
            vec![
                (30, &level[..]),
                (60, &first),
                (50, &write_level),
                (50, &second),
                (100, &level),
            ],
            Field::Level,
        ),
        _ => (
            vec![
                (30, "EQ"),
                (20, "EA"),
                (40, "AR"),
                (30, "EQ"),
                (60, "SA"),
                (20, "AR"),
                (100, random.pick(&["EQ", "EA", "RS"])),
            ],
            Field::Alarms,
        ),
    };
    let steps = steps
        .into_iter()
        .map(|(cases, text)| (cases, text.to_string()));
    (steps.collect(), field)
}

/// Requests in an order that tells, mostly accepted, where the field that they tell of jumps now and
/// then.
pub fn ordered(random: &mut Random) -> Vec<u8> {
    let mut record = records::record(random);
    let place = records::place(random);
    let (steps, field) = telling_order(random, &record, place);
    record.keypad = false;
    record.phase = random.pick(match field {
        Field::Alarms => &[Phase::Set, Phase::Stopped],
        _ => &[Phase::Idle, Phase::Done],
    });
    if let Field::Changed = field {
        record.access = HIGHEST_LEVEL;
    }
    let mut exchanges = Vec::new();
    for (cases, text) in steps {
        if !random.percent(cases) {
            continue;
        }
        if random.percent(25) {
            records::jump(random, &mut record, field, &[place]);
        }
        let text = format!("{:02}{text}", record.address);
        let request = frame::framed(Kind::Minicomputer, text.as_bytes());
        exchanges.push(exchange(&mut record, request));
    }
    recording::build(record.address, record.access, &exchanges)
}

/// One plausible change somewhere.
fn change_one(random: &mut Random, address: u8, exchanges: &mut Exchanges) {
    if exchanges.is_empty() {
        return;
    }
    let place = random.below(exchanges.len());
    match random.below(8) {
        0 => {
            let other = random.below(exchanges.len());
            let reply = exchanges[other].1.clone();
            exchanges[place].1 = reply;
        }
        1 => {
            exchanges.remove(place);
        }
        2 => {
            let other = random.below(exchanges.len());
            exchanges.swap(place, other);
        }
        _ => exchanges[place].1 = another_reply(random, address, &exchanges[place].1),
    }
}

/// Damages a recording's form, its length field mended in most cases.
fn damage(random: &mut Random, bytes: &mut Vec<u8>) {
    for _ in 0..random.between(1, 3) {
        match random.below(9) {
            0 if !bytes.is_empty() => bytes[0] = random.pick(&[0, 1, 2, 255]),
            1 if bytes.len() > 2 => {
                let place = 1 + random.below(2);
                bytes[place] = bytes[place].wrapping_add(random.pick(&[1, 255]));
            }
            2 if bytes.len() > 3 => bytes[3] = random.pick(&[0, 1, 99, 100, 255]),
            3 if bytes.len() > 4 => bytes[4] = random.pick(&[0, 3, 4, 255]),
            4 | 5 => {
                let length = random.below(bytes.len() + 1);
                bytes.truncate(length);
                recording::mend_length(bytes);
            }
            6 => {
                let extra = random.between(1, 4) as usize;
                bytes.extend(random.bytes(extra));
                if random.percent(80) {
                    recording::mend_length(bytes);
                }
            }
            7 if bytes.len() > 5 => {
                let place = 5 + random.below(bytes.len() - 5);
                bytes[place] = random.byte();
            }
            _ => {
                let length = random.below(8);
                bytes.truncate(length);
            }
        }
    }
}

/// Noise behind a header as it should be.
fn noise(random: &mut Random) -> Vec<u8> {
    let length = random.below(300);
    let mut bytes = vec![1, 0, 0, random.between(1, 99) as u8, random.below(4) as u8];
    for _ in 0..length {
        bytes.push(if random.percent(40) { 0 } else { random.byte() });
    }
    recording::mend_length(&mut bytes);
    bytes
}

/// An honest recording from this record on, of about this many bytes.
pub fn long(
    random: &mut Random,
    mut record: Record,
    command: requests::Commands,
    length: usize,
) -> Vec<u8> {
    let (address, access) = (record.address, record.access);
    let mut exchanges = Vec::new();
    let mut total = 5;
    loop {
        let mut text = format!("{address:02}").into_bytes();
        text.extend(command(random, &record).bytes());
        let request = frame::framed(Kind::Minicomputer, &text);
        let made = exchange(&mut record, request);
        total += 2 + made.0.len() + made.1.len();
        if total > length {
            break;
        }
        exchanges.push(made);
    }
    recording::build(address, access, &exchanges)
}

/// A long recording at or past the limit of the length, or with one change.
fn long_or_too_long(random: &mut Random) -> Vec<u8> {
    let length = random.pick(&[4_000, 16_000, 65_535]);
    let record = records::record(random);
    let mut bytes = long(random, record, requests::command, length);
    if length == recording::LONGEST_RECORDING {
        // Exchanges without bytes up to the limit, or to one past it.
        while bytes.len() + 2 <= length {
            bytes.extend([0, 0]);
        }
        let extra = random.below(4);
        bytes.extend(vec![0; extra]);
    } else if random.percent(50) {
        let place = 5 + random.below(bytes.len() - 5);
        bytes[place] = random.byte();
    }
    recording::mend_length(&mut bytes);
    bytes
}

/// A recording of any sort.
pub fn recording(random: &mut Random) -> Vec<u8> {
    let count = random.below(40);
    match random.below(240) {
        0..=29 => {
            let (address, access, exchanges) = honest(random, count);
            recording::build(address, access, &exchanges)
        }
        30..=69 => {
            let (address, access, mut exchanges) = honest(random, count);
            change_one(random, address, &mut exchanges);
            recording::build(address, access, &exchanges)
        }
        70..=144 => adversarial(random, 30),
        145..=159 => adversarial(random, 4),
        160..=167 => noise(random),
        168..=197 => {
            let mut bytes = if random.percent(50) {
                adversarial(random, 8)
            } else {
                let (address, access, exchanges) = honest(random, count / 4);
                recording::build(address, access, &exchanges)
            };
            damage(random, &mut bytes);
            bytes
        }
        198..=237 => ordered(random),
        _ => long_or_too_long(random),
    }
}
