//! Recordings in which kept batches are asked for, somewhere among exchanges of any sort.

use crate::bank::Bank;
use crate::controller::{self, Outcome};
use crate::fault::Fault;
use crate::frame::{self, Kind};
use crate::generate::recordings::{self, Exchanges};
use crate::generate::{banks, records, refutations, requests};
use crate::random::Random;
use crate::recording;

fn framed(address: u8, text: &str) -> Vec<u8> {
    frame::framed(Kind::Minicomputer, format!("{address:02}{text}").as_bytes())
}

/// A request for a kept batch, mostly one that meets no silence.
fn request(random: &mut Random, address: u8) -> Vec<u8> {
    let text = match random.below(4) {
        0 => "RT R 001".to_string(),
        1 => format!("RT R {:03}", random.pick(&[0, 2, 100, 101, 999])),
        _ => requests::kept_batch(random),
    };
    let mut request = framed(address, &text);
    match random.below(10) {
        0 => {
            let check = request.len() - 2;
            request[check] ^= random.pick(&[1, 0x40, 0x80]);
        }
        1 => request = framed(address % 99 + 1, &text),
        2 => request = frame::framed(Kind::Terminal, format!("{address:02}{text}").as_bytes()),
        3 => requests::damage(random, Kind::Minicomputer, &mut request),
        _ => {}
    }
    request
}

/// A reply to it: as a controller with some bank gives it, or another.
fn reply(random: &mut Random, address: u8, request: &[u8]) -> Vec<u8> {
    match random.below(8) {
        0 => vec![],
        1 => framed(
            address,
            random.pick(&["NO01", "NO03", "OK", "RT R 00000500"]),
        ),
        2 => {
            let length = random.below(12);
            random.bytes(length)
        }
        _ => reply_of_some_unit(random, address, request),
    }
}

fn reply_of_some_unit(random: &mut Random, address: u8, request: &[u8]) -> Vec<u8> {
    let mut record = records::record(random);
    record.address = address;
    let mut bank = match random.below(3) {
        0 => Bank::default(),
        _ => banks::bank(random),
    };
    let mut buffer = [0; 64];
    let kind = Kind::Minicomputer;
    let (outcome, _) =
        controller::banked_call(record, &mut bank, kind, request, &mut buffer, Fault::None);
    match outcome {
        Outcome::Silence(_) => vec![],
        Outcome::Reply(length) => buffer[..length].to_vec(),
    }
}

/// Puts one to three such exchanges in among others.
pub fn put_in(random: &mut Random, address: u8, exchanges: &mut Exchanges) {
    for _ in 0..random.between(1, 3) {
        let request = request(random, address);
        let reply = reply(random, address, &request);
        let place = match random.below(4) {
            0 => 0,
            1 => exchanges.len(),
            _ => random.below(exchanges.len() + 1),
        };
        exchanges.insert(place, (request, reply));
    }
}

/// A recording with such exchanges put in; one that is refused stays as it is.
pub fn with_kept_batches(random: &mut Random, bytes: Vec<u8>) -> Vec<u8> {
    let Ok(recording) = recording::read(&bytes, Fault::None) else {
        return bytes;
    };
    let copied = recording.exchanges.iter();
    let mut exchanges: Exchanges = copied
        .map(|exchange| (exchange.request.to_vec(), exchange.reply.to_vec()))
        .collect();
    put_in(random, recording.address, &mut exchanges);
    recording::build(recording.address, recording.access, &exchanges)
}

/// A recording of few exchanges with such requests among them, seldom cut behind them.
pub fn recording(random: &mut Random) -> Vec<u8> {
    let bytes = match random.below(4) {
        0 => recordings::adversarial(random, 12),
        1 => recordings::ordered(random),
        2 => refutations::recording(random),
        _ => recordings::honest_recording(random, 8),
    };
    let mut bytes = with_kept_batches(random, bytes);
    if random.percent(5) {
        bytes.truncate(bytes.len() - 1 - random.below(3));
        recording::mend_length(&mut bytes);
    }
    bytes
}
