//! Recordings in which a kept batch is asked for, in each position among few exchanges: right, silent, near
//! to it, with any reply, before and behind a refutation.

use super::recordings::telling_exchange;
use super::request;
use crate::comparison::{Comparison, Difference};
use crate::frame::Kind;
use crate::generate::recordings::Exchanges;
use crate::recording::{self, Exchange};

/// Exchanges to stand before and behind: some fit together, some do not, and one never does.
#[rustfmt::skip]
const OTHERS: [(&str, &str); 7] = [
    ("EQ", "000000"), ("SP", "OK"), ("SA", "OK"), ("ET", "OK"), ("RT R", "RT R 00000500"),
    ("QQ", "NO00"), ("TN", "TN 0000"),
];

/// Texts that ask for a kept batch.
const ASKING: [&str; 6] = [
    "RT R 001", "RT R 000", "RT R 100", "RT R 101", "RT R 256", "RT R 999",
];

/// Texts that do not, though they are near to it; NO01 is right for each but the first two.
#[rustfmt::skip]
const NOT_ASKING: [&str; 11] = [
    "RT R", "RT G", "RT G 001", "RT X 101", "RT R 1", "RT R 0001", "RT R 00A", "RT R 001 ",
    "RT R001", "RT  R 001", "RT 001",
];

const REPLIES: [&str; 6] = [
    "RT R 00000500 001",
    "NO03",
    "NO01",
    "",
    "OK",
    "RT R 00000500",
];

/// Requests that ask for a kept batch but meet a silence: S3 to S8.
fn silent_requests() -> Vec<Vec<u8>> {
    let whole = request(Kind::Minicomputer, 1, "RT R 001");
    let changed = |place: usize, byte: u8| {
        let mut changed = whole.clone();
        changed[place] = byte;
        changed
    };
    let check = whole.len() - 2;
    let control = [&b"\x0201RT R 001"[..], &[1, 3, 0x66, 0x7F]].concat();
    vec![
        whole[1..].to_vec(),
        whole[..whole.len() - 1].to_vec(),
        request(Kind::Minicomputer, 1, &format!("RT R {:056}", 1)),
        changed(0, 3),
        changed(check + 1, 0),
        changed(check, whole[check] ^ 1),
        control,
        request(Kind::Minicomputer, 1, "rt r 001"),
        request(Kind::Minicomputer, 2, "RT R 001"),
        request(Kind::Minicomputer, 0, "RT R 001"),
        request(Kind::Terminal, 1, "RT R 001"),
    ]
}

/// Every request of these, whether it asks or not.
fn requests() -> Vec<Vec<u8>> {
    let texts = ASKING.iter().chain(&NOT_ASKING);
    let frames = texts.map(|text| request(Kind::Minicomputer, 1, text));
    frames.chain(silent_requests()).collect()
}

fn reply(text: &str) -> Vec<u8> {
    telling_exchange(1, "", text).1
}

/// The exchange put in at each position among the others.
fn in_each_position(others: &Exchanges, put_in: &(Vec<u8>, Vec<u8>)) -> Vec<Vec<u8>> {
    let at = |position: usize| {
        let mut exchanges = others.clone();
        exchanges.insert(position, put_in.clone());
        recording::build(1, 2, &exchanges)
    };
    (0..=others.len()).map(at).collect()
}

pub fn unjudged(comparison: &mut Comparison) -> Result<(), Difference> {
    several_asked(comparison)?;
    tellings(comparison)?;
    recordings(comparison)
}

/// Every request with every reply about at most one other exchange; about two others the requests and the
/// replies by turns.
fn recordings(comparison: &mut Comparison) -> Result<(), Difference> {
    let others = OTHERS.map(|(command, reply)| telling_exchange(1, command, reply));
    let alone = others.iter().map(|other| vec![other.clone()]);
    let few: Vec<Exchanges> = [vec![]].into_iter().chain(alone).collect();
    for request in requests() {
        for text in REPLIES {
            let put_in = (request.clone(), reply(text));
            for others in &few {
                for recording in in_each_position(others, &put_in) {
                    comparison.judge(&recording)?;
                }
            }
        }
    }
    let requests = requests();
    let mut turn = 0;
    for first in &others {
        for second in &others {
            let pair = vec![first.clone(), second.clone()];
            for _ in 0..5 {
                turn += 1;
                let request = requests[turn % requests.len()].clone();
                let put_in = (request, reply(REPLIES[turn % REPLIES.len()]));
                for recording in in_each_position(&pair, &put_in) {
                    comparison.judge(&recording)?;
                }
            }
        }
    }
    Ok(())
}

/// Two requests for kept batches, the later one silent or not; and every cut of such a recording, with
/// the length field left and mended.
fn several_asked(comparison: &mut Comparison) -> Result<(), Difference> {
    let asked = (request(Kind::Minicomputer, 1, "RT R 001"), reply("NO03"));
    let other = telling_exchange(1, "EQ", "000000");
    let wrong = telling_exchange(1, "TN", "TN 0000");
    for request in requests() {
        let second = (request, reply("NO01"));
        for exchanges in [
            [asked.clone(), second.clone(), other.clone()],
            [second.clone(), other.clone(), asked.clone()],
            [other.clone(), second, asked.clone()],
        ] {
            comparison.judge(&recording::build(1, 2, &exchanges))?;
        }
    }
    for first in [other.clone(), wrong] {
        let whole = recording::build(1, 2, &[first, asked.clone(), other.clone()]);
        for length in 0..whole.len() {
            let mut cut = whole[..length].to_vec();
            comparison.judge(&cut)?;
            recording::mend_length(&mut cut);
            comparison.judge(&cut)?;
        }
    }
    Ok(())
}

/// What such recordings tell: every request before and behind some of the others, with the replies by turns,
/// and each over the sets before it.
fn tellings(comparison: &mut Comparison) -> Result<(), Difference> {
    let others = OTHERS.map(|(command, reply)| telling_exchange(1, command, reply));
    let mut turn = 0;
    for request in requests() {
        for other in others.iter().step_by(3) {
            turn += 1;
            let put_in = (request.clone(), reply(REPLIES[turn % REPLIES.len()]));
            for recording in in_each_position(&vec![other.clone()], &put_in) {
                comparison.told(&recording)?;
            }
            let known = recording::build(1, 2, &[others[0].clone()]);
            let (request, reply) = (&put_in.0, &put_in.1);
            comparison.learn(&known, 1, Exchange { request, reply })?;
        }
    }
    let asked = (request(Kind::Minicomputer, 1, "RT R 001"), reply("NO03"));
    let [first, second, ..] = others;
    let whole = recording::build(1, 2, &[first, asked, second]);
    for length in (0..=whole.len()).rev().step_by(5) {
        let mut cut = whole[..length].to_vec();
        recording::mend_length(&mut cut);
        comparison.told(&cut)?;
    }
    Ok(())
}

#[cfg(test)]
mod tests {
    use super::*;
    use crate::controller::{self, Request};
    use crate::fault::{Fault, PLANTED};
    use crate::judge::{judge, Judgement};

    /// This enumeration alone notices what is planted about what is not judged.
    #[test]
    fn faults_of_what_is_not_judged_are_noticed() {
        let planted = |name: &str| name.starts_with("unjudged: ");
        assert!(PLANTED.iter().any(|(_, name)| planted(name)));
        for &(fault, name) in PLANTED.iter().filter(|(_, name)| planted(name)) {
            let noticed = unjudged(&mut Comparison::new(fault)).is_err();
            assert!(noticed, "{name}");
        }
    }

    /// The requests are what they are taken for.
    #[test]
    fn answers() {
        let judged = |request: &[u8], text: &str| {
            let exchanges = [(request.to_vec(), reply(text))];
            judge(&recording::build(1, 2, &exchanges), Fault::None)
        };
        let own = |text: &str| request(Kind::Minicomputer, 1, text);
        let not_judged = Judgement::NotJudged { place: 1, count: 1 };
        let fits = Judgement::Fits { count: 1 };
        for text in ASKING {
            for reply in REPLIES {
                assert_eq!(judged(&own(text), reply), not_judged, "{text}");
            }
        }
        assert_eq!(judged(&own("RT R"), "RT R 00000500"), fits);
        assert_eq!(judged(&own("RT G"), "NO08"), fits);
        for text in &NOT_ASKING[2..] {
            assert_eq!(judged(&own(text), "NO01"), fits, "{text}");
        }
        let silence = |request: &Vec<u8>| {
            assert_eq!(judged(request, ""), fits, "{request:02X?}");
            controller::understand(1, Kind::Minicomputer, request, Fault::None)
        };
        let numbers = [4, 4, 3, 4, 4, 5, 6, 7, 8, 8, 4].map(Request::Silent);
        assert!(silent_requests().iter().map(silence).eq(numbers));
    }
}
