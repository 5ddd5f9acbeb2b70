//! Why the judge stops at an exchange: it is refuted, or not judged.

use crate::codes;
use crate::facts::{self, Exchange, Facts, Reason, Told};
use crate::fields::{self, Kind};
use crate::frames::{self, Reply, SHORT};

/// A part of a sentence; an exchange may be shown as a link.
#[derive(Clone, PartialEq, Eq, Debug)]
pub enum Part {
    Text(String),
    Exchange(usize),
}

/// The whole explanation, if the judge stops.
pub fn explanation(facts: &Facts) -> Option<Vec<Part>> {
    let stop = facts.stop.as_ref()?;
    let exchange = facts.exchange(stop.place);
    let mut parts = vec![Part::Exchange(stop.place), Part::Text(": ".to_string())];
    match stop.reason {
        Reason::KeptBatch => parts.push(Part::Text(kept_batch(facts, exchange))),
        Reason::ReplyToSilence(number) => {
            parts.push(Part::Text(not_silent(facts, exchange, number)))
        }
        Reason::NoReply => parts.push(Part::Text(silent(facts, exchange))),
        Reason::NoRecord => parts.push(Part::Text(no_record(facts, exchange))),
        Reason::Field {
            field,
            held,
            needed,
        } => {
            let claim = claim(facts, exchange, Told { field, set: needed });
            parts.push(Part::Text(format!("{claim}. ")));
            parts.extend(since(facts, field));
            parts.push(Part::Text(format!(
                " {}.",
                fields::can_only(Told { field, set: held })
            )));
        }
    }
    Some(parts)
}

/// The words of the parts one behind the other.
pub fn words(parts: &[Part]) -> String {
    let texts = parts.iter().map(|part| match part {
        Part::Text(text) => text.clone(),
        Part::Exchange(number) => format!("exchange {number}"),
    });
    texts.collect()
}

/// What is asked and replied, as it is spoken of.
pub fn asked(facts: &Facts, exchange: &Exchange) -> String {
    frames::request(facts.address, exchange.request).called()
}

pub fn replied(facts: &Facts, exchange: &Exchange) -> String {
    frames::reply(facts.address, exchange.reply).shown(SHORT)
}

/// "PC 032 10150, OK"
pub fn said(facts: &Facts, number: usize) -> String {
    let exchange = facts.exchange(number);
    format!("{}, {}", asked(facts, exchange), replied(facts, exchange))
}

fn since(facts: &Facts, field: usize) -> Vec<Part> {
    match facts.since[field] {
        0 => vec![Part::Text(
            "From the beginning of the recording on".to_string(),
        )],
        number => vec![
            Part::Text("Since ".to_string()),
            Part::Exchange(number),
            Part::Text(format!(" ({})", said(facts, number))),
        ],
    }
}

fn kept_batch(facts: &Facts, exchange: &Exchange) -> String {
    format!(
        "{} asks for a finished batch that is kept beside the record. A recording begins with whatever batches are kept by \
         then and does not say which, so what comes back is not judged, whatever it is.",
        asked(facts, exchange)
    )
}

fn not_silent(facts: &Facts, exchange: &Exchange, number: u32) -> String {
    format!(
        "the controller replied {}, but a correct controller at address {} keeps silent at this request: {} (S{number}).",
        replied(facts, exchange),
        facts.address,
        frames::silence(number)
    )
}

fn silent(facts: &Facts, exchange: &Exchange) -> String {
    format!(
        "the controller kept silent, but a correct controller at address {} replies to {}, whatever its state.",
        facts.address,
        asked(facts, exchange)
    )
}

/// The reply is one that no record gives. What can be told for sure is told, from the form of the reply on.
fn no_record(facts: &Facts, exchange: &Exchange) -> String {
    let request = asked(facts, exchange);
    let always = facts::met_by(facts.address, exchange.request)
        .map(|reply| frames::visible(&reply))
        .unwrap_or_default();
    match frames::reply(facts.address, exchange.reply) {
        Reply::NoFrame(_, number) => format!(
            "the reply to {request} is no whole frame: {} (S{number}).",
            frames::silence(number)
        ),
        Reply::OtherAddress(text) => format!(
            "the reply to {request} begins with {}, but a controller at address {} begins its replies with {:02}.",
            &text[..2],
            facts.address,
            facts.address
        ),
        reply => match codes::by_request(&always) {
            Some(meaning) => format!(
                "the controller replied {}, but a correct controller always replies {always} to {request} ({meaning}), \
                 whatever its state.",
                reply.shown(SHORT)
            ),
            None => format!(
                "no correct controller with address {} and access {} ever replies {} to {request}, whatever its state.",
                facts.address,
                facts.access,
                reply.shown(SHORT)
            ),
        },
    }
}

/// What the reply says of the field.
fn claim(facts: &Facts, exchange: &Exchange, needed: Told) -> String {
    let request = asked(facts, exchange);
    let reply = replied(facts, exchange);
    if reply == "OK" || reply.starts_with("NO") {
        return format!(
            "a correct controller replies {reply} to {request} only if {}",
            fields::clause(needed)
        );
    }
    format!("{request} shows {}", shown_of(&request, needed))
}

/// What the reply to a request that asks for something shows of the field.
fn shown_of(request: &str, needed: Told) -> String {
    let values = fields::values(needed);
    match fields::kind(needed.field) {
        Kind::Value(place) => match fields::recipe_of(place) {
            Some(recipe) if request == "RC" => format!("{values} for recipe {recipe}"),
            _ => values,
        },
        Kind::Level(_) => format!("level {values}"),
        Kind::Flag => format!("the {}", fields::fact(needed)),
        Kind::Alarms => fields::fact(needed),
        Kind::Phase | Kind::Recipe | Kind::Number => {
            format!("{} {values}", fields::name(needed.field))
        }
    }
}

#[cfg(test)]
mod tests {
    use super::*;
    use crate::sample::{frame, recording, recording_of};

    fn explained(texts: &[(&str, &str)]) -> String {
        explained_bytes(&recording_of(texts))
    }

    fn explained_frames(request: Vec<u8>, reply: Vec<u8>) -> String {
        explained_bytes(&recording(&[(request, reply)]))
    }

    fn explained_bytes(bytes: &[u8]) -> String {
        let facts = facts::facts(bytes).expect("it is a recording");
        words(&explanation(&facts).expect("the judge stops"))
    }

    #[test]
    fn a_value() {
        assert_eq!(
            explained(&[("EQ", "000000"), ("PC 032 10150", "OK"), ("RC", "RC 03 00010012")]),
            "exchange 3: RC shows 10012 for recipe 3. Since exchange 2 (PC 032 10150, OK) the factor of recipe 3 can \
             only be 10150."
        );
        assert_eq!(
            explained(&[("PC 805 1", "OK"), ("PV 805", "PV 805 00000002")]),
            "exchange 2: PV 805 shows 2. Since exchange 1 (PC 805 1, OK) the units (805) can only be 1."
        );
    }

    #[test]
    fn other_fields_that_are_shown() {
        assert_eq!(
            explained(&[("NR 03", "OK"), ("RR", "RR 04")]),
            "exchange 2: RR shows recipe 4. Since exchange 1 (NR 03, OK) the recipe can only be 3."
        );
        assert_eq!(
            explained(&[("TN", "TN 9999"), ("SB 5", "OK"), ("TN", "TN 9999")]),
            "exchange 3: TN shows batch number 9999. Since exchange 2 (SB 5, OK) the batch number can only be 1."
        );
        assert_eq!(
            explained(&[("XC 032 1", "OK"), ("XV 032", "XV 032 2")]),
            "exchange 2: XV 032 shows level 2. Since exchange 1 (XC 032 1, OK) the level of 032 can only be 1."
        );
        assert_eq!(
            explained(&[("RE PC", "OK"), ("EQ", "000800")]),
            "exchange 2: EQ shows the changed flag on. Since exchange 1 (RE PC, OK) the changed flag can only be off."
        );
        assert_eq!(
            explained(&[("SA", "OK"), ("RS", "RS ")]),
            "exchange 2: RS shows phase Idle or Set. Since exchange 1 (SA, OK) the phase can only be Running."
        );
    }

    #[test]
    fn alarms() {
        assert_eq!(
            explained(&[("SA", "OK"), ("EQ", "581000")]),
            "exchange 2: EQ shows at least one alarm on. Since exchange 1 (SA, OK) no alarm can be on."
        );
        assert_eq!(
            explained(&[("SA", "NO09"), ("EA", "00000")]),
            "exchange 2: EA shows no alarm on. Since exchange 1 (SA, NO09) at least one alarm must be on."
        );
        assert_eq!(
            explained(&[("EA", "80101"), ("AR", "OK"), ("EA", "00100")]),
            "exchange 3: EA shows alarm on: power-fail alarm (PA). Since exchange 2 (AR, OK) just these alarms must be \
             on: RAM corrupt (DA) and overrun (OA)."
        );
        assert_eq!(
            explained(&[("AR", "OK"), ("EQ", "001000"), ("AR", "OK"), ("SB 1", "OK"), ("SA", "OK")]),
            "exchange 5: a correct controller replies OK to SA only if no alarm is on. Since exchange 2 (EQ, 001000) at \
             least one alarm must be on, but none that AR resets."
        );
    }

    #[test]
    fn replies_that_ask_something_of_the_record() {
        assert_eq!(
            explained(&[("SA", "NO02"), ("SB 1", "NO05")]),
            "exchange 2: a correct controller replies NO05 to SB 1 only if the keypad is off. Since exchange 1 (SA, \
             NO02) the keypad can only be on."
        );
        assert_eq!(
            explained(&[("SP", "NO05"), ("SA", "NO05"), ("SB 500", "NO05")]),
            "exchange 3: a correct controller replies NO05 to SB 500 only if the phase is Set, Running or Stopped. Since \
             exchange 2 (SA, NO05) the phase can only be Idle or Done."
        );
        assert_eq!(
            explained(&[("XV 032", "XV 032 3"), ("PC 032 8000", "OK")]),
            "exchange 2: a correct controller replies OK to PC 032 8000 only if the level of 032 is 0 to 2. Since \
             exchange 1 (XV 032, XV 032 3) the level of 032 can only be 3."
        );
    }

    #[test]
    fn silences() {
        let mut damaged = frame("01EQ");
        damaged[6] ^= 1;
        assert_eq!(
            explained_frames(damaged, frame("01OK")),
            "exchange 1: the controller replied OK, but a correct controller at address 1 keeps silent at this request: \
             its check character is wrong (S5)."
        );
        assert_eq!(
            explained_frames(frame("01EQ"), vec![]),
            "exchange 1: the controller kept silent, but a correct controller at address 1 replies to EQ, whatever its \
             state."
        );
    }

    #[test]
    fn kept_batches() {
        let why = "asks for a finished batch that is kept beside the record. A recording begins with whatever batches are \
                   kept by then and does not say which, so what comes back is not judged, whatever it is.";
        assert_eq!(
            explained(&[("EQ", "000000"), ("RT R 002", "RT R 00000500 002")]),
            format!("exchange 2: RT R 002 {why}")
        );
        // Though no controller keeps a batch 000, or is silent.
        assert_eq!(
            explained(&[("RT R 000", "NO01")]),
            format!("exchange 1: RT R 000 {why}")
        );
        assert_eq!(
            explained_frames(frame("01RT R 101"), vec![]),
            format!("exchange 1: RT R 101 {why}")
        );
        // What refutes stands before it.
        assert_eq!(
            explained(&[("NR 03", "OK"), ("RR", "RR 04"), ("RT R 001", "NO03")]),
            "exchange 2: RR shows recipe 4. Since exchange 1 (NR 03, OK) the recipe can only be 3."
        );
    }

    #[test]
    fn kept_batches_that_meet_silence() {
        let mut damaged = frame("01RT R 001");
        damaged[9] ^= 1;
        assert_eq!(
            explained_frames(damaged, frame("01RT R 00000500 001")),
            "exchange 1: the controller replied RT R 00000500 001, but a correct controller at address 1 keeps silent at \
             this request: its check character is wrong (S5)."
        );
    }

    #[test]
    fn replies_that_no_record_gives() {
        assert_eq!(
            explained(&[("TN", "TN 0000")]),
            "exchange 1: no correct controller with address 1 and access 2 ever replies TN 0000 to TN, whatever its state."
        );
        assert_eq!(
            explained(&[("PV 034", "PV 034 00000000")]),
            "exchange 1: the controller replied PV 034 00000000, but a correct controller always replies NO04 to PV 034 \
             (there is no such parameter), whatever its state."
        );
        assert_eq!(
            explained_frames(frame("01EQ"), frame("02000000")),
            "exchange 1: the reply to EQ begins with 02, but a controller at address 1 begins its replies with 01."
        );
        assert_eq!(
            explained_frames(frame("01EQ"), vec![2, 3]),
            "exchange 1: the reply to EQ is no whole frame: it has too few or too many bytes (S3)."
        );
    }
}
