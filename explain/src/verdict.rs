//! The judge's answer, and what it means.

use crate::facts::{Facts, Reason};
use crate::files::LONGEST;
use khuyapesh::Exchanges;

/// The answer in the judge's own words.
pub fn answer(facts: &Result<Facts, u32>) -> String {
    match facts {
        Err(number) => format!("refused J{number}"),
        Ok(facts) => match &facts.stop {
            None => format!("fits {}", facts.exchanges.len()),
            Some(stop) if stop.reason == Reason::KeptBatch => {
                format!("not judged at {}", stop.place)
            }
            Some(stop) => format!("refuted at {} of {}", stop.place, facts.exchanges.len()),
        },
    }
}

/// What the answer says, and what it does not.
pub fn meaning(facts: &Facts) -> String {
    match &facts.stop {
        None => "A correct controller could have given all these replies. That does not say that this controller is \
                 right, only that nothing in the recording shows it to be wrong."
            .to_string(),
        Some(stop) if stop.reason == Reason::KeptBatch => match stop.place {
            1 => format!("Nothing in this recording is judged{NEITHER}"),
            place => format!(
                "A correct controller could have given the replies before exchange {place}. From there on nothing is \
                 judged{NEITHER}"
            ),
        },
        Some(stop) => format!(
            "No correct controller could have answered the requests up to exchange {} as recorded, whatever its state \
             when the recording began.",
            stop.place
        ),
    }
}

const NEITHER: &str = ", neither for this controller nor against it.";

/// What stands in the list at the exchange at which the judge stops, and at those behind it.
pub fn stopped(facts: &Facts) -> &'static str {
    if facts.is_refuted() {
        "REFUTED"
    } else {
        "NOT JUDGED"
    }
}

pub fn behind(facts: &Facts) -> &'static str {
    if facts.is_refuted() {
        ""
    } else {
        "not judged"
    }
}

/// What all that is told rests on.
pub const CONDITION: &str =
    "This holds if nothing but these requests acted on the controller meanwhile: no panel, no pulses, no power failure.";

pub const BEFORE_FITS: &str = "The exchanges before it fit.";

pub const NOTHING_AFTER: &str = "Nothing is concluded from the exchanges after it.";

/// What a refusal means, and what it is about these bytes.
pub fn refusal(number: u32, bytes: &[u8]) -> String {
    let meaning = match number {
        1 => "it is empty, too short for a recording, or too long for one",
        2 => "it is of a kind that the judge does not know",
        3 => "something was lost or added since it was recorded",
        4 => "it names an address or an access that no controller has",
        5 => "it stops in the middle of an exchange",
        _ => "it is no recording",
    };
    match detail(number, bytes) {
        Some(detail) => format!("{meaning} ({detail})"),
        None => meaning.to_string(),
    }
}

fn detail(number: u32, bytes: &[u8]) -> Option<String> {
    match (number, bytes) {
        (1, _) => Some(format!(
            "{}; a recording has 5 to {LONGEST} bytes",
            size(bytes)
        )),
        (2, [version, ..]) => Some(format!(
            "its first byte is {version}, that of a recording 1"
        )),
        (3, [_, high, low, ..]) => Some(format!(
            "it says that it has {} bytes, and has {}",
            u16::from_be_bytes([*high, *low]),
            bytes.len()
        )),
        (4, [_, _, _, address, access, ..]) => Some(format!(
            "address {address} and access {access}; an address is 1 to 99, an access 0 to 3"
        )),
        (5, _) => Some(format!("after {} whole ones", Exchanges::of(bytes).count())),
        _ => None,
    }
}

/// How many bytes a file has. Of a longer one than any recording no more is read than shows that.
pub fn size(bytes: &[u8]) -> String {
    match bytes.len() {
        1 => "1 byte".to_string(),
        length if length > LONGEST => format!("more than {LONGEST} bytes"),
        length => format!("{length} bytes"),
    }
}

#[cfg(test)]
mod tests {
    use super::*;
    use crate::facts;
    use crate::sample::recording_of;

    #[test]
    fn answers() {
        assert_eq!(answer(&facts::facts(&[1, 0, 5, 1, 2])), "fits 0");
        assert_eq!(answer(&facts::facts(&[1, 0, 7, 1, 2, 0, 0])), "fits 1");
        assert_eq!(
            answer(&facts::facts(&[1, 0, 8, 1, 2, 0, 1, 7])),
            "refuted at 1 of 1"
        );
        assert_eq!(answer(&facts::facts(&[])), "refused J1");
    }

    #[test]
    fn recordings_that_are_not_judged_to_their_end() {
        let judged = |texts: &[(&str, &str)]| {
            let bytes = recording_of(texts);
            let facts = facts::facts(&bytes);
            let meaning = meaning(facts.as_ref().expect("it is a recording"));
            (answer(&facts), meaning)
        };
        let kept = ("RT R 001", "RT R 00000500 001");
        let (answer, meaning) = judged(&[kept, ("EQ", "000000")]);
        assert_eq!(answer, "not judged at 1");
        assert_eq!(
            meaning,
            "Nothing in this recording is judged, neither for this controller nor against it."
        );
        let (answer, meaning) = judged(&[("EQ", "000000"), kept, ("TN", "TN 0000")]);
        assert_eq!(answer, "not judged at 2");
        assert_eq!(
            meaning,
            "A correct controller could have given the replies before exchange 2. From there on nothing is judged, \
             neither for this controller nor against it."
        );
        let (answer, _) = judged(&[("TN", "TN 0000"), kept]);
        assert_eq!(answer, "refuted at 1 of 2");
        let (answer, _) = judged(&[("RT R 1", "NO01"), ("RT G 001", "NO01")]);
        assert_eq!(answer, "fits 2");
    }

    #[test]
    fn refusals() {
        assert_eq!(
            refusal(1, &[]),
            "it is empty, too short for a recording, or too long for one (0 bytes; a recording has 5 to 65535 bytes)"
        );
        assert_eq!(
            refusal(3, &[1, 1, 0, 7, 2]),
            "something was lost or added since it was recorded (it says that it has 256 bytes, and has 5)"
        );
        assert_eq!(
            refusal(5, &[1, 0, 8, 7, 2, 0, 0, 1]),
            "it stops in the middle of an exchange (after 1 whole ones)"
        );
    }

    #[test]
    fn sizes() {
        assert_eq!(size(&[0]), "1 byte");
        assert_eq!(size(&vec![0; LONGEST]), "65535 bytes");
        assert_eq!(size(&vec![0; LONGEST + 1]), "more than 65535 bytes");
    }
}
