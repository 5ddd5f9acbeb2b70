//! The codes of requests, and the numbers by which they are refused, in words.

use crate::frames::{SPACE, UNPRINTABLE};

/// What each request asks for.
const REQUESTS: [(&str, &str); 18] = [
    (
        "EQ",
        "asks for the status: phase, flags, whether an alarm is on",
    ),
    ("RS", "asks for the status as a list of codes"),
    ("TN", "asks for the batch number"),
    ("RR", "asks for the recipe in use"),
    ("RC", "asks for the recipe in use and its factor"),
    (
        "RT",
        "asks for a total (R: the raw total; R and three digits: that of a kept batch, 001 the newest)",
    ),
    ("PV", "asks for the value of a parameter"),
    ("XV", "asks for the level of a parameter"),
    ("PC", "gives a parameter a value"),
    ("XC", "gives a parameter a level"),
    ("NR", "chooses a recipe"),
    ("SB", "sets a batch of this quantity"),
    ("SA", "starts the batch, or lets it go on"),
    ("SP", "stops the batch for a while"),
    ("ET", "ends the batch"),
    ("RE", "switches a flag off (BD: batch reset, PC: changed)"),
    ("EA", "asks which alarms are on"),
    ("AR", "resets alarms; some it leaves on"),
];

/// What each refusal says.
const REFUSALS: [(&str, &str); 11] = [
    ("NO00", "there is no such request"),
    ("NO01", "the request is mistyped"),
    ("NO02", "the keypad is in use"),
    ("NO03", "no such batch is kept"),
    ("NO04", "there is no such parameter"),
    ("NO05", "not possible at this phase of the batch"),
    ("NO06", "this number is never allowed here"),
    (
        "NO07",
        "the parameter's level, or the one asked for, is above the access",
    ),
    ("NO08", "understood, but this controller does not do it"),
    ("NO09", "an alarm is on"),
    ("NO30", "there is no such recipe"),
];

/// What stands for something that could not be seen.
const MARKS: [(&str, &str); 2] = [
    (SPACE, "a space that could be overlooked"),
    (UNPRINTABLE, "a byte that is no printable character"),
];

/// Those refusals that the request alone decides, whatever the record.
const BY_REQUEST: [&str; 6] = ["NO00", "NO01", "NO04", "NO06", "NO08", "NO30"];

/// What a refusal says, if the request alone decides it.
pub fn by_request(reply: &str) -> Option<&'static str> {
    let decided = BY_REQUEST.contains(&reply);
    REFUSALS
        .iter()
        .find(|(code, _)| decided && *code == reply)
        .map(|(_, meaning)| *meaning)
}

/// The codes at the start of any of these texts and the marks in them, each with what it means.
pub fn used(requests: &[String], replies: &[String]) -> Vec<(&'static str, &'static str)> {
    let starts = |texts: &[String], code: &str| texts.iter().any(|text| text.starts_with(code));
    let has = |texts: &[String], mark: &str| texts.iter().any(|text| text.contains(mark));
    let in_requests = REQUESTS
        .into_iter()
        .filter(|(code, _)| starts(requests, code));
    let in_replies = REFUSALS
        .into_iter()
        .filter(|(code, _)| starts(replies, code));
    let marks = MARKS
        .into_iter()
        .filter(|(mark, _)| has(requests, mark) || has(replies, mark));
    in_requests.chain(in_replies).chain(marks).collect()
}

#[cfg(test)]
mod tests {
    use super::*;

    #[test]
    fn refusals_by_the_request_alone() {
        assert_eq!(by_request("NO04"), Some("there is no such parameter"));
        assert_eq!(by_request("NO05"), None);
        assert_eq!(by_request("OK"), None);
    }

    #[test]
    fn only_what_is_used() {
        let texts = |words: &[&str]| {
            words
                .iter()
                .map(|word| word.to_string())
                .collect::<Vec<_>>()
        };
        let codes = used(&texts(&["SB 500", "EQ"]), &texts(&["NO05", "OK"]));
        let codes: Vec<&str> = codes.iter().map(|(code, _)| *code).collect();
        assert_eq!(codes, ["EQ", "SB", "NO05"]);
        let codes = used(
            &texts(&["RS", "\"\u{b7}01EQ\""]),
            &texts(&["RS\u{2423}", "silence"]),
        );
        let codes: Vec<&str> = codes.iter().map(|(code, _)| *code).collect();
        assert_eq!(codes, ["RS", SPACE, UNPRINTABLE]);
    }
}
