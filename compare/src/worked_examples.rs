//! The worked examples of document 01, starred and not, and the sentences of document 02, on this
//! program.

use crate::alarms;
use crate::bank::{Bank, Batch};
use crate::comparison::Comparison;
use crate::controller::{self, Outcome};
use crate::drum::{self, Answer, Picks, Step};
use crate::enumeration::plain_record;
use crate::fault::Fault;
use crate::fields::{self, FIELDS};
use crate::frame::{framed, Kind};
use crate::generate::{banks, records, requests};
use crate::interface;
use crate::judge::{judge, Alarms, Judgement};
use crate::known::{Reason, Told, Untold};
use crate::modbus;
use crate::numbers::Numbers;
use crate::panel::{self, Event};
use crate::parameters::{factor_place, parameter_code, parameter_place, LIST, VALUE_RANGES};
use crate::random::Random;
use crate::record::{Phase, Record};
use crate::recording::{self, Exchange};
use crate::several::{self, Report};
use crate::totals;
use std::fs;
use std::path::Path;

fn bench_record() -> Record {
    let mut record = Record {
        address: 1,
        access: 2,
        recipe: 3,
        number: 9_999,
        ..Record::low()
    };
    for parameter in &mut record.parameters {
        parameter.level = 1;
    }
    record.parameters[factor_place(3)].value = 10_012;
    record.parameters[parameter_place(807).unwrap()].level = 3;
    record
}

fn call(record: Record, request: &[u8]) -> (Vec<u8>, Record) {
    let mut buffer = [0xEE; 70];
    let (outcome, after) = controller::call(
        record,
        Kind::Minicomputer,
        request,
        &mut buffer,
        Fault::None,
    );
    let length = match outcome {
        Outcome::Silence(_) => 0,
        Outcome::Reply(length) => length,
    };
    assert!(buffer[length..].iter().all(|&byte| byte == 0xEE));
    (buffer[..length].to_vec(), after)
}

/// Asks a command, checks the reply and answers the record after it.
fn ask(record: Record, command: &str, reply: &str) -> Record {
    for kind in [Kind::Minicomputer, Kind::Terminal] {
        let request = framed(kind, format!("01{command}").as_bytes());
        let expected = framed(kind, format!("01{reply}").as_bytes());
        let mut buffer = [0; 64];
        let (outcome, _) = controller::call(record, kind, &request, &mut buffer, Fault::None);
        assert_eq!(outcome, Outcome::Reply(expected.len()), "{command}");
        assert_eq!(buffer[..expected.len()], expected, "{command}");
    }
    call(
        record,
        &framed(Kind::Minicomputer, format!("01{command}").as_bytes()),
    )
    .1
}

fn recorded(exchanges: &[(&str, &str)]) -> Vec<u8> {
    let text = |text: &str| framed(Kind::Minicomputer, format!("01{text}").as_bytes());
    let exchanges: Vec<_> = exchanges
        .iter()
        .map(|(request, reply)| (text(request), text(reply)))
        .collect();
    recording::build(1, 2, &exchanges)
}

fn judged(exchanges: &[(&str, &str)]) -> Judgement {
    judge(&recorded(exchanges), Fault::None)
}

fn fits(exchanges: &[(&str, &str)]) -> bool {
    let count = exchanges.len();
    judged(exchanges) == Judgement::Fits { count }
}

/// Whether it is the last exchange that is refuted.
fn refuted_at_last(exchanges: &[(&str, &str)]) -> bool {
    let count = exchanges.len();
    let place = count;
    judged(exchanges) == Judgement::Refuted { place, count }
}

#[test]
fn status_with_a_check_of_stx() {
    let request = [0x02, 0x30, 0x31, 0x45, 0x51, 0x03, 0x16, 0x7F];
    let (reply, after) = call(bench_record(), &request);
    let expected = [
        0x02, 0x30, 0x31, 0x30, 0x30, 0x30, 0x30, 0x30, 0x30, 0x03, 0x02, 0x7F,
    ];
    assert_eq!(reply, expected);
    assert_eq!(after, bench_record());
}

#[test]
fn a_batch_on_the_bench() {
    let record = ask(bench_record(), "RC", "RC 03 00010012");
    let record = ask(record, "PC 807 5", "NO07");
    assert_eq!(record, bench_record());
    let accepted = framed(Kind::Minicomputer, b"01OK");
    assert_eq!(accepted, [0x02, 0x30, 0x31, 0x4F, 0x4B, 0x03, 0x06, 0x7F]);
    let record = ask(record, "PC 032 10150", "OK");
    let record = ask(record, "PV 032", "PV 032 00010150");
    let record = ask(record, "EQ", "000800");
    let record = ask(record, "SB 500", "OK");
    let record = ask(record, "TN", "TN 0001");
    let record = ask(record, "EQ", "120800");
    let record = ask(record, "SA", "OK");
    let record = ask(record, "EQ", "5:0800");
    let record = ask(record, "RS", "RS BD PC TP RL ");
    let running = record;
    let record = ask(record, "PC 032 7999", "NO06");
    let record = ask(record, "PC 032 8000", "NO05");
    let record = ask(record, "PC 807 5", "NO07");
    let record = ask(record, "XC 032 3", "NO07");
    assert_eq!(record, running);
}

#[test]
fn forms_and_lengths() {
    ask(bench_record(), "EQ ", "NO01");
    let longest = framed(Kind::Minicomputer, format!("01EQ {:055}", 0).as_bytes());
    assert_eq!(longest.len(), 64);
    let refusal = framed(Kind::Minicomputer, b"01NO01");
    assert_eq!(call(bench_record(), &longest).0, refusal);
    let longer = framed(Kind::Minicomputer, format!("01EQ {:056}", 0).as_bytes());
    let mut buffer = [0; 64];
    let (outcome, _) = controller::call(
        bench_record(),
        Kind::Minicomputer,
        &longer,
        &mut buffer,
        Fault::None,
    );
    assert_eq!(outcome, Outcome::Silence(3));
}

#[test]
fn recordings() {
    assert_eq!(
        judge(&[0x01, 0x00, 0x05, 0x01, 0x02], Fault::None),
        Judgement::Fits { count: 0 }
    );
    let exchanges = [
        ("EQ", "000000"),
        ("PC 032 10150", "OK"),
        ("RC", "RC 03 00010012"),
    ];
    assert_eq!(recorded(&exchanges).len(), 85);
    assert_eq!(
        judged(&exchanges),
        Judgement::Refuted { place: 3, count: 3 }
    );
    assert_eq!(
        judged(&[exchanges[0], exchanges[1], ("RC", "RC 04 00010012")]),
        Judgement::Fits { count: 3 }
    );
    assert_eq!(
        judged(&[("SP", "NO05"), ("SA", "NO05"), ("SB 500", "NO05")]),
        Judgement::Refuted { place: 3, count: 3 }
    );
    assert_eq!(
        judged(&[("SA", "NO02"), ("SB 1", "NO05")]),
        Judgement::Refuted { place: 2, count: 2 }
    );
}

#[test]
fn traps_of_the_judge() {
    // A level above the access is refused whatever the parameter's level, with the keypad off.
    assert!(fits(&[("XC 032 3", "NO07"), ("XV 032", "XV 032 0")]));
    assert!(!fits(&[("XC 032 3", "NO07"), ("SA", "NO02")]));
    assert!(!fits(&[("PC 032 9000", "NO07"), ("XV 032", "XV 032 2")]));
    // What was passed before the refusal.
    assert!(!fits(&[("PC 032 9000", "NO05"), ("XV 032", "XV 032 3")]));
    assert!(!fits(&[("SA", "NO05"), ("RS", "RS PW ")]));
    assert!(fits(&[("SP", "NO05"), ("RS", "RS PW ")]));
    // No reachability, and replies that no valid record gives.
    assert!(fits(&[("RS", "RS PW TP RL ")]));
    assert!(!fits(&[("RS", "RS RL ")]));
    assert!(!fits(&[("TN", "TN 0000")]));
    assert!(!fits(&[("EQ", "480000")]));
    assert!(!fits(&[("RC", "RC 03 00012001")]));
    // The batch number goes on, 9999 to 1, whether known or not.
    let batch = [
        ("SB 1", "OK"),
        ("TN", "TN 0001"),
        ("ET", "OK"),
        ("SB 1", "OK"),
    ];
    assert!(fits(&[&batch[..], &[("TN", "TN 0002")]].concat()));
    assert!(!fits(&[&batch[..], &[("TN", "TN 0001")]].concat()));
    assert!(!fits(&[("SB 1", "OK"), ("RT R", "RT R 00000001")]));
}

fn with_alarms(phase: Phase, numbers: &[u16]) -> Record {
    Record {
        phase,
        alarms: numbers
            .iter()
            .fold(0, |set, &number| set | alarms::numbered(number)),
        ..bench_record()
    }
}

#[test]
fn alarms_on_the_link() {
    ask(bench_record(), "EA", "00000");
    // RAM Corrupt, Powerfail and Overrun; AR leaves the first and the last.
    let record = ask(with_alarms(Phase::Idle, &[1, 12, 19]), "EA", "80101");
    let record = ask(record, "EQ", "001000");
    let record = ask(record, "RS", "RS AL ");
    let record = ask(record, "AR", "OK");
    assert_eq!(record, with_alarms(Phase::Idle, &[1, 19]));
    let record = ask(record, "EA", "80001");
    let record = ask(record, "AR", "OK");
    assert_eq!(record, with_alarms(Phase::Idle, &[1, 19]));
    // All that AR switches off.
    let record = with_alarms(Phase::Stopped, &[9, 10, 11, 12, 15, 16]);
    let record = ask(record, "EA", "00?30");
    let record = ask(record, "SA", "NO09");
    let record = ask(record, "AR", "OK");
    let record = ask(record, "EA", "00000");
    let record = ask(record, "RS", "RS TP ");
    assert_eq!(ask(record, "SA", "OK").phase, Phase::Running);
    // AL is first, and alarms leave all else as it was.
    let record = Record {
        flow: true,
        ..with_alarms(Phase::Done, &[13])
    };
    let record = ask(record, "RS", "RS AL FL TD ");
    let record = ask(record, "SB 500", "OK");
    assert_eq!(ask(record, "ET", "OK").alarms, alarms::numbered(13));
}

#[test]
fn alarms_refused() {
    for number in 1..=alarms::HIGHEST_ALARM {
        for phase in Phase::ALL {
            let record = with_alarms(phase, &[number]);
            let refusal = match phase {
                Phase::Set | Phase::Stopped => "NO09",
                _ => "NO05",
            };
            assert_eq!(ask(record, "SA", refusal), record);
            let keypad = Record {
                keypad: true,
                ..record
            };
            assert_eq!(ask(keypad, "SA", "NO02"), keypad);
            assert_eq!(ask(keypad, "AR", "NO02"), keypad);
        }
    }
    let record = with_alarms(Phase::Running, &[12]);
    for text in [
        "EA ", "EAX", "EA SY", "EA M1", "AR ", "ARX", "AR AA", "AR PA SY",
    ] {
        assert_eq!(ask(record, text, "NO01"), record);
    }
    // No phase and no access is asked for, and there may be nothing to switch off.
    let locked = Record {
        access: 0,
        ..record
    };
    assert_eq!(ask(locked, "AR", "OK").alarms, 0);
    ask(bench_record(), "AR", "OK");
}

/// The record is not valid with more than the nineteen.
#[test]
fn alarms_out_of_range() {
    let record = Record {
        alarms: alarms::ALL + 1,
        ..bench_record()
    };
    let request = framed(Kind::Minicomputer, b"01EA");
    assert_eq!(call(record, &request), (vec![], record));
}

#[test]
fn judge_of_alarms() {
    let [alarm, none] = [("EQ", "001000"), ("EQ", "000000")];
    let reset = ("AR", "OK");
    // After an alarm in EQ and AR any of the lasting may be on, or none.
    assert!(fits(&[alarm, reset, alarm]));
    assert!(fits(&[alarm, reset, none]));
    for left in ["00000", "80000", "00004", "??0<7"] {
        assert!(fits(&[alarm, reset, ("EA", left)]), "{left}");
    }
    for left in ["00100", "00020", "????7", "00008"] {
        assert!(refuted_at_last(&[alarm, reset, ("EA", left)]), "{left}");
    }
    assert!(refuted_at_last(&[none, reset, alarm]));
    assert!(refuted_at_last(&[alarm, none]));
    assert!(refuted_at_last(&[alarm, ("EA", "00000")]));
    // An alarm after AR is a lasting one, and no further AR takes it off.
    for resets in 0..3 {
        let known = [&[reset, alarm][..], &vec![reset; resets]].concat();
        assert!(fits(&[&known[..], &[alarm]].concat()));
        assert!(refuted_at_last(&[&known[..], &[none]].concat()));
        assert!(refuted_at_last(&[&known[..], &[("RS", "RS ")]].concat()));
        assert!(refuted_at_last(&[&known[..], &[("EA", "00000")]].concat()));
        assert!(fits(&[&known[..], &[("EA", "00040")]].concat()));
    }
    // What EA showed goes on, without those that AR switches off.
    assert!(fits(&[("EA", "80101"), reset, ("EA", "80001")]));
    assert!(refuted_at_last(&[("EA", "80101"), reset, ("EA", "80101")]));
    assert!(refuted_at_last(&[("EA", "80101"), reset, none]));
    assert!(refuted_at_last(&[("EA", "00?30"), reset, alarm]));
    // A refused AR switches nothing off and tells nothing of the alarms.
    let keypad = ("AR", "NO02");
    assert!(fits(&[("EA", "00100"), keypad, ("EA", "00100")]));
    assert!(refuted_at_last(&[keypad, reset]));
    // EQ, RS and EA tell the same.
    assert!(refuted_at_last(&[("RS", "RS AL "), none]));
    assert!(refuted_at_last(&[("RS", "RS "), alarm]));
    assert!(refuted_at_last(&[("RS", "RS FL AL ")]));
}

#[test]
fn judge_of_a_start_refused_by_alarms() {
    // SA's OK tells that no alarm is on.
    for after in [("EQ", "581000"), ("RS", "RS AL TP RL "), ("EA", "00100")] {
        assert!(refuted_at_last(&[("SA", "OK"), after]));
    }
    assert!(fits(&[("SA", "OK"), ("EQ", "580000"), ("EA", "00000")]));
    // SA's NO09 tells that one is on, that the keypad is off and that the phase is Set or Stopped.
    let refused = ("SA", "NO09");
    for after in [
        ("EA", "00000"),
        ("RS", "RS "),
        ("SA", "OK"),
        ("SA", "NO02"),
        ("SA", "NO05"),
        ("RS", "RS AL PW "),
        ("RS", "RS AL TD "),
        ("RS", "RS AL TP RL "),
        ("SP", "OK"),
        ("SB 1", "OK"),
        ("ET", "NO05"),
    ] {
        assert!(refuted_at_last(&[refused, after]), "{after:?}");
    }
    for after in [
        ("EA", "00100"),
        ("RS", "RS AL "),
        ("RS", "RS AL TP "),
        ("ET", "OK"),
        ("AR", "OK"),
    ] {
        assert!(fits(&[refused, after]), "{after:?}");
    }
    assert!(fits(&[refused, ("AR", "OK"), ("SA", "OK")]));
    assert!(fits(&[refused, ("AR", "OK"), refused]));
    let lasting = [refused, ("AR", "OK"), refused, ("AR", "OK")];
    assert!(refuted_at_last(&[&lasting[..], &[("SA", "OK")]].concat()));
    // The keypad and the phase come first, and those refusals tell nothing of the alarms.
    for refusal in ["NO02", "NO05"] {
        for alarms in ["00000", "00100"] {
            assert!(fits(&[("SA", refusal), ("EA", alarms)]));
        }
    }
}

#[test]
fn changed_flag_on_the_bench() {
    // The value held: nothing changes, the flag stays off.
    for text in ["PC 032 10012", "PC 032 00010012"] {
        assert_eq!(ask(bench_record(), text, "OK"), bench_record());
    }
    let record = ask(bench_record(), "PC 032 10012", "OK");
    let record = ask(record, "EQ", "000000");
    let record = ask(record, "RS", "RS ");
    // Another value, and the same again: the flag is on and stays on.
    let record = ask(record, "PC 032 10150", "OK");
    let record = ask(record, "EQ", "000800");
    let changed = ask(record, "PC 032 10150", "OK");
    assert_eq!(changed, record);
    ask(changed, "RS", "RS PC ");
    // Cleared, it stays off for the value held now and goes on for the one held before.
    let record = ask(changed, "RE PC", "OK");
    let record = ask(record, "PC 032 10150", "OK");
    let record = ask(record, "EQ", "000000");
    let record = ask(record, "PC 032 10012", "OK");
    ask(record, "EQ", "000800");
    // What another recipe's factor holds does not count.
    let record = ask(bench_record(), "PC 042 10012", "OK");
    ask(record, "EQ", "000800");
    let record = ask(bench_record(), "PC 042 8000", "OK");
    ask(record, "EQ", "000000");
}

#[test]
fn changed_flag_of_every_parameter() {
    for (place, (low, high)) in VALUE_RANGES.into_iter().enumerate() {
        for changed in [false, true] {
            let mut record = Record {
                access: 3,
                changed,
                ..bench_record()
            };
            let code = parameter_code(place);
            for held in [low, high] {
                record.parameters[place].value = held;
                let equal = ask(record, &format!("PC {code:03} {held}"), "OK");
                assert_eq!(equal, record);
                let written = ask(record, &format!("PC {code:03} {}", low + high - held), "OK");
                assert!(written.changed);
            }
            // A refused PC leaves the flag, whatever the value.
            record.keypad = true;
            for value in [low, high] {
                let refused = ask(record, &format!("PC {code:03} {value}"), "NO02");
                assert_eq!(refused, record);
            }
        }
    }
}

#[test]
fn judge_of_the_changed_flag() {
    let [off, on] = [("EQ", "000000"), ("EQ", "000800")];
    let [write, write_other] = [("PC 032 9000", "OK"), ("PC 032 9001", "OK")];
    let shown = ("PV 032", "PV 032 00009000");
    let clear = ("RE PC", "OK");
    // The old value is not known: the flag may be either, but one that is on stays on.
    assert!(fits(&[off, write, off]));
    assert!(fits(&[off, write, on]));
    assert!(fits(&[write, off]));
    assert!(fits(&[on, write, on]));
    assert!(refuted_at_last(&[on, write, off]));
    assert!(refuted_at_last(&[on, write, ("RS", "RS ")]));
    // A parameter of two values is no different.
    for value in ["0", "1"] {
        let write = (&*format!("PC 806 {value}"), "OK");
        assert!(fits(&[off, write, off]) && fits(&[off, write, on]));
    }
    // It is known from PV, from RC of that recipe, or from a PC before.
    for known in [shown, ("RC", "RC 03 00009000")] {
        assert!(fits(&[off, known, write, off]), "{known:?}");
        assert!(refuted_at_last(&[off, known, write, on]), "{known:?}");
        assert!(refuted_at_last(&[off, known, write_other, off]));
        assert!(fits(&[off, known, write_other, on]), "{known:?}");
        assert!(refuted_at_last(&[on, known, write, off]), "{known:?}");
    }
    assert!(fits(&[write, clear, write, off]));
    assert!(refuted_at_last(&[write, clear, write, on]));
    assert!(refuted_at_last(&[write, clear, write_other, off]));
    assert!(fits(&[off, write, write_other, on]));
    assert!(refuted_at_last(&[off, write, write_other, off]));
    // Another recipe's factor tells nothing, and a refused PC neither writes nor tells.
    for other in [("RC", "RC 04 00009000"), ("PC 042 9000", "OK")] {
        assert!(fits(&[other, clear, write, off]), "{other:?}");
        assert!(fits(&[other, clear, write, on]), "{other:?}");
    }
    assert!(fits(&[off, ("PC 032 7999", "NO06"), write, on]));
    assert!(fits(&[off, ("PC 032 9000", "NO07"), off]));
    assert!(refuted_at_last(&[off, ("PC 032 9000", "NO07"), on]));
    // The flag is not known: it tells nothing before, all the same after.
    assert!(fits(&[shown, write, on]));
    assert!(refuted_at_last(&[shown, write_other, off]));
    assert!(refuted_at_last(&[shown, write, off, write, on]));
}

/// The bytes that are written out in hexadecimal digits.
fn bytes(digits: &str) -> Vec<u8> {
    let byte = |digits| u8::from_str_radix(digits, 16).unwrap();
    digits.split(' ').map(byte).collect()
}

/// Walks over a stream with so much reply room, checks the bytes taken, the frames answered and the
/// replies, and answers the record then.
fn walk(record: Record, stream: &str, room: usize, expected: (usize, usize, &[&str])) -> Record {
    let (taken, answered, replies) = expected;
    let replies: Vec<u8> = replies.iter().flat_map(|digits| bytes(digits)).collect();
    let mut after = record;
    let mut reply = vec![0xEE; room];
    let report = several::answer_all(&mut after, &bytes(stream), &mut reply, Fault::None);
    let expected = Report {
        taken,
        answered,
        written: replies.len(),
    };
    assert_eq!(report, Some(expected), "{stream}");
    assert_eq!(reply[..replies.len()], replies, "{stream}");
    let kept = &reply[replies.len()..];
    assert!(kept.iter().all(|&byte| byte == 0xEE), "{stream}");
    after
}

// Frames to the bench record, and their replies.
const EQ: &str = "02 30 31 45 51 03 16 7F";
const EQ_REPLY: &str = "02 30 31 30 30 30 30 30 30 03 02 7F";
const OTHER_ADDRESS: &str = "02 30 32 45 51 03 15 7F";
const WRONG_CHECK: &str = "02 30 31 45 51 03 17 7F";
/// "01AA", whose check is STX.
const AA: &str = "02 30 31 41 41 03 02 7F";
const NO00: &str = "02 30 31 4E 4F 30 30 03 03 7F";

#[test]
fn several_frames_end_to_end() {
    // EQ, PC 032 10150, RC: the third sees what the second wrote.
    let write = "02 30 31 50 43 20 30 33 32 20 31 30 31 35 30 03 15 7F";
    let stream = format!("{EQ} {write} 02 30 31 52 43 03 13 7F");
    let replies = [
        EQ_REPLY,
        "02 30 31 4F 4B 03 06 7F",
        "02 30 31 52 43 20 30 33 20 30 30 30 31 30 31 35 30 03 15 7F",
    ];
    let after = walk(bench_record(), &stream, 200, (34, 3, &replies));
    assert_eq!(after, ask(bench_record(), "PC 032 10150", "OK"));
    // An answer needs 64 bytes: 12 + 8 + 64 for the third.
    for (room, taken, answered) in [(63, 0, 0), (64, 8, 1), (75, 8, 1), (76, 26, 2), (83, 26, 2)] {
        let expected = (taken, answered, &replies[..answered]);
        let after = walk(bench_record(), &stream, room, expected);
        assert_eq!(after.changed, answered == 2);
    }
    walk(bench_record(), &stream, 84, (34, 3, &replies));
}

#[test]
fn several_frames_and_what_is_passed_over() {
    // Two bytes that are none of a frame, another address, a wrong check, EQ, and EQ cut.
    let stream = format!("41 0D {OTHER_ADDRESS} {WRONG_CHECK} {EQ} 02 30 31 45");
    walk(bench_record(), &stream, 64, (26, 1, &[EQ_REPLY]));
    // No room is needed up to where an answer is due.
    for room in [0, 63] {
        walk(bench_record(), &stream, room, (18, 0, &[]));
    }
    // A break, whose last byte is an STX.
    walk(
        bench_record(),
        &format!("02 30 31 {EQ}"),
        64,
        (11, 1, &[EQ_REPLY]),
    );
}

#[test]
fn several_frames_with_stx_in_the_check() {
    let both = [NO00, EQ_REPLY];
    walk(bench_record(), &format!("{AA} {EQ}"), 80, (16, 2, &both));
    // Its PAD lost, the check begins a frame.
    let inside = "02 30 31 41 41 03 02 30 31 45 51 03 16 7F";
    walk(bench_record(), inside, 64, (14, 1, &[EQ_REPLY]));
    walk(bench_record(), &inside[..3 * 13 - 1], 64, (6, 0, &[]));
    // A text that is too short, in whose followers a frame begins.
    let short = format!("02 03 {EQ}");
    walk(bench_record(), &short, 64, (10, 1, &[EQ_REPLY]));
}

#[test]
fn several_frames_cut_by_the_end() {
    for cut in ["02", "02 30 31", "02 03", "02 03 16", "02 30 32 45 51 03"] {
        walk(bench_record(), cut, 64, (0, 0, &[]));
        let behind = format!("{EQ} 7F {cut}");
        walk(bench_record(), &behind, 64, (9, 1, &[EQ_REPLY]));
    }
    walk(bench_record(), "02 03 16 7F", 64, (4, 0, &[]));
    // The longest frame, "01EQ " and 55 zeros, at each of its last bytes.
    let text = format!("02 30 31 45 51 20{}", " 30".repeat(55));
    let refusal = "02 30 31 4E 4F 30 31 03 02 7F";
    for undecided in [text.clone(), format!("{text} 03"), format!("{text} 03 06")] {
        walk(bench_record(), &undecided, 64, (0, 0, &[]));
    }
    let longest = format!("{text} 03 06 7F");
    walk(bench_record(), &longest, 64, (64, 1, &[refusal]));
    // A 61st text byte is a break, and so is what is no text byte.
    walk(bench_record(), &format!("{text} 30"), 64, (62, 0, &[]));
    walk(bench_record(), &format!("{text} 7F"), 64, (62, 0, &[]));
    walk(bench_record(), "02 30 1F", 64, (3, 0, &[]));
}

#[test]
fn several_frames_to_a_record_that_is_not_valid() {
    let invalid = Record {
        recipe: 0,
        ..bench_record()
    };
    let (mut record, mut reply) = (invalid, [0xEE; 64]);
    let report = several::answer_all(&mut record, &bytes(EQ), &mut reply, Fault::None);
    assert_eq!((report, record, reply), (None, invalid, [0xEE; 64]));
}

/// The batch that bench and worked examples come to: number 1, recipe 3, factor 10150, raw 500, preset 500.
const KEPT: &str = "00 01 03 27 A6 00 00 01 F4 00 01 F4";

/// Asks a unit with a bank, checks the reply and answers the record after it.
fn ask_banked(record: Record, bank: &mut Bank, command: &str, reply: &str) -> Record {
    let mut last = record;
    let before = bank.clone();
    for kind in [Kind::Terminal, Kind::Minicomputer] {
        let request = framed(kind, format!("01{command}").as_bytes());
        let expected = framed(kind, format!("01{reply}").as_bytes());
        let mut buffer = [0xEE; 70];
        bank.clone_from(&before);
        let (outcome, after) =
            controller::banked_call(record, bank, kind, &request, &mut buffer, Fault::None);
        assert_eq!(outcome, Outcome::Reply(expected.len()), "{command}");
        assert_eq!(buffer[..expected.len()], expected, "{command}");
        assert!(buffer[expected.len()..].iter().all(|&byte| byte == 0xEE));
        last = after;
    }
    last
}

/// The bench's batch of 500, done by pulses or stopped, and then ended.
fn batch_on_the_bench(record: Record, bank: &mut Bank, stopped: bool) -> Record {
    let record = ask_banked(record, bank, "PC 032 10150", "OK");
    let record = ask_banked(record, bank, "SB 500", "OK");
    let record = ask_banked(record, bank, "SA", "OK");
    let record = if stopped {
        ask_banked(record, bank, "SP", "OK")
    } else {
        record
    };
    let record = panel::after(record, Event::Pulses(500), Fault::None);
    let expected = if stopped { Phase::Stopped } else { Phase::Done };
    assert_eq!(record.phase, expected);
    ask_banked(record, bank, "ET", "OK")
}

#[test]
fn finished_batches_kept() {
    for stopped in [false, true] {
        let mut bank = Bank::default();
        let record = ask_banked(bench_record(), &mut bank, "RT R 001", "NO03");
        let record = batch_on_the_bench(record, &mut bank, stopped);
        let form = [bytes("01 00 0F"), bytes(KEPT)].concat();
        assert_eq!(bank.form(Fault::None), form);
        // What is written afterwards leaves it.
        let record = ask_banked(record, &mut bank, "PC 032 10012", "OK");
        let record = ask_banked(record, &mut bank, "NR 04", "OK");
        let record = ask_banked(record, &mut bank, "SB 7", "OK");
        let record = ask_banked(record, &mut bank, "RT R", "RT R 00000000");
        let record = ask_banked(record, &mut bank, "RT R 001", "RT R 00000500 001");
        assert_eq!(bank.form(Fault::None), form);
        // From Set nothing is kept; from Idle ET is refused.
        let record = ask_banked(record, &mut bank, "ET", "OK");
        let record = ask_banked(record, &mut bank, "ET", "NO05");
        assert_eq!(bank.form(Fault::None), form);
        let record = ask_banked(record, &mut bank, "RT R 002", "NO03");
        ask_banked(record, &mut bank, "RT R 000", "NO03");
    }
}

/// The request and the reply byte by byte.
#[test]
fn a_kept_batch_on_the_line() {
    let mut bank = Bank::default();
    let record = batch_on_the_bench(bench_record(), &mut bank, false);
    let request = bytes("02 30 31 52 54 20 52 20 30 30 31 03 67 7F");
    let expected = bytes("02 30 31 52 54 20 52 20 30 30 30 30 30 35 30 30 20 30 30 31 03 42 7F");
    let mut buffer = [0; 64];
    let kind = Kind::Minicomputer;
    let (outcome, after) =
        controller::banked_call(record, &mut bank, kind, &request, &mut buffer, Fault::None);
    assert_eq!((outcome, after), (Outcome::Reply(23), record));
    assert_eq!(buffer[..23], expected);
    // Without a bank document 01's NO01.
    assert_eq!(
        call(record, &request),
        (bytes("02 30 31 4E 4F 30 31 03 02 7F"), record)
    );
}

/// What is printed for a stored bank.
fn printed(stored: &[u8]) -> String {
    totals::text(stored, Fault::None).1
}

/// The bench's batch, and its form as document 02 has it: recipe 3, factor 10150, raw 500.
#[test]
fn totals_of_the_bench() {
    let mut bank = Bank::default();
    assert_eq!(printed(&bank.form(Fault::None)), "");
    let record = batch_on_the_bench(bench_record(), &mut bank, false);
    let form = bank.form(Fault::None);
    assert_eq!(form, [bytes("01 00 0F"), bytes(KEPT)].concat());
    assert_eq!(printed(&form), "03 1 507.5000\n");
    // A second batch, of recipe 1 at its lowest factor: 500 times 0.8.
    let record = ask_banked(record, &mut bank, "NR 01", "OK");
    batch_on_the_bench(record, &mut bank, true);
    let both = printed(&bank.form(Fault::None));
    assert_eq!(both, "01 1 400.0000\n03 1 507.5000\n");
}

#[test]
fn totals_of_bad_banks() {
    assert_eq!(printed(&[]), "refused K7\n");
    for stored in [
        "01",
        "01 00",
        "00 00 03",
        "01 00 02",
        "01 00 0F",
        "01 00 03 00",
    ] {
        assert_eq!(printed(&bytes(stored)), "refused K7\n", "{stored}");
    }
    // Recipe 9 in place of 3.
    let bad = [bytes("01 00 0F"), bytes(&KEPT.replace("01 03", "01 09"))].concat();
    assert_eq!(printed(&bad), "refused K7\n");
}

/// Lends a Modbus frame to a record; answers what comes of it.
fn on_modbus(record: Record, frame: &str, room: usize) -> (Outcome, Record, Vec<u8>) {
    let mut buffer = vec![0xEE; room];
    let (outcome, after) = modbus::call(record, None, &bytes(frame), &mut buffer, Fault::None);
    let length = match outcome {
        Outcome::Silence(_) => 0,
        Outcome::Reply(length) => length,
    };
    let behind = buffer.split_off(length);
    assert!(behind.iter().all(|&byte| byte == 0xEE));
    (outcome, after, buffer)
}

/// Lends a Modbus frame, checks the reply byte by byte and answers the record after it.
fn ask_modbus(record: Record, frame: &str, reply: &str) -> Record {
    let (_, after, laid) = on_modbus(record, frame, 256);
    assert_eq!(laid, bytes(reply), "{frame}");
    after
}

/// The value 10150 to the pair of 032.
const WRITE_10150: &str = "01 10 00 0E 00 02 04 00 00 27 A6 E9 A9";

/// 02 07 has the CRC 1241; the frames of document 002 have theirs as they are sent.
#[test]
fn crc_of_the_standard_and_of_a_maker() {
    assert_eq!(modbus::crc(&[0x02, 0x07]), 0x1241);
    assert_eq!(modbus::crc(b"123456789"), 0x4B37);
    for frame in [
        "02 07 41 12",
        "7B 10 07 D0 00 01 02 00 02 59 A3",
        "7B 10 03 78 00 01 02 00 02 05 8B",
    ] {
        let frame = bytes(frame);
        assert_eq!(modbus::framed(&frame[..frame.len() - 2]), frame);
    }
}

/// 032 is at place 7 of the list, so it is the registers 14 and 15; 10012 is 271C, 10150 is 27A6.
#[test]
fn a_factor_read_and_written_on_modbus() {
    let read = "01 03 00 0E 00 02 A5 C8";
    let record = ask_modbus(bench_record(), read, "01 03 04 00 00 27 1C E0 0A");
    assert_eq!(record, bench_record());
    let low_word = "01 03 00 0F 00 01 B4 09";
    ask_modbus(record, low_word, "01 03 02 27 1C A2 7D");
    let record = ask_modbus(record, WRITE_10150, "01 10 00 0E 00 02 20 0B");
    assert_eq!(record, ask(bench_record(), "PC 032 10150", "OK"));
    let record = ask_modbus(record, read, "01 03 04 00 00 27 A6 61 B9");
    let record = ask(record, "PV 032", "PV 032 00010150");
    let record = ask(record, "EQ", "000800");
    // Written once more the value is the one held, and the flag stays off.
    let record = ask(record, "RE PC", "OK");
    let record = ask_modbus(record, WRITE_10150, "01 10 00 0E 00 02 20 0B");
    ask(record, "EQ", "000000");
}

#[test]
fn all_registers_read_at_once_on_modbus() {
    let record = bench_record();
    let request = modbus::read_request(1, 0, 64);
    let mut buffer = [0xEE; 256];
    let (outcome, after) = modbus::call(record, None, &request, &mut buffer, Fault::None);
    assert_eq!((outcome, after), (Outcome::Reply(133), record));
    assert_eq!(buffer[..3], [1, 3, 128]);
    for (shown, parameter) in buffer[3..131].chunks(4).zip(record.parameters) {
        assert_eq!(shown, parameter.value.to_be_bytes());
    }
    assert_eq!(modbus::framed(&buffer[..131]), buffer[..133]);
    assert_eq!(buffer[133..], [0xEE; 123]);
}

#[test]
fn each_exception_on_modbus() {
    let refused = |record: Record, frame: &str, reply: &str| {
        assert_eq!(ask_modbus(record, frame, reply), record);
    };
    let bench = bench_record();
    // Function 6, and one with nothing behind it.
    refused(bench, "01 06 00 0E 27 A6 73 83", "01 86 01 83 A0");
    refused(bench, "01 07 41 E2", "01 87 01 82 30");
    // None at 9999, one at 9999, two at the last.
    refused(bench, "01 03 27 0F 00 00 7F 7D", "01 83 03 01 31");
    refused(bench, "01 03 27 0F 00 01 BE BD", "01 83 02 C0 F1");
    refused(bench, "01 03 00 3F 00 02 F4 07", "01 83 02 C0 F1");
    // One register, two pairs, six bytes; then an odd register.
    let bad_value = "01 90 03 0C 01";
    for frame in [
        "01 10 00 0E 00 01 02 27 A6 3C F4",
        "01 10 00 0E 00 04 08 00 00 27 A6 00 00 00 01 90 A3",
        "01 10 00 0E 00 02 06 00 00 27 A6 00 00 AC 2E",
    ] {
        refused(bench, frame, bad_value);
    }
    let odd = "01 10 00 0F 00 02 04 00 00 27 A6 28 65";
    refused(bench, odd, "01 90 02 CD C1");
    // 7999, and 100,000,000, which has nine digits.
    let below = "01 10 00 0E 00 02 04 00 00 1F 3F 3A 03";
    refused(bench, below, bad_value);
    let nine_digits = "01 10 00 0E 00 02 04 05 F5 E1 00 2A 8D";
    refused(bench, nine_digits, bad_value);
    // The level of 807, the keypad, the phase.
    let failed = "01 90 04 4D C3";
    refused(bench, "01 10 00 3C 00 02 04 00 00 00 05 30 ED", failed);
    let keypad = Record {
        keypad: true,
        ..bench
    };
    let running = Record {
        phase: Phase::Running,
        ..bench
    };
    for record in [keypad, running] {
        refused(record, WRITE_10150, failed);
        refused(record, below, bad_value);
    }
}

#[test]
fn each_silence_on_modbus() {
    let silent = |record: Record, frame: &str, room: usize, number: u8| {
        let nothing = (Outcome::Silence(number), record, vec![]);
        assert_eq!(on_modbus(record, frame, room), nothing, "{frame}");
    };
    let bench = bench_record();
    let invalid = Record {
        recipe: 0,
        ..bench_record()
    };
    silent(invalid, "01", 0, 1);
    silent(bench, "01", 255, 2);
    silent(bench, "01 7E 80", 256, 3);
    let longest = modbus::framed(&[&[1, 7][..], &[0; 252]].concat());
    let mut buffer = [0; 256];
    for (length, outcome) in [(256, Outcome::Reply(5)), (257, Outcome::Silence(3))] {
        let mut frame = longest.clone();
        frame.resize(length, 0);
        let answered = modbus::call(bench, None, &frame, &mut buffer, Fault::None);
        assert_eq!(answered, (outcome, bench));
    }
    // The CRC high byte first, and that of another frame.
    silent(bench, "01 10 00 0E 00 02 04 00 00 27 A6 A9 E9", 256, 4);
    silent(bench, "02 03 00 0E 00 02 A5 C8", 256, 4);
    silent(bench, "02 03 00 0E 00 02 A5 FB", 256, 5);
    silent(bench, "00 03 00 0E 00 02 A4 19", 256, 5);
    silent(bench, "01 83 00 0E 00 02 A4 16", 256, 6);
    silent(bench, "01 03 00 0E 00 1D E4", 256, 7);
    silent(bench, "01 03 00 0E 00 02 00 08 7B", 256, 7);
    silent(bench, "01 10 00 0E 00 02 04 00 00 27 3B 28", 256, 8);
}

/// A bank that is not valid is met by M1 too; a good one changes nothing.
#[test]
fn a_bank_beside_modbus() {
    let request = bytes(WRITE_10150);
    let answered = |bank: Option<&Bank>| {
        let mut buffer = [0; 256];
        modbus::call(bench_record(), bank, &request, &mut buffer, Fault::None)
    };
    let mut bank = Bank::default();
    batch_on_the_bench(bench_record(), &mut bank, false);
    assert_eq!(answered(Some(&bank)), answered(None));
    let batch = Batch {
        recipe: 9,
        ..Batch::of(&bench_record(), Fault::None)
    };
    let bad = Bank::with([batch]);
    let nothing = (Outcome::Silence(1), bench_record());
    assert_eq!(answered(Some(&bad)), nothing);
}

#[test]
fn kept_batches_refused() {
    let mut bank = Bank::default();
    let ended = batch_on_the_bench(bench_record(), &mut bank, false);
    let before = bank.clone();
    for text in [
        "RT R 1",
        "RT R 01",
        "RT R 0001",
        "RT R ",
        "RT R 001 ",
        "RT R  001",
        "RT R 00A",
        "RT G 001",
        "RT N 001",
        "RT P 000",
        "RT M 101",
        "RT X 001",
        "RT 001",
        "RT R001",
    ] {
        assert_eq!(ask_banked(ended, &mut bank, text, "NO01"), ended);
        assert_eq!(ask(ended, text, "NO01"), ended);
    }
    for number in [0, 2, 99, 100, 101, 256, 257, 999] {
        let text = format!("RT R {number:03}");
        assert_eq!(ask_banked(ended, &mut bank, &text, "NO03"), ended);
        assert_eq!(ask(ended, &text, "NO01"), ended);
    }
    // No keypad, access or phase is asked for.
    for phase in Phase::ALL {
        let record = Record {
            phase,
            keypad: true,
            access: 0,
            ..ended
        };
        ask_banked(record, &mut bank, "RT R 001", "RT R 00000500 001");
        ask_banked(record, &mut bank, "RT R 002", "NO03");
        ask_banked(record, &mut bank, "ET", "NO02");
        if matches!(phase, Phase::Idle | Phase::Running) {
            let record = Record {
                keypad: false,
                ..record
            };
            ask_banked(record, &mut bank, "ET", "NO05");
        }
    }
    assert_eq!(bank, before);
}

/// The oldest gives its room to the 101st.
#[test]
fn more_batches_than_are_kept() {
    let mut bank = Bank::default();
    for number in 1..=250u16 {
        let record = Record {
            phase: Phase::Stopped,
            raw: u32::from(number),
            number,
            ..bench_record()
        };
        ask_banked(record, &mut bank, "ET", "OK");
        let newest = format!("RT R {number:08} 001");
        ask_banked(record, &mut bank, "RT R 001", &newest);
        let kept = number.min(100);
        let oldest = format!("RT R {:08} {kept:03}", number - kept + 1);
        ask_banked(record, &mut bank, &format!("RT R {kept:03}"), &oldest);
        let past = format!("RT R {:03}", kept + 1);
        ask_banked(record, &mut bank, &past, "NO03");
    }
    let form = bank.form(Fault::None);
    assert_eq!(form.len(), 1203);
    assert_eq!(form[..5], [1, 0x04, 0xB3, 0, 151]);
    assert_eq!(form[1191..1193], [0, 250]);
}

/// A bank changes no reply but to RT R NNN, and no record.
#[test]
fn a_bank_changes_nothing_else() {
    let mut random = Random::new(7);
    for _ in 0..5_000 {
        let record = records::record(&mut random);
        let kind = random.pick(&[Kind::Minicomputer, Kind::Terminal]);
        let request = requests::request(&mut random, kind, &record, requests::command);
        let mut bank = banks::bank(&mut random);
        let (mut with, mut without) = ([0; 64], [0; 64]);
        let banked =
            controller::banked_call(record, &mut bank, kind, &request, &mut with, Fault::None);
        let alone = controller::call(record, kind, &request, &mut without, Fault::None);
        assert_eq!((banked, with), (alone, without), "{request:02X?}");
    }
}

/// A bank that is not valid is S1; nothing changes.
#[test]
fn a_bank_that_is_not_valid() {
    let good = Batch {
        number: 1,
        recipe: 3,
        factor: 10_150,
        raw: 500,
        preset: 500,
    };
    let stopped = Record {
        phase: Phase::Stopped,
        ..bench_record()
    };
    for batches in [vec![Batch { recipe: 9, ..good }, good], vec![good; 101]] {
        let mut bank = Bank::with(batches);
        let before = bank.clone();
        for text in ["01ET", "01EQ", "01RT R 001"] {
            let request = framed(Kind::Terminal, text.as_bytes());
            let mut buffer = [0xEE; 64];
            let called = controller::banked_call(
                stopped,
                &mut bank,
                Kind::Terminal,
                &request,
                &mut buffer,
                Fault::None,
            );
            assert_eq!(called, (Outcome::Silence(1), stopped));
            assert_eq!((&bank, buffer), (&before, [0xEE; 64]));
        }
    }
}

#[test]
fn judge_of_kept_batches() {
    let asked = ("RT R 001", "RT R 00000500 001");
    let [idle, wrong] = [("EQ", "000000"), ("TN", "TN 0000")];
    let not_judged = |place, count| Judgement::NotJudged { place, count };
    // Whatever the reply and whatever follows, and 000 and 999 too.
    for text in ["RT R 001", "RT R 000", "RT R 100", "RT R 999"] {
        for reply in ["RT R 00000500 001", "NO03", "NO01", "OK"] {
            assert_eq!(judged(&[(text, reply)]), not_judged(1, 1));
            assert_eq!(judged(&[idle, (text, reply), wrong]), not_judged(2, 3));
        }
    }
    assert_eq!(judged(&[idle, asked, asked, idle]), not_judged(2, 4));
    // What is before it is judged alone, and N counts all.
    let refuted = Judgement::Refuted { place: 2, count: 4 };
    assert_eq!(judged(&[idle, wrong, asked, idle]), refuted);
    assert_eq!(judged(&[idle, idle, asked, wrong]), not_judged(3, 4));
    // These ask for none.
    for text in ["RT G 001", "RT R 1", "RT R 0001", "RT R 001 "] {
        assert!(fits(&[(text, "NO01"), idle]), "{text}");
        assert!(refuted_at_last(&[(text, "NO03")]), "{text}");
    }
}

/// A request that meets a silence asks for nothing; one that meets none is not judged, also where no reply
/// was recorded. The form comes first.
#[test]
fn judge_of_kept_batches_and_silences() {
    let asked = framed(Kind::Minicomputer, b"01RT R 001");
    let mut wrong_check = asked.clone();
    wrong_check[12] ^= 1;
    let other_address = framed(Kind::Minicomputer, b"02RT R 001");
    let terminal = framed(Kind::Terminal, b"01RT R 001");
    let reply = framed(Kind::Minicomputer, b"01NO03");
    let one = |request: &[u8], reply: &[u8]| {
        let exchanges = [(request.to_vec(), reply.to_vec())];
        judge(&recording::build(1, 2, &exchanges), Fault::None)
    };
    for silent in [&wrong_check, &other_address, &terminal] {
        assert_eq!(one(silent, &[]), Judgement::Fits { count: 1 });
        let refuted = Judgement::Refuted { place: 1, count: 1 };
        assert_eq!(one(silent, &reply), refuted);
    }
    let not_judged = Judgement::NotJudged { place: 1, count: 1 };
    for reply in [&[][..], &[0], &reply] {
        assert_eq!(one(&asked, reply), not_judged);
    }
    let mut cut = recording::build(1, 2, &[(asked, reply)]);
    cut.extend([0]);
    recording::mend_length(&mut cut);
    assert_eq!(judge(&cut, Fault::None), Judgement::Refused(5));
}

#[test]
fn told_of_kept_batches() {
    let bytes = recorded(&[
        ("EQ", "000000"),
        ("SB 500", "OK"),
        ("RT R 001", "NO03"),
        ("TN", "TN 0000"),
    ]);
    let told = Told::by(&bytes, Fault::None);
    let known = |exchanges| told.known(exchanges, FIELDS, Fault::None);
    assert_eq!(known(2).unwrap()[fields::PRESET], Numbers::Just(500));
    for exchanges in [3, 4, 5, usize::MAX] {
        assert_eq!(known(exchanges), Err(Untold::NotJudged(3)));
    }
    assert_eq!(told.why(Fault::None), Ok(Some((3, Reason::KeptBatch))));
    // A refutation before it is told as ever.
    let bytes = recorded(&[("TN", "TN 0000"), ("RT R 001", "NO03")]);
    let told = Told::by(&bytes, Fault::None);
    assert_eq!(told.why(Fault::None), Ok(Some((1, Reason::NoRecord))));
    let known = told.known(2, FIELDS, Fault::None);
    assert_eq!(known, Err(Untold::Refuted(1)));
}

/// Over sets nothing is learnt from it, whatever the reply; a silent one is a silence.
#[test]
fn nothing_learnt_from_kept_batches() {
    let begun = Told::by(&recorded(&[]), Fault::None);
    let sets = begun.known(0, FIELDS, Fault::None).unwrap();
    let before = sets.map(Numbers::written);
    let asked = framed(Kind::Minicomputer, b"01RT R 001");
    let other_address = framed(Kind::Minicomputer, b"02RT R 001");
    let reply = framed(Kind::Minicomputer, b"01NO03");
    for (request, reply, expected) in [
        (&asked, &reply[..], 2),
        (&asked, &[], 2),
        (&other_address, &[], 0),
        (&other_address, &reply, 1),
    ] {
        let mut sets = before;
        let exchange = Exchange { request, reply };
        let answer = interface::learn(1, 2, exchange, &mut sets, Fault::None);
        assert_eq!((answer, sets), (expected, before));
        let short = interface::learn(1, 2, exchange, &mut sets[1..], Fault::None);
        assert_eq!((short, sets), (401, before));
    }
}

/// The foreman at unit 7: recipe 3, factor 10150 (27A6), preset 500 (1F4). Each request with its check,
/// and the right reply with its check.
const PICKS: Picks = Picks {
    address: 7,
    recipe: 3,
    factor: 10_150,
    preset: 500,
};
const DRUM_CHANGE: [(&str, u8, &str, u8); 5] = [
    ("07NR 03", 0x3B, "07OK", 0x00),
    ("07PC 032 00010150", 0x23, "07OK", 0x00),
    ("07PV 032", 0x13, "07PV 032 00010150", 0x36),
    ("07RC", 0x15, "07RC 03 00010150", 0x13),
    ("07SB 000500", 0x30, "07OK", 0x00),
];

/// The state held while the reply of a step is awaited, after the end and after a stop.
fn held(step: u8) -> [u8; 8] {
    [0x07, 0x03, 0x27, 0xA6, 0x00, 0x01, 0xF4, step]
}

/// The frame of a text, with its check written out.
fn checked(text: &str, check: u8) -> Vec<u8> {
    let frame = [&[0x02], text.as_bytes(), &[0x03, check, 0x7F]].concat();
    assert_eq!(frame, framed(Kind::Minicomputer, text.as_bytes()));
    frame
}

/// Takes a reply; answers that, the state then and the request that was laid, behind which nothing
/// may be.
fn take(mut state: [u8; 8], reply: &[u8]) -> (Answer, [u8; 8], Vec<u8>) {
    let mut request = [0xEE; 70];
    let answer = drum::take(&mut state, reply, &mut request, Fault::None);
    (answer, state, laid(answer, &request))
}

fn laid(answer: Answer, request: &[u8]) -> Vec<u8> {
    let length = match answer {
        Answer::Request(length) => length,
        _ => 0,
    };
    assert!(request[length..].iter().all(|&byte| byte == 0xEE));
    request[..length].to_vec()
}

#[test]
fn drum_change() {
    let unit = Record {
        address: 7,
        ..bench_record()
    };
    let mut record = unit;
    let (mut state, mut lent) = ([0xEE; 8], [0xEE; 70]);
    let mut answer = drum::begin(PICKS, &mut state, &mut lent, Fault::None);
    let mut given = laid(answer, &lent);
    for ((text, check, reply_text, reply_check), step) in DRUM_CHANGE.into_iter().zip(1..) {
        let (request, reply) = (checked(text, check), checked(reply_text, reply_check));
        assert_eq!(answer, Answer::Request(request.len()), "{text}");
        assert_eq!((state, &given), (held(step), &request), "{text}");
        let (replied, after) = call(record, &request);
        assert_eq!(replied, reply, "{text}");
        record = after;
        (answer, state, given) = take(state, &reply);
    }
    assert_eq!((answer, state, given), (Answer::Ended, held(6), vec![]));
    let mut set = Record {
        phase: Phase::Set,
        preset: 500,
        changed: true,
        batch_reset: true,
        number: 1,
        ..unit
    };
    set.parameters[factor_place(3)].value = 10_150;
    assert_eq!(record, set);
    // Nothing is awaited after the end.
    let refused = (Answer::Refused(4), held(6), vec![]);
    assert_eq!(take(held(6), &checked("07OK", 0x00)), refused);
}

/// The controller of the forty discs says OK to the new factor and goes on showing the old one.
#[test]
fn drum_change_stopped_by_the_old_factor() {
    let old = checked("07PV 032 00010012", 0x31);
    let stopped = (Answer::Stopped(Step::ReadFactor), held(13), vec![]);
    assert_eq!(take(held(3), &old), stopped);
    // No reply brings it to SB any more.
    for (_, _, text, check) in DRUM_CHANGE {
        let refused = (Answer::Refused(4), held(13), vec![]);
        assert_eq!(take(held(13), &checked(text, check)), refused);
    }
    let shown = checked("07RC 03 00010012", 0x14);
    let stopped = (Answer::Stopped(Step::ReadRecipe), held(14), vec![]);
    assert_eq!(take(held(4), &shown), stopped);
}

/// What a listed parameter shows, and that a write changes it and no other.
fn ask_listed(record: Record, place: usize) {
    let code = LIST[place].code;
    let (low, high) = LIST[place].range;
    let held = record.parameters[place];
    let value = format!("PV {code:03} {:08}", held.value);
    let level = format!("XV {code:03} {}", held.level);
    assert_eq!(ask(record, &format!("PV {code:03}"), &value), record);
    assert_eq!(ask(record, &format!("XV {code:03}"), &level), record);
    for value in [low, high] {
        let mut expected = record;
        expected.parameters[place].value = value;
        expected.changed = value != held.value;
        let written = ask(record, &format!("PC {code:03} {value}"), "OK");
        assert_eq!(written, expected);
    }
    for level in 0..=3 {
        let mut expected = record;
        expected.parameters[place].level = level;
        let written = ask(record, &format!("XC {code:03} {level}"), "OK");
        assert_eq!(written, expected);
    }
    for value in low.checked_sub(1).into_iter().chain([high + 1]) {
        let refused = ask(record, &format!("PC {code:03} {value}"), "NO06");
        assert_eq!(refused, record);
    }
}

/// Every code gives a parameter exactly where document 01 lists one.
#[test]
fn every_parameter_code() {
    let record = Record {
        address: 1,
        access: 3,
        ..plain_record()
    };
    for code in 0..=999 {
        if let Some(place) = LIST.iter().position(|listed| listed.code == code) {
            ask_listed(record, place);
            continue;
        }
        for (command, argument) in [("PV", ""), ("XV", ""), ("PC", " 1"), ("XC", " 1")] {
            let refused = ask(record, &format!("{command} {code:03}{argument}"), "NO04");
            assert_eq!(refused, record);
        }
    }
}

/// What a field may hold after all of these exchanges.
fn may_hold(exchanges: &[(&str, &str)], field: usize) -> Numbers {
    let told = Told::by(&recorded(exchanges), Fault::None);
    told.known(exchanges.len(), FIELDS, Fault::None).unwrap()[field]
}

/// Why the last of these exchanges is refuted.
fn reason(exchanges: &[(&str, &str)]) -> Reason {
    let told = Told::by(&recorded(exchanges), Fault::None);
    let (place, reason) = told.why(Fault::None).unwrap().unwrap();
    assert_eq!(place, exchanges.len());
    reason
}

/// The bits of these numbers.
fn few(numbers: &[u32]) -> Numbers {
    Numbers::Few(numbers.iter().fold(0, |bits, number| bits | 1 << number))
}

/// Nothing but address and access is known before the first exchange.
#[test]
fn known_before_the_first_exchange() {
    let expected = [
        (fields::ADDRESS, Numbers::Just(1)),
        (fields::ACCESS, Numbers::Just(2)),
        (fields::PHASE, Numbers::Few(31)),
        (fields::KEYPAD, Numbers::Few(3)),
        (fields::RECIPE, Numbers::Few(0x1FE)),
        (fields::PRESET, Numbers::Any),
        (fields::RAW, Numbers::Any),
        (fields::NUMBER, Numbers::Any),
        (fields::ALARMS, Numbers::Alarms(Alarms::AnyOf(alarms::ALL))),
        (fields::value(31), Numbers::Any),
        (fields::level(31), Numbers::Few(15)),
    ];
    for (field, numbers) in expected {
        assert_eq!(may_hold(&[], field), numbers, "{field}");
    }
}

#[test]
fn known_from_replies() {
    let factor = fields::value(factor_place(3));
    let level = fields::level(factor_place(3));
    // RS without TD and TP leaves Idle and Set; EQ tells the phase.
    assert_eq!(may_hold(&[("RS", "RS ")], fields::PHASE), few(&[0, 1]));
    assert_eq!(may_hold(&[("EQ", "000000")], fields::PHASE), few(&[0]));
    // RC tells the recipe and its factor, and no other.
    let shown = [("RC", "RC 03 00010012")];
    assert_eq!(may_hold(&shown, fields::RECIPE), few(&[3]));
    assert_eq!(may_hold(&shown, factor), Numbers::Just(10_012));
    assert_eq!(may_hold(&shown, factor + 6), Numbers::Any);
    // SB's OK tells what is set, and nothing of a batch number that was not known.
    let batch = [("SB 000500", "OK")];
    assert_eq!(may_hold(&batch, fields::PHASE), few(&[1]));
    assert_eq!(may_hold(&batch, fields::KEYPAD), few(&[0]));
    assert_eq!(may_hold(&batch, fields::BATCH_RESET), few(&[1]));
    assert_eq!(may_hold(&batch, fields::PRESET), Numbers::Just(500));
    assert_eq!(may_hold(&batch, fields::RAW), Numbers::Just(0));
    assert_eq!(may_hold(&batch, fields::NUMBER), Numbers::Any);
    let numbered = [("TN", "TN 9999"), batch[0]];
    assert_eq!(may_hold(&numbered, fields::NUMBER), Numbers::Just(1));
    assert_eq!(may_hold(&[("SB 5", "NO05")], fields::PRESET), Numbers::Any);
    // A write over a value that is not known leaves the flag open; one that is on stays on.
    let write = ("PC 032 10150", "OK");
    assert_eq!(may_hold(&[write], factor), Numbers::Just(10_150));
    assert_eq!(
        may_hold(&[("EQ", "000000"), write], fields::CHANGED),
        few(&[0, 1])
    );
    assert_eq!(
        may_hold(&[("EQ", "000800"), write], fields::CHANGED),
        few(&[1])
    );
    // Levels: passed, not passed, and an XC whose l is above the access.
    assert_eq!(may_hold(&[write], level), few(&[0, 1, 2]));
    assert_eq!(may_hold(&[("PC 032 10150", "NO07")], level), few(&[3]));
    assert_eq!(may_hold(&[("XC 032 3", "NO07")], level), few(&[0, 1, 2, 3]));
    assert_eq!(may_hold(&[("XC 032 3", "NO07")], fields::KEYPAD), few(&[0]));
    assert_eq!(may_hold(&[("XC 032 1", "OK")], level), few(&[1]));
    // SP's NO05 tells nothing of the keypad, SA's does.
    assert_eq!(may_hold(&[("SP", "NO05")], fields::KEYPAD), few(&[0, 1]));
    assert_eq!(
        may_hold(&[("SP", "NO05")], fields::PHASE),
        few(&[0, 1, 3, 4])
    );
    assert_eq!(may_hold(&[("SA", "NO05")], fields::KEYPAD), few(&[0]));
}

#[test]
fn known_of_alarms() {
    let [alarm, reset] = [("EQ", "001000"), ("AR", "OK")];
    let on = |exchanges: &[(&str, &str)]| may_hold(exchanges, fields::ALARMS);
    let some = |among| Numbers::Alarms(Alarms::SomeOf(among));
    let any = |among| Numbers::Alarms(Alarms::AnyOf(among));
    assert_eq!(on(&[alarm]), some(alarms::ALL));
    assert_eq!(on(&[alarm, reset]), any(alarms::LASTING));
    assert_eq!(on(&[reset, alarm]), some(alarms::LASTING));
    assert_eq!(on(&[reset, alarm, reset]), some(alarms::LASTING));
    let exactly = |alarms| Numbers::Alarms(Alarms::Exactly(alarms));
    let both = alarms::numbered(1) | alarms::numbered(12);
    assert_eq!(on(&[("EA", "80100")]), exactly(both));
    assert_eq!(on(&[("EA", "80100"), reset]), exactly(alarms::numbered(1)));
    assert_eq!(on(&[("SA", "OK")]), exactly(0));
}

#[test]
fn reasons() {
    let factor = fields::value(factor_place(3));
    let write = ("PC 032 10150", "OK");
    let field = |field, held, needed| Reason::Field {
        field,
        held,
        needed,
    };
    let old_factor = field(factor, Numbers::Just(10_150), Numbers::Just(10_012));
    assert_eq!(
        reason(&[("EQ", "000000"), write, ("RC", "RC 03 00010012")]),
        old_factor
    );
    // No phase is left; the keypad is on.
    let no_phase = [("SP", "NO05"), ("SA", "NO05"), ("SB 500", "NO05")];
    let expected = field(fields::PHASE, few(&[0, 4]), few(&[1, 2, 3]));
    assert_eq!(reason(&no_phase), expected);
    let keypad = field(fields::KEYPAD, few(&[1]), few(&[0]));
    assert_eq!(reason(&[("SA", "NO02"), ("SB 1", "NO05")]), keypad);
    // What an accepted write needs is what was before it.
    let needs = field(fields::PHASE, few(&[1]), few(&[0, 4]));
    assert_eq!(reason(&[("EQ", "100000"), ("SB 1", "OK")]), needs);
    // Of phase, keypad and alarms the first is named.
    let needs = field(fields::PHASE, few(&[0]), few(&[1, 3]));
    assert_eq!(reason(&[("EQ", "801000"), ("SA", "OK")]), needs);
    let alarm = field(
        fields::ALARMS,
        Numbers::Alarms(Alarms::SomeOf(alarms::ALL)),
        Numbers::Alarms(Alarms::Exactly(0)),
    );
    assert_eq!(reason(&[("EQ", "101000"), ("SA", "OK")]), alarm);
    let level = field(fields::level(factor_place(3)), few(&[3]), few(&[0, 1, 2]));
    assert_eq!(reason(&[("XV 032", "XV 032 3"), write]), level);
    // No record shows such a number, refuses so, or has another address.
    for exchange in [
        ("TN", "TN 0000"),
        ("RR", "RR 09"),
        ("XV 032", "XV 032 4"),
        ("EQ", "400000"),
        ("RS", "RS RL "),
        ("SP", "NO02"),
        ("QQ", "OK"),
        ("EA", "00008"),
        ("TN", "TN 1"),
    ] {
        assert_eq!(reason(&[exchange]), Reason::NoRecord, "{exchange:?}");
    }
}

/// The reason of a recording of one exchange, of any bytes.
fn reason_alone(request: &[u8], reply: &[u8]) -> Reason {
    let bytes = recording::build(1, 2, &[(request.to_vec(), reply.to_vec())]);
    let told = Told::by(&bytes, Fault::None);
    told.why(Fault::None).unwrap().unwrap().1
}

#[test]
fn reasons_of_silences_and_frames() {
    let [asked, reply] = [EQ, EQ_REPLY].map(bytes);
    assert_eq!(reason_alone(&asked, &[]), Reason::NoReply);
    for (request, number) in [
        (bytes(&EQ[..3 * 7 - 1]), 3),
        (vec![], 3),
        (bytes("03 30 31 45 51 03 16 7F"), 4),
        (bytes(WRONG_CHECK), 5),
        (bytes("02 30 31 45 1F 03 58 7F"), 6),
        (bytes("02 30 31 45 71 03 36 7F"), 7),
        (bytes(OTHER_ADDRESS), 8),
    ] {
        let expected = Reason::ReplyToSilence(number);
        assert_eq!(reason_alone(&request, &reply), expected, "{request:02X?}");
    }
    // Another address in the reply, a wrong check, a byte more, no frame.
    for wrong in [
        framed(Kind::Minicomputer, b"02000000"),
        framed(Kind::Terminal, b"01000000"),
        bytes(WRONG_CHECK),
        [&reply[..], &[0x7F]].concat(),
        vec![0],
    ] {
        assert_eq!(
            reason_alone(&asked, &wrong),
            Reason::NoRecord,
            "{wrong:02X?}"
        );
    }
}

fn example(file: &str) -> Vec<u8> {
    let root = Path::new(env!("CARGO_MANIFEST_DIR")).join("..");
    fs::read(root.join(file)).unwrap()
}

/// Exchange 14 shows the old factor of recipe 3, which since exchange 11 can only be the new one.
#[test]
fn monday_drum_change() {
    let monday = example("examples/monday_drum_change.recording");
    let told = Told::by(&monday, Fault::None);
    let factor = fields::value(factor_place(3));
    let expected = Reason::Field {
        field: factor,
        held: Numbers::Just(10_150),
        needed: Numbers::Just(10_012),
    };
    assert_eq!(told.why(Fault::None), Ok(Some((14, expected))));
    let known = |exchanges| told.known(exchanges, FIELDS, Fault::None);
    assert_eq!(known(10).unwrap()[factor], Numbers::Just(10_012));
    assert_eq!(known(11).unwrap()[factor], Numbers::Just(10_150));
    assert_eq!(known(13).unwrap()[factor], Numbers::Just(10_150));
    for exchanges in [14, 20, 21, usize::MAX] {
        assert_eq!(known(exchanges), Err(Untold::Refuted(14)));
    }
    let short = told.known(0, FIELDS - 1, Fault::None);
    assert_eq!(short, Err(Untold::ShortBuffer));
    // The recipe since NR, the flag since RE, the other recipe's factor since RC, the level since XV.
    let since = told.since(13);
    assert_eq!((since[factor], told.since(10)[factor]), (11, 8));
    assert_eq!((since[fields::RECIPE], since[fields::CHANGED]), (6, 13));
    assert_eq!(since[fields::value(factor_place(5))], 5);
    assert_eq!(since[fields::level(factor_place(3))], 10);
    assert_eq!((since[fields::PHASE], since[fields::ALARMS]), (1, 1));
    assert_eq!((since[fields::PRESET], since[fields::ADDRESS]), (0, 0));
}

/// The form comes before all else, also behind a refutation.
#[test]
fn told_of_a_recording_that_is_cut() {
    let told = Told::by(
        &example("examples/cut_by_the_recorder.recording"),
        Fault::None,
    );
    assert_eq!(told.why(Fault::None), Err(5));
    for exchanges in [0, 14, 20] {
        let known = told.known(exchanges, FIELDS, Fault::None);
        assert_eq!(known, Err(Untold::Refused(5)));
    }
}

/// From exchange to exchange over the sets alone, an honest day comes to what is known of it.
#[test]
fn learnt_from_sets_alone() {
    for file in ["honest_day", "morning_reload", "alarm_stays_on"] {
        let day = example(&format!("examples/{file}.recording"));
        let told = Told::by(&day, Fault::None);
        let recording = recording::read(&day, Fault::None).unwrap();
        let written = |exchanges| {
            let known = told.known(exchanges, FIELDS, Fault::None).unwrap();
            known.map(Numbers::written)
        };
        let mut sets = written(0);
        for (before, &exchange) in recording.exchanges.iter().enumerate() {
            let (address, access) = (recording.address, recording.access);
            let answer = interface::learn(address, access, exchange, &mut sets, Fault::None);
            assert_eq!((answer, sets), (0, written(before + 1)), "{file}");
        }
        let mut short = sets[1..].to_vec();
        let answer = interface::learn(1, 2, recording.exchanges[0], &mut short, Fault::None);
        assert_eq!((answer, &short[..]), (401, &sets[1..]));
    }
}

/// The answers that the example recordings are given beside them, and all that they tell.
#[test]
fn example_recordings() {
    let root = Path::new(env!("CARGO_MANIFEST_DIR")).join("..");
    let expected = fs::read_to_string(root.join("examples/expected")).unwrap();
    assert!(!expected.is_empty());
    for line in expected.lines() {
        let (file, answer) = line.split_once(": ").unwrap();
        let bytes = example(file);
        let judged = match judge(&bytes, Fault::None) {
            Judgement::Fits { count } => format!("fits {count}"),
            Judgement::Refuted { place, count } => format!("refuted at {place} of {count}"),
            Judgement::NotJudged { place, .. } => format!("not judged at {place}"),
            Judgement::Refused(number) => format!("refused J{number}"),
        };
        assert_eq!(judged, answer, "{file}");
        let told = Comparison::new(Fault::None).told(&bytes);
        assert!(told.is_ok(), "{file}: {}", told.unwrap_err());
    }
}
