//! What the panel does to the record.

use crate::alarms;
use crate::fault::Fault;
use crate::record::{Phase, Record, HIGHEST_RAW};

#[derive(Clone, Copy, PartialEq, Eq, Debug)]
pub enum Event {
    Pulses(u16),
    Still,
    KeypadOn,
    KeypadOff,
    PowerBack,
    /// The alarm with this number; another number than an alarm's changes nothing.
    AlarmOn(u16),
    AlarmOff(u16),
}

/// The record after an event; one that is not valid comes back unchanged.
pub fn after(mut record: Record, event: Event, fault: Fault) -> Record {
    if !record.is_valid() {
        return record;
    }
    match event {
        Event::Pulses(0) if fault != Fault::NoPulsesFlow => {}
        Event::Pulses(count) => {
            record.flow = true;
            let grown = record.raw + u32::from(count);
            let wrapped = grown % (HIGHEST_RAW + 1);
            let reached = match fault {
                Fault::PulsesPastPreset => grown > record.preset,
                Fault::PulsesModuloFirst => wrapped >= record.preset,
                _ => grown >= record.preset,
            };
            if record.phase != Phase::Idle || fault == Fault::PulsesGrowIdle {
                record.raw = if fault == Fault::PulsesWithoutModulo {
                    grown
                } else {
                    wrapped
                };
            }
            if record.phase == Phase::Running && reached {
                record.phase = Phase::Done;
            }
        }
        Event::Still => record.flow = false,
        Event::KeypadOn => {
            let free = matches!(record.phase, Phase::Idle | Phase::Done);
            if free || (fault == Fault::KeypadOnRunning && record.phase == Phase::Running) {
                record.keypad = true;
            }
        }
        Event::KeypadOff => record.keypad = false,
        Event::PowerBack => {
            record.power_fail = true;
            record.flow = false;
            if record.phase == Phase::Running && fault != Fault::PowerBackKeepsRunning {
                record.phase = Phase::Stopped;
            }
            if fault == Fault::PowerBackRaisesAlarm {
                record.alarms |= alarms::numbered(12);
            }
        }
        Event::AlarmOn(20) if fault == Fault::AlarmTwentyRaised => {
            record.alarms |= alarms::numbered(19);
        }
        Event::AlarmOn(number) => record.alarms |= alarms::numbered(number),
        Event::AlarmOff(_) if fault == Fault::AllAlarmsCleared => record.alarms = 0,
        Event::AlarmOff(number) => record.alarms &= !alarms::numbered(number),
    }
    record
}

#[cfg(test)]
mod tests {
    use super::*;

    fn running(raw: u32, preset: u32) -> Record {
        Record {
            phase: Phase::Running,
            raw,
            preset,
            ..Record::low()
        }
    }

    #[test]
    fn pulses() {
        let pulses = |record, count| after(record, Event::Pulses(count), Fault::None);
        assert_eq!(pulses(running(0, 0), 0), running(0, 0));
        assert_eq!(pulses(running(0, 0), 1).phase, Phase::Done);
        assert_eq!(pulses(running(5, 10), 4).phase, Phase::Running);
        assert_eq!(pulses(running(5, 10), 5).phase, Phase::Done);
        let wrapped = pulses(running(99_999_999, 999_999), 2);
        assert_eq!((wrapped.raw, wrapped.phase), (1, Phase::Done));
        let idle = pulses(Record::low(), 7);
        assert_eq!((idle.raw, idle.flow), (0, true));
    }

    #[test]
    fn keypad_and_power() {
        let keypad = |phase| {
            let record = Record {
                phase,
                ..Record::low()
            };
            after(record, Event::KeypadOn, Fault::None).keypad
        };
        assert_eq!(Phase::ALL.map(keypad), [true, false, false, false, true]);
        let back = after(running(0, 9), Event::PowerBack, Fault::None);
        assert!(back.power_fail && back.phase == Phase::Stopped);
        assert_eq!(back.alarms, 0);
    }

    #[test]
    fn alarms_by_number() {
        let happens = |record, event| after(record, event, Fault::None);
        for number in 1..=alarms::HIGHEST_ALARM {
            let raised = happens(running(5, 10), Event::AlarmOn(number));
            let expected = Record {
                alarms: alarms::numbered(number),
                ..running(5, 10)
            };
            assert_eq!(raised, expected);
            assert_eq!(happens(raised, Event::AlarmOn(number)), raised);
            assert_eq!(happens(raised, Event::AlarmOff(number)), running(5, 10));
            let other = number % alarms::HIGHEST_ALARM + 1;
            assert_eq!(happens(raised, Event::AlarmOff(other)), raised);
        }
        for number in [0, 20, 24, 257, 65_535] {
            let record = Record {
                alarms: alarms::LASTING,
                ..Record::low()
            };
            assert_eq!(happens(record, Event::AlarmOn(number)), record);
            assert_eq!(happens(record, Event::AlarmOff(number)), record);
        }
    }
}
