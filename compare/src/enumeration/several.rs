//! Several frames in one buffer: every cut, split, text length, reply room and break.

use super::{buffer, plain_record, request};
use crate::comparison::{Comparison, Difference};
use crate::frame::{self, Kind, ETX, LEAST_BUFFER, MOST_TEXT, PAD, STX};
use crate::generate::streams::{checked_by_stx, framed};
use crate::stored;

const OWN: u8 = 42;
const OTHER: u8 = 41;

/// More reply room than the streams here ask for, but for the longest.
const ROOMY: usize = 600;

fn own(command: &str) -> Vec<u8> {
    request(Kind::Minicomputer, OWN, command)
}

/// A text of this length, an enquiry's if that is 4.
fn text(address: u8, length: usize) -> Vec<u8> {
    let mut text = format!("{address:02}EQ ").into_bytes();
    text.resize(length, b'7');
    text
}

/// A frame with the byte that stands so far before its end changed.
fn changed(mut frame: Vec<u8>, from_end: usize, byte: u8) -> Vec<u8> {
    let place = frame.len() - from_end;
    frame[place] = byte;
    frame
}

/// A frame for each thing that the walk can meet: answered, NO, each silence, the longest, a check of
/// STX.
fn each_sort() -> Vec<Vec<u8>> {
    vec![
        own("EQ"),
        own("SB 1"),
        own("QQ"),
        request(Kind::Minicomputer, OTHER, "EQ"),
        own("eq"),
        changed(own("EQ"), 2, 0x7F),
        changed(own("EQ"), 1, 0x7E),
        framed(&text(OWN, 3)),
        framed(&[]),
        framed(&text(OWN, MOST_TEXT)),
        framed(&text(OWN, MOST_TEXT + 1)),
        framed(&checked_by_stx(text(OWN, 5))),
    ]
}

pub fn several(comparison: &mut Comparison) -> Result<(), Difference> {
    cut_frames(comparison)?;
    split_streams(comparison)?;
    rooms(comparison)?;
    text_lengths(comparison)?;
    starts_inside(comparison)?;
    break_bytes(comparison)?;
    marks(comparison)?;
    past_sixteen_bits(comparison)?;
    refused_records(comparison)
}

/// Every part of a stream from its start, with room and without. The rest stands right behind what is
/// lent, so that a look past the end tells.
fn each_cut(comparison: &mut Comparison, stream: &[u8]) -> Result<(), Difference> {
    let form = stored::form(&plain_record());
    for length in 0..=stream.len() {
        for room in [ROOMY, LEAST_BUFFER, LEAST_BUFFER - 1, 0] {
            comparison.several(&form, &stream[..length], &buffer(room))?;
        }
    }
    Ok(())
}

fn cut_frames(comparison: &mut Comparison) -> Result<(), Difference> {
    let before: [&[u8]; 7] = [
        &[],
        b"x",
        &[ETX, PAD],
        &[STX],
        &[STX, b'4'],
        &own("TN"),
        &request(Kind::Minicomputer, OTHER, "TN"),
    ];
    for before in before {
        for frame in each_sort() {
            each_cut(comparison, &[before, &frame].concat())?;
        }
    }
    Ok(())
}

/// Streams of several sorts, each in two ticks split at every place, and in ticks of one byte.
fn split_streams(comparison: &mut Comparison) -> Result<(), Difference> {
    let form = stored::form(&plain_record());
    let sorts = each_sort();
    let inside = [&changed(own("SB 7"), 1, STX)[..], &own("TN")[1..]].concat();
    for stream in [
        sorts.concat(),
        sorts.join(&STX),
        sorts.join(&b'4'),
        [inside, own("EQ"), own("SA"), own("RS")].concat(),
        [text(OWN, 70), own("EQ"), vec![STX; 3], own("SP")].concat(),
    ] {
        for place in 0..=stream.len() {
            let (first, second) = stream.split_at(place);
            comparison.several_in_ticks(&form, &[first, second], ROOMY)?;
        }
        let bytes: Vec<&[u8]> = stream.chunks(1).collect();
        comparison.several_in_ticks(&form, &bytes, ROOMY)?;
    }
    Ok(())
}

/// Every sequence of up to three frames that are answered or not, against each reply room; with enough
/// of it, also one by one.
fn rooms(comparison: &mut Comparison) -> Result<(), Difference> {
    let form = stored::form(&plain_record());
    let sorts = [
        own("EQ"),
        own("SB 1"),
        request(Kind::Minicomputer, OTHER, "EQ"),
        changed(own("EQ"), 2, 0),
    ];
    let mut sequences: Vec<Vec<&[u8]>> = vec![vec![]];
    while let Some(sequence) = sequences.pop() {
        comparison.several_and_calls(&form, &sequence)?;
        for room in 0..=200 {
            comparison.several(&form, &sequence.concat(), &buffer(room))?;
        }
        if sequence.len() < 3 {
            let longer = |sort| [&sequence[..], &[sort]].concat();
            sequences.extend(sorts.iter().map(Vec::as_slice).map(longer));
        }
    }
    Ok(())
}

/// Every length of the text about the limits, by each thing that may follow it.
fn text_lengths(comparison: &mut Comparison) -> Result<(), Difference> {
    let form = stored::form(&plain_record());
    for address in [OWN, OTHER] {
        for length in 0..=MOST_TEXT + 3 {
            let text = text(address, length);
            let check = frame::check_over(&text) ^ ETX;
            let follows: [&[u8]; 13] = [
                &[],
                &[ETX],
                &[ETX, check],
                &[ETX, check, PAD],
                &[ETX, check ^ 1, PAD],
                &[ETX, check, b'0'],
                &[ETX, check, STX],
                &[ETX, STX, PAD],
                &[ETX, STX],
                &[STX],
                &[PAD],
                &[0x1F],
                &[0xB0],
            ];
            for follows in follows {
                let frame = [&[STX], &text[..], follows].concat();
                for stream in [frame.clone(), [frame, own("EQ")].concat()] {
                    for room in [ROOMY, 0] {
                        comparison.several(&form, &stream, &buffer(room))?;
                    }
                }
            }
        }
    }
    Ok(())
}

/// A frame in each place behind the text of another: of its ETX, its check and its PAD.
fn starts_inside(comparison: &mut Comparison) -> Result<(), Difference> {
    let outer = [
        framed(&[]),
        framed(b"A"),
        framed(&text(OWN, 3)),
        own("SB 1"),
        framed(&text(OWN, MOST_TEXT)),
        framed(&checked_by_stx(text(OWN, 5))),
        framed(&checked_by_stx(text(OTHER, 5))),
    ];
    for outer in outer {
        for lost in 0..=3 {
            let begun = &outer[..outer.len() - lost];
            for inner in [own("EQ"), own("SB 1"), framed(b"A"), vec![STX, PAD]] {
                each_cut(comparison, &[begun, &inner, &own("EQ")].concat())?;
            }
        }
    }
    Ok(())
}

/// Every byte in places of a text, of a check and of a PAD, with the end or more behind it.
fn break_bytes(comparison: &mut Comparison) -> Result<(), Difference> {
    let form = stored::form(&plain_record());
    let reply = buffer(ROOMY);
    let longest = framed(&text(OWN, MOST_TEXT + 2));
    for byte in 0..=255 {
        for place in [1, 2, 4, 5, 30, MOST_TEXT, MOST_TEXT + 1, MOST_TEXT + 2] {
            let mut frame = longest.clone();
            frame[place] = byte;
            comparison.several(&form, &frame[..=place], &reply)?;
            comparison.several(&form, &[frame, own("EQ")].concat(), &reply)?;
        }
        for from_end in [1, 2, 3] {
            let frame = changed(own("EQ"), from_end, byte);
            comparison.several(&form, &frame, &reply)?;
            comparison.several(&form, &[frame, own("EQ")].concat(), &reply)?;
        }
    }
    Ok(())
}

/// Every stream of up to six marks and text bytes, alone and with a frame behind it.
fn marks(comparison: &mut Comparison) -> Result<(), Difference> {
    let form = stored::form(&plain_record());
    let reply = buffer(80);
    let alphabet = [STX, ETX, PAD, b'4'];
    for length in 0..=6 {
        for number in 0..alphabet.len().pow(length) {
            let stream: Vec<u8> = (0..length)
                .map(|place| alphabet[number >> (2 * place) & 3])
                .collect();
            comparison.several(&form, &stream, &reply)?;
            comparison.several(&form, &[stream, own("EQ")].concat(), &reply)?;
        }
    }
    Ok(())
}

/// More bytes, frames and reply bytes than 16 bits count.
fn past_sixteen_bits(comparison: &mut Comparison) -> Result<(), Difference> {
    const MANY: usize = 65_600;
    let form = stored::form(&plain_record());
    for byte in [STX, b'4'] {
        let stream = [vec![byte; MANY], own("EQ")].concat();
        comparison.several(&form, &stream, &buffer(ROOMY))?;
    }
    let frames = own("EQ").repeat(MANY);
    for room in [12 * MANY, 12 * MANY + LEAST_BUFFER] {
        comparison.several(&form, &frames, &buffer(room))?;
    }
    Ok(())
}

/// Stored records that are refused, each by another number, against streams and reply rooms.
fn refused_records(comparison: &mut Comparison) -> Result<(), Difference> {
    let form = stored::form(&plain_record());
    let refused = [
        form[1..].to_vec(),
        changed(form.to_vec(), stored::STORED_LENGTH, 1),
        changed(form.to_vec(), stored::STORED_LENGTH - 2, 0),
        changed(form.to_vec(), 1, 4),
        stored::old_form(&plain_record()).to_vec(),
    ];
    for stored in refused {
        for stream in [
            vec![],
            vec![b'4'],
            own("SB 1"),
            own("eq"),
            each_sort().concat(),
        ] {
            for room in [ROOMY, LEAST_BUFFER, LEAST_BUFFER - 1, 0] {
                comparison.several(&stored, &stream, &buffer(room))?;
            }
        }
    }
    Ok(())
}

#[cfg(test)]
mod tests {
    use super::*;
    use crate::fault::PLANTED;

    /// This enumeration alone notices what is planted in the walk.
    #[test]
    fn faults_of_the_walk_are_noticed() {
        let walk = |name: &str| name.starts_with("several: ");
        assert!(PLANTED.iter().any(|(_, name)| walk(name)));
        for &(fault, name) in PLANTED.iter().filter(|(_, name)| walk(name)) {
            let noticed = several(&mut Comparison::new(fault)).is_err();
            assert!(noticed, "{name}");
        }
    }
}
