//! The controller on Modbus RTU by the library and by this program.

use super::{both, hexadecimal, reply_laid, Comparison, Difference, Unit};
use crate::frame::{self, Kind, LEAST_BUFFER};
use crate::interface::MODBUS;
use crate::modbus::{read_request, write_request, EXCEPTION, PAIR, READ, REPLY_ROOM, WRITE};
use crate::parameters::{parameter_code, PARAMETERS};
use crate::stored::parameter_start;
use crate::{interface, library};

/// The highest value that PC can name.
const EIGHT_DIGITS: u32 = 99_999_999;
/// Where a stored record has its address and its flags, and the flag that tells of a changed value.
const ADDRESS: usize = 3;
const FLAGS: usize = 6;
const CHANGED: u8 = 4;

/// What a call is lent, or leaves.
struct Buffers<'lent> {
    stored: &'lent [u8],
    reply: &'lent [u8],
}

impl Comparison {
    /// Compares one call on Modbus; answers the number, the stored record after it and the reply buffer.
    pub fn modbus(
        &mut self,
        stored: &[u8],
        request: &[u8],
        reply: &[u8],
    ) -> Result<(u32, Vec<u8>, Vec<u8>), Difference> {
        self.count(|counts| &mut counts.modbus);
        let fault = self.fault;
        let (answer, [after, laid]) = both(
            || "modbus".to_string(),
            &[("request", request)],
            [("stored", stored), ("reply", reply)],
            |[stored, reply]| library::modbus(stored, request, reply),
            |[stored, reply]| interface::modbus(stored, request, reply, fault),
        )?;
        let before = Buffers { stored, reply };
        let left = Buffers {
            stored: &after,
            reply: &laid,
        };
        self.right_by_itself(request, &before, answer, &left)?;
        Ok((answer, after, laid))
    }

    /// Compares one call on Modbus with a bank, which has to stay; answers the number, the stored record
    /// after it and the reply buffer.
    pub fn banked_modbus(
        &mut self,
        unit: &Unit,
        request: &[u8],
        reply: &[u8],
    ) -> Result<(u32, Vec<u8>, Vec<u8>), Difference> {
        self.count(|counts| &mut counts.banked_modbus);
        let fault = self.fault;
        let (answer, [stored, bank, laid]) = both(
            || "banked modbus".to_string(),
            &[("request", request)],
            [
                ("stored", &unit.stored),
                ("bank", &unit.bank),
                ("reply", reply),
            ],
            |[stored, bank, reply]| library::banked_modbus(stored, bank, request, reply),
            |[stored, bank, reply]| interface::banked_modbus(stored, bank, request, reply, fault),
        )?;
        let before = Buffers {
            stored: &unit.stored,
            reply,
        };
        let left = Buffers {
            stored: &stored,
            reply: &laid,
        };
        self.right_by_itself(request, &before, answer, &left)?;
        if bank != unit.bank {
            return Err(wrong("the bank did not stay", request, &before, answer));
        }
        Ok((answer, stored, laid))
    }

    /// Lends a request to a unit with a good bank, and to its record alone: what comes of it has to be the
    /// same. Answers the number, the stored record after it and the reply buffer.
    pub fn modbus_and_banked(
        &mut self,
        unit: &Unit,
        request: &[u8],
        reply: &[u8],
    ) -> Result<(u32, Vec<u8>, Vec<u8>), Difference> {
        let alone = self.modbus(&unit.stored, request, reply)?;
        let banked = self.banked_modbus(unit, request, reply)?;
        if alone == banked {
            return Ok(alone);
        }
        let before = Buffers {
            stored: &unit.stored,
            reply,
        };
        let what = "another answer with a bank";
        Err(wrong(what, request, &before, alone.0))
    }

    /// Lends a write of a value to a good record, and a PC of it: it has to be echoed where PC gets OK, or
    /// else refused by the exception that goes with PC's NO, and the records have to be the same. What was
    /// written is read back. Answers the stored record after it.
    pub fn modbus_and_pc(
        &mut self,
        stored: &[u8],
        place: usize,
        value: u32,
    ) -> Result<Vec<u8>, Difference> {
        let slave = stored[ADDRESS];
        let room = [0; REPLY_ROOM];
        let write = write_request(slave, place, value);
        let (answer, after, laid) = self.modbus(stored, &write, &room)?;
        let code = match answer {
            8 => None,
            _ => Some(laid[2]),
        };
        let expected = self.refused_by_pc(stored, place, value)?;
        let before = Buffers {
            stored,
            reply: &room,
        };
        if expected != (code, after.clone()) {
            let (code, form) = expected;
            let what = format!("not what PC gives: {code:?}, {}", hexadecimal(&form));
            return Err(wrong(&what, &write, &before, answer));
        }
        let read = read_request(slave, PAIR * place as u16, PAIR);
        let (_, _, laid) = self.modbus(&after, &read, &room)?;
        if code.is_none() && laid[3..7] != value.to_be_bytes() {
            return Err(wrong("not read back", &write, &before, answer));
        }
        Ok(after)
    }

    /// The code of the exception that goes with the refusal of a PC, if it is refused, and the stored record
    /// after it.
    fn refused_by_pc(
        &mut self,
        stored: &[u8],
        place: usize,
        value: u32,
    ) -> Result<(Option<u8>, Vec<u8>), Difference> {
        if value > EIGHT_DIGITS {
            return Ok((Some(3), stored.to_vec()));
        }
        let code = parameter_code(place);
        let text = format!("{:02}PC {code:03} {value}", stored[ADDRESS]);
        let kind = Kind::Minicomputer;
        let request = frame::framed(kind, text.as_bytes());
        let (answer, after, laid) = self.call(0, stored, &request, &[0; LEAST_BUFFER])?;
        let reply = reply_laid(answer, &laid);
        let text = &reply[3..reply.len() - kind.trailer()];
        let refused = match text {
            b"OK" => None,
            b"NO06" => Some(3),
            b"NO02" | b"NO07" | b"NO05" => Some(4),
            // Nothing else may come of PC here, and no answer on Modbus has this code.
            _ => Some(u8::MAX),
        };
        Ok((refused, after))
    }

    /// What every answer has to be by itself: a silence or refusal that leaves everything, or a reply with
    /// its CRC, of the request's slave and function, that leaves what stands behind it.
    fn right_by_itself(
        &mut self,
        request: &[u8],
        before: &Buffers,
        answer: u32,
        left: &Buffers,
    ) -> Result<(), Difference> {
        let (silent, code) = match answer {
            5..=255 => {
                let reply = reply_right(request, before, answer as usize, left);
                let code = reply.map_err(|what| wrong(what, request, before, answer))?;
                (false, code)
            }
            MODBUS.. if left.stored == before.stored && left.reply == before.reply => (true, None),
            MODBUS.. => {
                let what = "something did not stay";
                return Err(wrong(what, request, before, answer));
            }
            _ => return Err(wrong("no length", request, before, answer)),
        };
        if !self.enumerating {
            let count = match code {
                None if silent => &mut self.counts.modbus_silent,
                None => &mut self.counts.modbus_served,
                Some(_) => &mut self.counts.modbus_exceptions,
            };
            *count += 1;
        }
        Ok(())
    }
}

/// The code of a reply that is an exception; or what is wrong with it.
fn reply_right(
    request: &[u8],
    before: &Buffers,
    length: usize,
    left: &Buffers,
) -> Result<Option<u8>, &'static str> {
    let (reply, behind) = left.reply.split_at(length);
    let stays = left.stored == before.stored;
    if rest(reply) != 0 {
        return Err("a wrong CRC");
    }
    if behind != &before.reply[length..] {
        return Err("something behind the reply did not stay");
    }
    if reply[0] != before.stored[ADDRESS] || reply[0] != request[0] {
        return Err("another slave");
    }
    match (reply, request) {
        ([_, READ, ..], [_, READ, ..]) if stays && shows(reply, request, before.stored) => Ok(None),
        ([_, WRITE, ..], [_, WRITE, ..]) if length == 8 && reply[..6] == request[..6] => {
            match left.stored == written(before.stored, request) {
                true => Ok(None),
                false => Err("not what was to be written"),
            }
        }
        (&[_, refused, code @ 1..=4, _, _], &[_, function, ..])
            if stays && refused == function | EXCEPTION =>
        {
            Ok(Some(code))
        }
        _ => Err("no reply to this request"),
    }
}

/// The first register that a request names, and as many more as it asks for.
fn registers(request: &[u8]) -> (usize, usize) {
    let number = |start: usize| usize::from(request[start]) << 8 | usize::from(request[start + 1]);
    (number(2), number(4))
}

/// Whether a reply shows what the stored record has in the registers that are read.
fn shows(reply: &[u8], request: &[u8], stored: &[u8]) -> bool {
    let values = (0..PARAMETERS).map(|place| {
        let start = parameter_start(stored.len(), place);
        &stored[start..start + 4]
    });
    let held = values.collect::<Vec<_>>().concat();
    let (start, count) = registers(request);
    let shown = held.get(2 * start..2 * (start + count));
    let bytes = usize::from(reply[2]);
    bytes == 2 * count && Some(&reply[3..reply.len() - 2]) == shown
}

/// The stored record with the value of a write in its place: changed is on if it was or if the value is
/// another.
fn written(stored: &[u8], request: &[u8]) -> Vec<u8> {
    let mut after = stored.to_vec();
    let (start, _) = registers(request);
    let place = parameter_start(stored.len(), start / 2);
    after[place..place + 4].copy_from_slice(&request[7..11]);
    if after != stored {
        after[FLAGS] |= CHANGED;
    }
    after
}

/// What the standard's CRC, bit by bit, leaves of a whole frame: nothing, if it ends with its CRC.
fn rest(frame: &[u8]) -> u16 {
    frame.iter().fold(0xFFFF, |rest, &byte| {
        (0..8).fold(rest ^ u16::from(byte), |rest, _| {
            if rest & 1 == 0 {
                rest >> 1
            } else {
                rest >> 1 ^ 0xA001
            }
        })
    })
}

fn wrong(what: &str, request: &[u8], before: &Buffers, answer: u32) -> Difference {
    Difference(format!(
        "modbus: {what}\n  request {}\n  stored {}\n  reply room {}\n  answer {answer}\n",
        hexadecimal(request),
        hexadecimal(before.stored),
        before.reply.len()
    ))
}

#[cfg(test)]
mod tests {
    use super::*;

    /// The frame of the standard's example, and what is left of others.
    #[test]
    fn a_whole_frame_leaves_nothing() {
        assert_eq!(rest(&[0x02, 0x07, 0x41, 0x12]), 0);
        assert_ne!(rest(&[0x02, 0x07, 0x12, 0x41]), 0);
        assert_ne!(rest(&[0x02, 0x06, 0x41, 0x12]), 0);
        assert_eq!(rest(&[]), 0xFFFF);
    }
}
