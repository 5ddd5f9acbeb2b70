//! The proved blending controller, with or without a bank of finished batches, on its own link or on Modbus RTU, panel,
//! stored forms, week totals, host side, drum change and judge, and what a recording tells of a record, for Rust: a test
//! bench, a host's program, or whoever keeps recordings.
//!
//! Each function is the one of `include/khuyapesh.h` with `khuyapesh_` before its name, over slices. That header says what
//! each takes and answers; any bytes, lengths and numbers are safe to pass. [`Exchanges`] and [`Following`] go through a
//! recording, or a line while it talks.
//!
//! The archive `libexports.a` is looked for in the folder that the environment variable `KHUYAPESH_LIBRARY` names, or in
//! `../target/staticlib`; `scripts/library` in the repository's root proves the library and makes it.

#![deny(unsafe_code)]

mod declared;
mod following;

pub use declared::{
    bank, bank_totals, banked_call, banked_modbus, banked_several, board, build, call, drum_begin,
    drum_take, exchange, judge, known, learn, may_hold, modbus, panel, read, several, stored,
    totals, totals_text, units, why,
};
pub use following::{Exchanges, Following};

/// Bytes before a recording's first exchange.
pub const HEADER: usize = 5;

/// Bytes of the longest recording, and of a stored record as it is written.
pub const RECORDING_LENGTH: usize = 65_535;
pub const STORED_LENGTH: usize = 180;

/// The finished batches that are kept, and the bytes of a stored bank with so many.
pub const BANK_BATCHES: usize = 100;
pub const BANK_LENGTH: usize = 1203;

/// The recipes that totals are given for, recipe r at place r - 1; the most batches that are added up at once; and the least
/// room for the text of totals.
pub const RECIPES: usize = 8;
pub const TOTALS_BATCHES: usize = 1000;
pub const TOTALS_ROOM: usize = 512;

/// The least room for a reply, a built frame, a text that is read or a sum in units.
pub const FRAME_ROOM: usize = 64;

/// On Modbus RTU: the bytes of the longest frame, and the least room for a reply; the registers, two for each parameter.
pub const MODBUS_ROOM: usize = 256;
pub const REGISTERS: usize = 64;

// The kinds of link.
pub const MINICOMPUTER: u8 = 0;
pub const TERMINAL: u8 = 1;

/// How many fields a record has, each with a number from 0.
pub const FIELDS: usize = 77;

pub const ADDRESS: usize = 0;
pub const ACCESS: usize = 1;
pub const PHASE: usize = 2;
pub const KEYPAD: usize = 3;
pub const FLOW: usize = 4;
pub const CHANGED: usize = 5;
pub const BATCH_RESET: usize = 6;
pub const POWER_FAIL: usize = 7;
pub const RECIPE: usize = 8;
pub const PRESET: usize = 9;
pub const RAW: usize = 10;
pub const BATCH_NUMBER: usize = 11;
pub const ALARMS: usize = 12;
pub const PARAMETERS: usize = 32;

/// The fields of a parameter, by its place in rising code.
pub const fn value(place: usize) -> usize {
    13 + 2 * place
}

pub const fn level(place: usize) -> usize {
    14 + 2 * place
}

/// The set of a field of many numbers of which nothing is known.
pub const ANY: u32 = u32::MAX;

// What is answered.
pub const DONE: u32 = 0;
pub const FITS: u32 = 0;
pub const REFUTED: u32 = 1;
pub const NOT_JUDGED: u32 = 2;
pub const NO_MORE: u32 = 1;

// The reasons of `why`.
pub const REPLY_TO_SILENCE: u32 = 1;
pub const NO_REPLY: u32 = 2;
pub const NO_RECORD: u32 = 3;
pub const FIELD: u32 = 4;
pub const KEPT_BATCH: u32 = 5;

// The classes of answers, each with a number added; of `modbus` and `banked_modbus` the last two alone, since their replies
// have 5 to 255 bytes.
pub const SILENCE: u32 = 100;
pub const STORED: u32 = 200;
pub const NO_SUCH: u32 = 300;
pub const HOST: u32 = 400;
pub const RECORDING: u32 = 500;
pub const DRUM: u32 = 600;
pub const STOPPED: u32 = 700;
pub const TOTALS: u32 = 800;
pub const MODBUS: u32 = 900;
pub const MODBUS_STORED: u32 = 1200;

/// What `several` and `banked_several` report.
#[derive(Clone, Copy, PartialEq, Eq, Debug, Default)]
pub struct Report {
    pub taken: usize,
    pub answered: usize,
    pub written: usize,
}

/// What `why` tells: the exchange that is refuted, or not judged; n of Sn or the field; its set before, and what the reply needs of it.
#[derive(Clone, Copy, PartialEq, Eq, Debug, Default)]
pub struct Why {
    pub place: usize,
    pub number: u32,
    pub held: u32,
    pub needed: u32,
}

/// Where an exchange has its request and its reply.
#[derive(Clone, Copy, PartialEq, Eq, Debug, Default)]
pub struct Spans {
    pub request: usize,
    pub stop: usize,
    pub reply: usize,
    pub end: usize,
}
