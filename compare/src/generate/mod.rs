//! Random inputs, from plausible ones to noise.

pub mod banks;
pub mod boards;
pub mod drum_changes;
pub mod host;
pub mod kept_batches;
pub mod modbus;
pub mod recordings;
pub mod records;
pub mod refutations;
pub mod requests;
pub mod stored_forms;
pub mod streams;
pub mod weeks;
