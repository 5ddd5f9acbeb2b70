//! The test of the comparison itself: each planted fault has to be noticed.

use crate::fault::PLANTED;
use crate::run::{self, Amounts};

/// Runs the comparison with each fault in turn; true if every one was caught.
pub fn every_fault_is_caught(amounts: Amounts) -> bool {
    let mut caught = 0;
    for &(fault, name) in PLANTED {
        let (counts, result) = run::run(fault, amounts, false);
        match result {
            Err(_) => {
                caught += 1;
                println!("caught {name}: after {} comparisons", counts.comparisons());
            }
            Ok(()) => println!("MISSED {name}: {} comparisons", counts.comparisons()),
        }
    }
    println!("{caught} of {} planted faults caught", PLANTED.len());
    caught == PLANTED.len()
}
