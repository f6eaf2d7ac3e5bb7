//! The pairs that crates/rules pins by theorems: here the real `check` is run on
//! them.

use super::Cases;
use crate::pinned::pins;

/// Those of these records that are not there yet.
pub fn add(cases: &mut Cases, records: &[&str]) {
    let of_records = |record: &str| records.contains(&record);
    for pin in pins().iter().filter(|pin| of_records(&pin.record)) {
        let name = pin.recorded();
        if !cases.has(&name) {
            let [old, new] = pin.images.clone();
            cases.bytes(&name, old, new);
        }
    }
}
