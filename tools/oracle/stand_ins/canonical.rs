//! Stand-in for the module `canonical`, which `ir/mod.rs` names. `check` does
//! not come here, so the hash is no hash.

use crate::ir::CompiledSchema;

pub fn schema_hash(_schema: &CompiledSchema) -> [u8; 32] {
    [0; 32]
}
