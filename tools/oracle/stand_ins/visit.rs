//! Stand-in for the module `ast/visit`, which `ast/mod.rs` names and nothing
//! here uses.
