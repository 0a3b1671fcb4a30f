//! The `parse` module of formality-core, built from its unchanged sources, with what it leans on. The Rust's own lib.rs is left out: it also
//! leans on the judgment and term macros.
#![allow(type_alias_bounds, deprecated, dead_code, useless_deprecated, unused_variables, unused_imports, unused_macros)]
// modules that come by an include count as made by a macro
#![allow(macro_expanded_macro_exports_accessed_by_absolute_paths)]

include!(concat!(env!("OUT_DIR"), "/src/modules.rs"));
