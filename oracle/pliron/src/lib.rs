//! Parts of pliron 0.20.0 that run as published, and stand-ins for what they lean on. ../README.md says which is which.

pub extern crate alloc;
extern crate self as pliron;

pub mod attribute;
#[allow(dead_code)] // The published record has fields that are read by printing alone.
pub mod basic_block;
pub mod builtin;
pub mod combine;
pub mod common_traits;
pub mod context;
pub mod dyn_clone;
pub mod graph;
pub mod identifier;
pub mod irbuild;
pub mod linked_list;
pub mod location;
pub mod op;
pub mod operation;
pub mod parsable;
pub mod printable;
pub mod region;
pub mod result;
pub mod symbol_table;
pub mod r#type;
pub mod utils;
pub mod value;
