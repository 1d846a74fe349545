//! The Rust of document 000, compiled unchanged, as an oracle for listings of document 01.
//!
//! `stand_ins` holds what those files import and document 000 lacks or has only with further dependencies.

// The Rust's files name these crates; here all of them are this one.
extern crate self as move_binary_format;
extern crate self as move_borrow_graph;
extern crate self as move_core_types;

#[path = "stand_ins/binary_views.rs"]
pub mod binary_views;
#[path = "stand_ins/control_flow_graph.rs"]
pub mod control_flow_graph;
#[path = "stand_ins/errors.rs"]
pub mod errors;
#[path = "stand_ins/file_format.rs"]
pub mod file_format;
#[path = "stand_ins/shared.rs"]
pub mod shared;
#[path = "stand_ins/vm_status.rs"]
pub mod vm_status;

include!(concat!(env!("OUT_DIR"), "/rust.rs"));

#[cfg(feature = "watched")]
pub mod graph;
#[cfg(not(feature = "watched"))]
pub use rust_graph as graph;

pub mod adapter;
pub mod answer;
pub mod generator;
#[cfg(feature = "watched")]
pub mod histogram;
#[cfg(feature = "watched")]
pub mod judge;
#[cfg(feature = "watched")]
pub mod kept;
pub mod listing;
#[cfg(feature = "ours")]
pub mod ours;
#[cfg(feature = "watched")]
pub mod panics;
pub mod shrink;
#[cfg(feature = "watched")]
pub mod stored;
