//! A second implementation of document 01, written from the document alone.
//! It serves as the other side of comparisons and as a yardstick for speed.

pub mod answers;
#[cfg(feature = "library")]
pub mod bench;
pub mod brute;
pub mod cases;
pub mod commands;
pub mod compare;
pub mod console;
pub mod file;
pub mod format;
pub mod inputs;
pub mod iptables;
pub mod judge;
#[cfg(feature = "library")]
pub mod library;
pub mod plan;
pub mod policy;
pub mod replay;
pub mod rule;
pub mod show;
pub mod text;
pub mod vectors;
