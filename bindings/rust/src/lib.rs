#![doc = include_str!("../README.md")]
//!
//! ## What is proved and what is not
//!
//! The static library is proved. This wrapper is not: it turns slices into pointers and counts, and
//! numbers into enums, and does nothing else. Tests hold both to an independent reference.

#![no_std]
#![warn(missing_docs)]

#[cfg(not(all(target_arch = "x86_64", target_pointer_width = "64")))]
compile_error!("the proved library is for x86-64");

mod compare;
mod evidence;
mod exports;
mod expressions;
mod file;
mod inclusion;
mod judge;
mod pattern;
mod refusal;
mod version;

pub use compare::{
    compare, compare_default, compare_lists, Columns, Compared, Lists, Record, DEFAULT_ROOM,
    MAX_ROOM,
};
pub use evidence::{check, check_records, Checked, MAX_PAIRS};
pub use expressions::{expressions, Expressed, TextRefused, MAX_OPEN};
pub use file::{read_pattern, write_pattern, PatternRead, LONGEST_FILE, MAX_ROWS};
pub use inclusion::{within, within_lists, Inclusion};
pub use judge::{judge, Judged};
pub use pattern::{Pattern, MAX_LETTERS, MAX_STATES};
pub use refusal::{Refusal, Refused};
pub use version::{version, VERSION};
