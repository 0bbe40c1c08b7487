//! The rules of the scope written plainly, as a yardstick for the library and the program.
//!
//! In reading order: the rules themselves (`answers` to `expressions`), then
//! independent judges of equivalence (`subsets`) and of what an expression takes
//! (`derivatives`), then what tests draw their questions from (`random`, `questions`,
//! `damage`, `phrases`) and how much they run (`rounds`).
//! In reading order: the rules themselves (`answers` to `texts`), then
//! independent judges of equivalence (`subsets`) and of what an expression takes
//! (`derivatives`), then what tests draw their questions from (`random`, `questions`,
//! `damage`, `phrases`) and how much they run (`rounds`).
//!
//! Nothing here is proved and nothing is made fast. Every function is total:
//! whatever numbers come in, an answer goes out.

#![forbid(unsafe_code)]
#![warn(missing_docs)]

pub mod answers;
pub mod pattern;

pub mod congruence;
pub mod evidence;
pub mod judge;
pub mod walk;

pub mod inclusion;

pub mod evidence_file;
pub mod file;
pub mod numbers;

pub mod events;
pub mod report;
pub mod verdict;

pub mod expressions;
pub mod positions;
pub mod texts;

pub mod derivatives;
pub mod subsets;

pub mod damage;
pub mod phrases;
pub mod questions;
pub mod random;
pub mod rounds;
