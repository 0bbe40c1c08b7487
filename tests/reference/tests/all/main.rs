//! The yardstick's own tests: the rules, then random questions, then what is printed.

mod cases;

mod known_answers;
mod readings_files;
mod readings_walk;
mod refusals;

mod congruence;
mod evidence;
mod expressions;
mod evidence_files;
mod files;
mod inclusion;
mod questions;
mod walk;

mod report;
mod totality;
