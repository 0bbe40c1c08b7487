//! The proved library held to the reference: the theory's functions, the calls, the wrapper.

#![forbid(unsafe_code)]

mod draw;

mod congruence;
mod next;
mod numbers;
mod pattern;
mod sets;

mod automata;
mod comparison;
mod evidence;
mod expressions;
mod files;
mod inclusion;
mod judge;
mod rooms;

mod wrapper;
