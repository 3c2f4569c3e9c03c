//! The command `wurgalm`: systems typed, shown, checked and run, over the calls of the crate `wurgalm` alone.
//!
//! A module for each subcommand; [`writing`] has systems as text, [`expressions`] and [`typing`] read that text, [`places`] finds
//! the first fault of a sheet, [`log_places`] that of a log, [`frames`] takes a batch apart, [`output`] writes answers and
//! messages. `docs/wurgalm.1` is the manual.

#![forbid(unsafe_code)]

pub mod batch;
mod check;
pub mod command;
pub mod differentials;
pub mod expressions;
mod files;
mod fits;
pub mod frames;
mod help;
mod induce;
mod json;
mod log;
pub mod log_places;
mod names;
pub mod output;
pub mod places;
mod replay;
mod roles;
mod run;
pub mod series;
mod show;
mod solutions;
mod steps;
pub mod tokens;
mod type_in;
pub mod typing;
pub mod writing;

pub use command::main;
