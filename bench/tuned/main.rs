//! A plain twin of threefield that nothing proves, written for speed: it prints the same bytes.
//!
//!     rustc -O --edition 2021 -o /tmp/tuned bench/tuned/main.rs
//!
//! It has `solve`, `check` and `gantt`, for answer texts of version 1, and ends where memory is wanting.
mod answer;
mod chart;
mod checker;
mod classes;
mod command_line;
mod input;
mod notation;
mod numbers;
mod or_library;
mod output;
mod solvers;
mod sorting;
mod table;
mod tasks;

pub use crate::answer::*;
pub use crate::chart::*;
pub use crate::checker::*;
pub use crate::classes::*;
pub use crate::command_line::*;
pub use crate::input::*;
pub use crate::notation::*;
pub use crate::numbers::*;
pub use crate::or_library::*;
pub use crate::output::*;
pub use crate::solvers::*;
pub use crate::sorting::*;
pub use crate::table::*;
pub use crate::tasks::*;
pub use std::cmp::Reverse;
pub use std::collections::BinaryHeap;
pub use std::env;
pub use std::ffi::OsString;
pub use std::fs::File;
pub use std::io::{self, BufRead, Read, Write};
pub use std::os::fd::AsFd;
pub use std::process::exit;

pub const LIMIT: i64 = 4_000_000_000_000_000_000;
pub const MAX_INPUT: usize = 67_108_864;
pub const MAX_JOBS: usize = 100_000;
pub const MAX_STEP_JOBS: usize = 2_000;
pub const MAX_ARCS: usize = 200_000;
pub const MAX_MACHINES: i64 = 1_000;
pub const CHUNK: usize = 1 << 17;

pub enum Fault {
    Usage(&'static str),
    Device,
    Refused(String),
}

pub type Res<T> = Result<T, Fault>;

pub fn refused<T>(text: impl Into<String>) -> Res<T> {
    Err(Fault::Refused(text.into()))
}

pub fn at_line<T>(name: &str, line: usize) -> Res<T> {
    Err(Fault::Refused(format!("{name} {line}")))
}
