//! The bench tool, run as a process on files.

mod cases;
mod check;
mod command_line;
mod common;
mod compare;
mod documents;
mod draw;
mod explain;
mod inspect;
mod misses;
mod oil;
mod run;
mod salvage;
mod text;
mod timeline;
mod unit;
mod verdict;
mod wait;
