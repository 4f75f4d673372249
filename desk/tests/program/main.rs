//! The program desk in processes of its own: killed, on full disks and read-only files, on a terminal, and what it
//! asks of the system.

mod ends;
mod full;
mod kills;
mod locks;
mod process;
#[path = "../support/mod.rs"]
mod support;
mod synced;
mod terminal;
