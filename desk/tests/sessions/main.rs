//! Desks in this process: transcripts written from the papers, sessions held against the model, journals on disk.

mod broken;
mod cut;
mod desk_here;
mod journals;
mod random;
#[path = "../support/mod.rs"]
mod support;
mod transcripts;
mod verdicts;
mod wrong_words;
