//! The desk tool's unit and random tests. What is drawn at random comes from fixed seeds: every run
//! has the same cases.

mod commands;
mod costs;
mod differences;
mod draw;
mod faults;
mod random_texts;
mod round_trip;
mod sheets;
mod slips;
mod text_edits;
mod write;
