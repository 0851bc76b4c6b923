//! The mirror as a static library with the C surface's names, to try the driver on. Built for
//! `selftest.sh` only.

// The model has more than the mirror's calls need.
#![allow(dead_code)]

mod mirror;
mod model;
