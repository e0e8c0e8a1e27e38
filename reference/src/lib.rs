//! The independent Rust version of Dembyhai: wind forces on square and
//! triangular lattice towers.
//!
//! It follows document 01 to the letter with exact arithmetic and shares no
//! code with the proved product, so that tests can compare the two. Document
//! 01 leaves a force free within `exact <= force < exact + 2`; here it is the
//! least whole number of newtons that is not below the exact force.

pub mod areas;
pub mod cases;
pub mod description;
pub mod draw;
pub mod expected;
pub mod file;
pub mod file_cases;
pub mod force;
pub mod host;
pub mod lists;
pub mod natural;
pub mod outputs;
pub mod plain;
pub mod rational;
pub mod refusal;
pub mod report;
pub mod request_lists;
pub mod requests;
pub mod rules;
pub mod sample;
pub mod service;
pub mod tower;
pub mod transcript;
pub mod units;
pub mod vectors;
