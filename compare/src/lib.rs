//! The dryer setting search compared with Rust code written apart: see README.md.

#![deny(unsafe_code)]

pub mod algol;
pub mod beam;
pub mod cases;
pub mod checks;
pub mod clean;
pub mod counts;
pub mod curves;
pub mod dispatcher;
#[allow(unsafe_code)]
pub mod ffi;
pub mod limits;
pub mod load;
pub mod load_model;
pub mod model;
pub mod old_default;
pub mod outcomes;
pub mod oven;
pub mod panel;
pub mod panel_model;
pub mod panel_runs;
pub mod picture;
pub mod plain;
pub mod requests;
pub mod rng;
pub mod season;
pub mod season_model;
pub mod season_sheets;
pub mod shares;
pub mod sheets;
pub mod survey;
pub mod survey_command;
pub mod survey_model;
pub mod survey_refusals;
pub mod surveys;
pub mod tables;
pub mod types;
