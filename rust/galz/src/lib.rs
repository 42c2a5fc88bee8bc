#![forbid(unsafe_code)]
//! Yards as text, as files and as pictures, judged, resolved, drawn and given
//! their rounds by the proved library.

pub mod blocks;
pub mod command;
pub mod configuration;
pub mod explain;
pub mod fault;
pub mod fields;
pub mod folder;
mod help;
pub mod map;
pub mod moves;
pub mod picture;
pub mod placing;
pub mod plan;
pub mod service;
pub mod text;
mod words;
pub mod yard;
