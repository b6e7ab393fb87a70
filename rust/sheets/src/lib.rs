//! Query sheets: rows, text, trees, and what tests need of them.

pub mod answer;
pub mod census;
pub mod check;
pub mod damage;
pub mod differences;
pub mod edges;
pub mod examples;
pub mod generate;
pub mod layout;
pub mod lists;
pub mod positions;
pub mod read;
pub mod rego;
pub mod rng;
pub mod sheet;
pub mod shrink;
pub mod small;
pub mod tree;
pub mod vectors;

pub use sheet::{limits, limits::Limits, Form, Kind, Sheet};
