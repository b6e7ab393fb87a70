//! Stand-ins for the parser and for the reader of literals: the sheet takes their place, so
//! nothing here runs.

use crate::ast::Expr;
use crate::lexer::Span;

pub struct Parser;

impl Parser {
    pub fn get_path_ref_components(_: &Expr) -> anyhow::Result<Vec<Span>> {
        anyhow::bail!("the oracle has no parser")
    }
}

pub mod serde_json {
    pub fn from_str<T>(_: &str) -> Result<T, std::fmt::Error> {
        Err(std::fmt::Error)
    }
}
