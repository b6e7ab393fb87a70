//! The proved reader and the plain one on the same bytes: equal results, and every element of the
//! lent buffers as it has to be.

mod expected;
pub mod parts;

pub use expected::ReadCall;
