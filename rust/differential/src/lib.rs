//! The proved library beside what it is compared with: the original, and plain code.

pub mod analyses;
pub mod comparing;
pub mod readers;
pub mod schedules;
pub mod timing;
pub mod walks;
