// Stand-in for utils/limits.rs: sizes wide enough for every sheet, and no limit of memory.
use core::fmt;
use core::num::{NonZeroU32, NonZeroUsize};

pub const DEFAULT_MAX_COL: NonZeroU32 = NonZeroU32::MAX;
pub const DEFAULT_MAX_FILE_BYTES: NonZeroUsize = NonZeroUsize::MAX;
pub const DEFAULT_MAX_LINES: NonZeroUsize = NonZeroUsize::MAX;

#[derive(Debug)]
pub enum LimitError {}

impl fmt::Display for LimitError {
    fn fmt(&self, _: &mut fmt::Formatter<'_>) -> fmt::Result {
        match *self {}
    }
}

impl core::error::Error for LimitError {}

pub fn check_memory_limit_if_needed() -> Result<(), LimitError> {
    Ok(())
}
