//! Stands in for the outside: of it the copied crates use want of memory alone.
#[derive(Clone, Copy, Debug, PartialEq, Eq)]
pub struct NoMemory;

impl From<rstd::AllocError> for NoMemory {
    fn from(_: rstd::AllocError) -> NoMemory {
        NoMemory
    }
}
