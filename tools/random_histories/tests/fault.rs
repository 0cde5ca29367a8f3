//! Why a run isn't made.
use std::alloc::{AllocError, AllocFailed};

/// What was refused.
#[derive(Clone, Copy, Debug, PartialEq, Eq)]
pub(super) struct NotMade(pub &'static str);

impl From<AllocError> for NotMade {
    fn from(_: AllocError) -> Self {
        NotMade("memory")
    }
}

impl<T: Drop> From<AllocFailed<T>> for NotMade {
    fn from(_: AllocFailed<T>) -> Self {
        NotMade("memory")
    }
}

impl From<&'static str> for NotMade {
    fn from(what: &'static str) -> Self {
        NotMade(what)
    }
}
