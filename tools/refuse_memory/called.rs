//! Calls that are made twice, and what is said of them.
use std::alloc::{AllocError, Global};
use std::fmt::Debug;
use std::io::{self, Print};

/// Why nothing can be told of a call.
#[derive(Debug, Drop)]
pub enum Unwell {
    /// What the call is given, or what is shown of what it gave, can't be had.
    Input,
    Write,
}

impl From<AllocError> for Unwell {
    fn from(_: AllocError) -> Unwell {
        Unwell::Input
    }
}

impl From<io::Error> for Unwell {
    fn from(_: io::Error) -> Unwell {
        Unwell::Write
    }
}

/// Has the call made twice. Each time it prints `ready` before the call, `called` once it is back, and then what it gave: `came` and what
/// is shown of the value, or of the fault. So an allocation between `ready` and `called` is the call's.
pub fn call_twice<R: Print, T: Drop, E: Debug + Drop>(
    rt: &R,
    mut call: impl FnMut() -> Result<T, E>,
    show: impl Fn(T) -> Result<String, Unwell>,
) -> Result<(), Unwell> {
    for _ in 0..2 {
        println!(rt; "ready")?;
        let came = call();
        println!(rt; "called")?;
        match came {
            Ok(value) => {
                let shown = show(value)?;
                println!(rt; "came {}", shown.as_str())?;
            }
            Err(fault) => println!(rt; "came {fault:?}")?,
        }
    }
    Ok(())
}

/// The bytes in hexadecimal.
pub fn digits(alloc: Global, bytes: &[u8]) -> Result<String, Unwell> {
    Ok(hex::encode_upper(alloc, bytes)?)
}

/// What is missing is an input that isn't there.
pub fn some<T>(found: Option<T>) -> Result<T, Unwell> {
    found.ok_or(Unwell::Input)
}
