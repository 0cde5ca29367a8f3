//! Which processors a thread runs on.
//!
//! With one request outstanding, what counts most is where the system wakes the server: on the client's processor, or on another. So the servers
//! and the clients have processors of their own then, where there are four.

use std::io;
use std::thread;

/// The processors of the servers, as `taskset` has them.
pub const SERVERS: &str = "0,2";

/// Those of the clients, a bit for each.
const CLIENTS: u64 = 0b1010;

unsafe extern "C" {
    fn sched_setaffinity(process: i32, size: usize, mask: *const u64) -> i32;
}

/// The processors that this process begins with.
#[derive(Clone, Copy)]
pub struct Place {
    all: u64,
}

impl Place {
    /// Asks the system. Only the first 63 processors count.
    pub fn of_process() -> io::Result<Place> {
        let many = thread::available_parallelism()?.get().min(63);
        Ok(Place { all: (1 << many) - 1 })
    }

    /// Whether servers and clients can have processors of their own.
    pub fn can_part(self) -> bool {
        self.all & 0b1111 == 0b1111
    }

    /// Has this thread, and those that it starts, run on the clients' processors alone, or on all.
    pub fn take(self, is_apart: bool) -> io::Result<()> {
        let mask = if is_apart { CLIENTS } else { self.all };
        // SAFETY: the mask has as many bytes as the call is told, and outlives it.
        match unsafe { sched_setaffinity(0, size_of::<u64>(), &mask) } {
            0 => Ok(()),
            _ => Err(io::Error::last_os_error()),
        }
    }
}
