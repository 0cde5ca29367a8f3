//! A gate that picks who goes.
use bmc_ports::Gate;
use std::thread;

/// A gate that holds each worker for a while that its seed gives: up to 63 times the other threads may go on.
#[derive(Drop)]
pub(super) struct Mixed {
    seed: u64,
}

impl Mixed {
    pub fn new(seed: u64) -> Mixed {
        Mixed { seed }
    }
}

impl Gate for Mixed {
    fn pass(&self, port: u8, n: u64) {
        let place = n.wrapping_mul(2).wrapping_add(port as u64);
        let mixed = self
            .seed
            .wrapping_add(place)
            .wrapping_mul(0x9E37_79B9_7F4A_7C15);
        for _ in 0..(mixed >> 58) {
            thread::yield_now();
        }
    }
}
