//! Frames in memory, and what they go to.

use crate::boards::Board;

/// The bytes of a frame, of which the first `length` count. None stand for no frame.
#[repr(C)]
#[derive(Clone, Copy)]
pub struct Slot {
    pub length: u8,
    pub bytes: [u8; 80],
}

impl Slot {
    pub fn new(frame: &[u8]) -> Slot {
        let mut bytes = [0; 80];
        bytes[..frame.len()].copy_from_slice(frame);
        Slot {
            length: frame.len() as u8,
            bytes,
        }
    }

    /// The frame. A length above 80 counts as 80.
    pub fn as_slice(&self) -> &[u8] {
        &self.bytes[..80.min(self.length as usize)]
    }
}

/// How many frames a reply goes in at most.
const MOST_FRAMES: usize = 4;

/// What a plain port sends to a frame that it heard.
pub struct Out {
    frames: [Slot; MOST_FRAMES],
    count: usize,
}

impl Out {
    pub fn new() -> Out {
        Out {
            frames: [Slot::new(&[]); MOST_FRAMES],
            count: 0,
        }
    }

    /// The frames that were sent.
    pub fn sent(&self) -> &[Slot] {
        &self.frames[..self.count]
    }

    /// Nothing is sent.
    pub fn clear(&mut self) {
        self.count = 0;
    }

    /// Sends one more frame, which this writes, giving its length.
    pub fn send(&mut self, write: impl FnOnce(&mut [u8; 80]) -> usize) {
        let frame = &mut self.frames[self.count];
        frame.length = write(&mut frame.bytes) as u8;
        self.count += 1;
    }
}

/// Which bus the frames go over.
#[derive(Clone, Copy, Debug, PartialEq, Eq)]
pub enum Bus {
    Ipmb,
    /// The System Management Bus.
    Smbus,
}

/// Which bus the frames go over, and which board serves them.
#[derive(Clone, Copy, Debug, PartialEq, Eq)]
pub struct Kind {
    pub bus: Bus,
    pub board: Board,
}
