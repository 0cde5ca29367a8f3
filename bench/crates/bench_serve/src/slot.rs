//! Frames in a caller's memory.
ghost use Rattle.std.specs.Prelude.{◌≡◌, ◌≤◌, length};
ghost use Rattle.two_wire.specs.Sizes.{most_frame_bytes};
ghost use Rattle.bench_serve.specs.Serve.{frame_of};

use two_wire::size::MOST_FRAME_BYTES;

/// The bytes of a frame, of which the first `length` count. None stand for no frame.
#[repr(C)]
#[derive(Clone, Copy)]
pub struct Slot {
    pub length: u8,
    pub bytes: [u8; MOST_FRAME_BYTES],
}

impl Slot {
    /// The frame. A length above `MOST_FRAME_BYTES` counts as that.
    pub fn as_slice(&self) -> &[u8]
        ensures { result.now ≡ frame_of self.now }
    {
        &self.bytes[..MOST_FRAME_BYTES.min(self.length as usize)]
    }

    /// Puts another frame into its place.
    pub fn fill(&mut self, frame: &[u8])
        requires { length frame.now ≤ most_frame_bytes }
        ensures { frame_of self.new ≡ frame.now }
    {
        self.bytes[..frame.len()].copy_from_slice(frame);
        self.length = frame.len() as u8;
    }
}
