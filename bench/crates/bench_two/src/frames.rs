//! Frames in memory.
use bmc_ports::MemLink;
use std::alloc::Global;

/// The frames of a text, each in hexadecimal digits on a line of its own. None where a line is no frame, or where memory is refused.
pub fn frames_of(alloc: Global, text: &str) -> Option<Vec<Vec<u8>>> {
    let mut frames = Vec::new(alloc);
    for line in text.lines() {
        let frame = hex::decode(alloc, line).ok()?;
        frames.push(frame).ok()?;
    }
    Some(frames)
}

/// Appends each frame.
fn push_all<'a>(script: &mut Vec<&'a [u8]>, frames: &'a [Vec<u8>]) -> Option<()> {
    for frame in frames {
        script.push(frame.as_slice()).ok()?;
    }
    Some(())
}

/// A link that hears the frames so many times over.
pub fn link_of(alloc: Global, frames: &[Vec<u8>], times: u32) -> Option<MemLink> {
    let mut script = Vec::new(alloc);
    for _ in 0..times {
        push_all(&mut script, frames)?;
    }
    MemLink::new(alloc, script.as_slice()).ok()
}
