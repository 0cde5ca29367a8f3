//! The premise on packets: none that waits at the controller is joined once eight newer requests were begun on its bus.
use bmc_core::Disposition;
use lab_run::{Lab, SentFrame, Way};
use text_lines::Event;
use two_wire::Bus;

/// How many tags there are, and how many newer requests make a packet that waits too old.
const TAGS: usize = 8;
const TOO_OLD: usize = 8;

/// A packet's flags: it's a start, it's an end, and its tag.
const START: u8 = 0x80;
const END: u8 = 0x40;
const TAG: u8 = 0x07;

/// What waits at the controller, by the manager's tags.
#[derive(Clone, Copy)]
pub(super) struct Waiting {
    /// Under each tag, the oldest request of which a packet waits.
    oldest: [usize; TAGS],
    /// How many packets joined others.
    pub joined: u64,
    /// Whether a packet joined one that had waited too long.
    pub is_broken: bool,
}

/// The flags of a packet of the manager's.
pub(super) fn flags_of(frame: &SentFrame) -> Option<u8> {
    if frame.mark.on != Bus::Smbus || !frame.way.is(Way::ToPort) {
        return None;
    }
    frame.bytes.as_slice().get(7).copied()
}

/// Whether it's the first packet of several.
pub(super) fn is_first_of_several(frame: &SentFrame) -> bool {
    match flags_of(frame) {
        Some(flags) => flags & (START | END) == START,
        None => false,
    }
}

/// The newest request that the manager began on SMBus.
fn newest_request(frames: &[SentFrame]) -> usize {
    let mut newest = 0;
    for frame in frames {
        if flags_of(frame).is_some() && frame.mark.request > newest {
            newest = frame.mark.request;
        }
    }
    newest
}

impl Waiting {
    /// Nothing waits.
    pub const NOTHING: Waiting = Waiting {
        oldest: [0; TAGS],
        joined: 0,
        is_broken: false,
    };

    /// A packet joined what waits under its tag.
    fn join(&mut self, place: usize, request: usize, newest: usize) {
        self.joined = self.joined.wrapping_add(1);
        let oldest = self.oldest[place];
        if newest.saturating_sub(oldest) >= TOO_OLD {
            self.is_broken = true;
        }
        if request < oldest {
            self.oldest[place] = request;
        }
    }

    /// The lab took an event, before which so many of its frames had been sent.
    pub fn take(&mut self, event: &Event, lab: &Lab, before: usize) {
        let Event::ToBmc(number) = event else {
            return;
        };
        let frames = lab.frames();
        let Some(frame) = frames.get(*number as usize) else {
            return;
        };
        let Some(flags) = flags_of(frame) else {
            return;
        };
        if matches!(lab.done(event), Some(Disposition::Ignored(_))) {
            return;
        }
        let place = usize::from(flags & TAG);
        if flags & START != 0 {
            self.oldest[place] = frame.mark.request;
        } else {
            let sent = frames.get(..before).unwrap_or(frames);
            self.join(place, frame.mark.request, newest_request(sent));
        }
    }
}
