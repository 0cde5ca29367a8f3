//! The plain controller with both of its ports: they share one board under a lock, which keeps a list of what it was asked and answered.

use crate::attributes::{Attributes, SAMPLE_TEXT};
use crate::plain::Reply;
use crate::slots::Out;
use crate::smbus::MessageReply;
use crate::windows::Words;
use crate::{plain, smbus};
use std::sync::Mutex;

/// The most events of a board's history.
pub const MOST_EVENTS: usize = 4096;

/// At most so many bytes, which lie in the value itself.
struct Bytes<const CAP: usize> {
    length: usize,
    bytes: [u8; CAP],
}

impl<const CAP: usize> Bytes<CAP> {
    fn new(from: &[u8]) -> Self {
        let mut bytes = [0; CAP];
        bytes[..from.len()].copy_from_slice(from);
        Bytes {
            length: from.len(),
            bytes,
        }
    }

    fn as_slice(&self) -> &[u8] {
        &self.bytes[..self.length]
    }
}

/// A request, and who sent it.
enum Asked {
    Ipmi {
        from: u8,
        net_fn: u8,
        lun: u8,
        command: u8,
        body: Bytes<25>,
    },
    Pldm {
        from: u8,
        kind: u8,
        command: u8,
        body: Bytes<252>,
    },
}

/// A reply: its completion code, and its data.
struct Answered {
    code: u8,
    body: Bytes<251>,
}

/// What was asked of a board by which port, and what it answered.
struct Event {
    seat: u8,
    asked: Asked,
    answered: Answered,
}

impl Event {
    /// A sum over all that the event has.
    fn sum(&self) -> u64 {
        let (head, body) = match &self.asked {
            Asked::Ipmi {
                from,
                net_fn,
                lun,
                command,
                body,
            } => ([*from, *net_fn, *lun, *command], body.as_slice()),
            Asked::Pldm {
                from,
                kind,
                command,
                body,
            } => ([*from, *kind, 0, *command], body.as_slice()),
        };
        [self.seat, self.answered.code]
            .iter()
            .chain(&head)
            .chain(body)
            .chain(self.answered.body.as_slice())
            .map(|byte| u64::from(*byte))
            .sum()
    }
}

/// What lies under the lock.
struct Locked {
    board: plain::Board,
    attributes: Attributes,
    events: Vec<Event>,
}

impl Locked {
    fn add(&mut self, seat: u8, asked: Asked, code: u8, body: &[u8]) {
        assert!(self.events.len() < MOST_EVENTS, "the history is full");
        self.events.push(Event {
            seat,
            asked,
            answered: Answered {
                code,
                body: Bytes::new(body),
            },
        });
    }
}

/// The sample board, which two ports share.
pub struct Shared {
    lock: Mutex<Locked>,
}

impl Shared {
    /// All memory is taken here.
    pub fn sample() -> Shared {
        Shared {
            lock: Mutex::new(Locked {
                board: plain::Board::sample(),
                attributes: Attributes::new(SAMPLE_TEXT),
                events: Vec::with_capacity(MOST_EVENTS),
            }),
        }
    }

    /// How many events there are, and a sum over them.
    pub fn close(self) -> (usize, u64) {
        let locked = self.lock.into_inner().expect("no thread panicked");
        (
            locked.events.len(),
            locked.events.iter().map(Event::sum).sum(),
        )
    }
}

/// One of the two ports.
pub trait Port: Send {
    fn new() -> Self;

    /// Takes a frame that was heard, and sends the reply's frames. It holds the lock while the board carries a request out and the list
    /// gains it.
    fn on_frame(&mut self, shared: &Shared, frame: &[u8], out: &mut Out);
}

/// The port on IPMB.
pub struct Ipmb(plain::Port<Words<64, 32>>);

/// The port on the System Management Bus.
pub struct Smbus(smbus::Port<Words<32, 256>>);

impl Port for Ipmb {
    fn new() -> Self {
        Ipmb(plain::Port::new())
    }

    fn on_frame(&mut self, shared: &Shared, frame: &[u8], out: &mut Out) {
        self.0.on_frame_by(frame, out, |frame, reply: &mut Reply| {
            let start = reply.length;
            let mut locked = shared.lock.lock().expect("no thread panicked");
            let code = locked.board.serve(frame, reply);
            let asked = Asked::Ipmi {
                from: frame[3],
                net_fn: frame[1] >> 2,
                lun: frame[1] & 3,
                command: frame[5],
                body: Bytes::new(&frame[6..frame.len() - 1]),
            };
            locked.add(0, asked, code, &reply.bytes[start..reply.length]);
            code
        })
    }
}

impl Port for Smbus {
    fn new() -> Self {
        Smbus(smbus::Port::new())
    }

    fn on_frame(&mut self, shared: &Shared, frame: &[u8], out: &mut Out) {
        let serve = |from: u8, message: &[u8], reply: &mut MessageReply| {
            let start = reply.length;
            let mut locked = shared.lock.lock().expect("no thread panicked");
            let code = locked.attributes.serve(from, message, reply);
            let asked = Asked::Pldm {
                from,
                kind: message[2] & 0x3F,
                command: message[3],
                body: Bytes::new(&message[4..]),
            };
            locked.add(1, asked, code, &reply.bytes[start..reply.length]);
            code
        };
        self.0.on_frame_by(frame, out, serve)
    }
}
