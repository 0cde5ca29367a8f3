//! Whether controllers send the same bytes.

use crate::boards::Board;
use crate::frames::{self, Work};
use crate::slots::{Bus, Kind, Slot};
use std::io;

/// The frames that a controller sent to one.
pub type Sent = Vec<Slot>;

/// Hands a fresh controller the frames in turn, twice over, and gives what it sent to each the first time, and then the second.
pub type Hand = fn(Kind, &[Slot]) -> io::Result<Vec<Sent>>;

/// A controller, and what it is called.
pub type Controller = (&'static str, Hand);

fn bytes_of(sent: &Sent) -> Vec<&[u8]> {
    sent.iter().map(Slot::as_slice).collect()
}

/// Whether all controllers send what the first does.
fn agree(controllers: &[Controller], name: &str, kind: Kind, frames: &[Slot]) -> io::Result<bool> {
    let [(first, hand_first), others @ ..] = controllers else {
        return Err(io::Error::other("no controllers"));
    };
    let wanted = hand_first(kind, frames)?;
    let mut same = true;
    for (other, hand) in others {
        let sent = hand(kind, frames)?;
        assert_eq!([wanted.len(), sent.len()], [2 * frames.len(); 2]);
        for (place, (a, b)) in wanted.iter().zip(&sent).enumerate() {
            let (a, b) = (bytes_of(a), bytes_of(b));
            if a != b {
                let (round, frame) = (place / frames.len() + 1, place % frames.len());
                let heard = frames[frame].as_slice();
                eprintln!("bench: {name}, round {round}, frame {frame}: to {heard:02X?}");
                eprintln!("bench:   {first} {a:02X?}");
                eprintln!("bench:   {other} {b:02X?}");
                same = false;
            }
        }
    }
    Ok(same)
}

/// How many of the frames have this code at this place.
fn count(all: &[Sent], place: usize, code: u8) -> usize {
    all.iter()
        .filter_map(|sent| sent.first())
        .filter(|reply| reply.length as usize > place + 1 && reply.bytes[place] == code)
        .count()
}

fn random_agree(controllers: &[Controller], kind: Kind, random: usize) -> io::Result<bool> {
    let frames = frames::random(kind, random);
    let hand = controllers[controllers.len() - 1].1;
    let sent = &hand(kind, &frames)?[..frames.len()];
    let silent = sent.iter().filter(|sent| sent.is_empty()).count();
    eprint!(
        "bench: {} frames that look random, {kind:?}: {silent} with no reply",
        frames.len()
    );
    let (place, codes): (usize, &[u8]) = match kind.bus {
        Bus::Ipmb => (6, &[0x00, 0xC0, 0xC1, 0xC2, 0xC7, 0xCB, 0xCC]),
        Bus::Smbus => (12, &[0x00, 0x02, 0x03, 0x04, 0x05, 0x20, 0x88]),
    };
    for code in codes {
        eprint!(", {} with {code:02X}h", count(sent, place, *code));
    }
    eprintln!();
    agree(controllers, "random", kind, &frames)
}

/// Whether all controllers send the same to each list, and to so many frames that look random, of each kind.
pub fn all_agree<'a>(
    controllers: &[Controller],
    works: impl Iterator<Item = &'a Work>,
    random: usize,
) -> io::Result<bool> {
    let mut same = true;
    for (bus, board) in [
        (Bus::Ipmb, Board::Sample),
        (Bus::Smbus, Board::Sample),
        (Bus::Ipmb, Board::Of32),
        (Bus::Smbus, Board::LongText),
    ] {
        same &= random_agree(controllers, Kind { bus, board }, random)?;
    }
    for work in works {
        same &= agree(controllers, work.name, work.kind, &work.frames)?;
    }
    Ok(same)
}
