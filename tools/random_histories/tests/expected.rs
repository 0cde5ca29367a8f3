//! What is expected of each run.
use super::fault::NotMade;
use super::scripts::{ENDPOINT, Script};
use super::sharing::{Ports, Told, open_sample};
use bmc_board::{Board, Records};
use bmc_core::{Out, Port, Step};
use bmc_ports::{Call, End, History, Link, MOST_KEPT, MemLink};
use record_base::{Answered, Asked};
use std::alloc::Global;
use std::process::Abort;
use two_wire::{Below, Bytes, Frame, NetFn};

/// Whether a board that is told the history's calls in their order answers each so.
fn replays(board: &mut Board<Records>, history: &History) -> bool {
    for place in 0..history.len() {
        let same = match history.get(place).map(|event| event.call) {
            Some(Call::Exchanged { asked, answered }) => board.answer(&asked).is(&answered),
            Some(Call::Benched { bench, answered }) => board.bench(bench) == answered,
            None => false,
        };
        if !same {
            return false;
        }
    }
    true
}

/// A last part of a Set: it's refused for its length where the endpoint of the scripts has set a first part and no more, and else for its handle.
fn last_part() -> Asked {
    Asked::Pldm {
        from: ENDPOINT,
        kind: Below::new(3),
        command: 0x07,
        body: Bytes::from_slice(&[0xC0, 0, 0, 0, 0x04, 0x61]),
    }
}

/// The boot flags, the boot device's sensor, the log with its newest record, an enumeration, the parts of a text, and whether a first part of it was
/// set: what the scripts change.
fn questions() -> [Asked; 9] {
    [
        Asked::ipmi(NetFn::new(0x00), 0x09, &[0x05, 0x00, 0x00]),
        Asked::ipmi(NetFn::new(0x04), 0x2D, &[0x05]),
        Asked::ipmi(NetFn::new(0x0A), 0x40, &[]),
        Asked::ipmi(NetFn::new(0x0A), 0x43, &[0, 0, 0xFF, 0xFF, 0, 0xFF]),
        Asked::pldm(Below::new(3), 0x08, &[0, 0, 0, 0, 0x01, 0, 0]),
        Asked::pldm(Below::new(3), 0x08, &[0, 0, 0, 0, 0x01, 1, 0]),
        Asked::pldm(Below::new(3), 0x08, &[0xC0, 0, 0, 0, 0x00, 1, 0]),
        Asked::pldm(Below::new(3), 0x08, &[0x80, 0x01, 0, 0, 0x00, 1, 0]),
        last_part(),
    ]
}

/// Both boards answer each question alike.
fn are_alike(one: &mut Board<Records>, other: &mut Board<Records>) -> bool {
    for asked in &questions() {
        if !one.answer(asked).is(&other.answer(asked)) {
            return false;
        }
    }
    true
}

/// Whether the request is the last part of a Set that was carried out, and whether it got a later part.
fn is_part(asked: &Asked, answered: &Answered) -> (bool, bool) {
    match asked {
        Asked::Pldm { command, body, .. } if answered.code == 0 => {
            let part = body.as_slice().get(4).copied();
            (
                *command == 0x07 && part == Some(0x04),
                *command == 0x08 && part == Some(0x00),
            )
        }
        _ => (false, false),
    }
}

/// How many Sets in parts of the history were carried out, and how many later parts were got.
pub(super) fn parts_of(history: &History) -> (u64, u64) {
    let (mut sets, mut gets) = (0, 0);
    for place in 0..history.len() {
        if let Some(Call::Exchanged { asked, answered }) = history.get(place).map(|event| event.call) {
            let (is_set, is_got) = is_part(&asked, &answered);
            sets += u64::from(is_set);
            gets += u64::from(is_got);
        }
    }
    (sets, gets)
}

/// The seat of the event at this place.
pub(super) fn seat_at(history: &History, place: usize) -> Option<u8> {
    history.get(place).map(|event| event.seat)
}

/// The first place from this one on that has an event of the seat.
pub(super) fn place_of(history: &History, seat: u8, from: usize) -> Option<usize> {
    for place in from..history.len() {
        if seat_at(history, place) == Some(seat) {
            return Some(place);
        }
    }
    None
}

/// How many events the history has of a seat.
pub(super) fn events_of(history: &History, seat: u8) -> u64 {
    let mut many = 0u64;
    for place in 0..history.len() {
        if seat_at(history, place) == Some(seat) {
            many = many.wrapping_add(1);
        }
    }
    many
}

/// Who ended full did so at the history's room, and who ended by turns made all of them.
fn ends_are_right(script: &Script, told: &Told) -> bool {
    let turns = script.turns as u64;
    let is_full = told.history.len() == script.room;
    let [first, second, scanner] = told.ends;
    let made = [
        (first, told.first.counts().calls == turns),
        (second, told.second.counts().calls == turns),
        (
            scanner,
            events_of(&told.history, 2) == turns.min(script.bench.len() as u64),
        ),
    ];
    for (end, has_made_all) in made {
        let is_right = match end {
            End::Turns => has_made_all,
            End::Full => is_full,
        };
        if !is_right {
            return false;
        }
    }
    true
}

/// The history fits its room, a second board answers it so, and is then as the first; and each ended as it was to.
pub(super) fn expect_told(
    rt: &impl Abort,
    alloc: Global,
    seed: u64,
    script: &Script,
    told: &mut Told,
) -> Result<(), NotMade> {
    assert!(rt; told.history.len() <= script.room, "seed {seed}: over its room");
    assert!(rt; ends_are_right(script, told), "seed {seed}: an end");
    let mut other = open_sample(alloc)?;
    assert!(rt; replays(&mut other, &told.history), "seed {seed}: an answer");
    assert!(rt; are_alike(&mut told.board, &mut other), "seed {seed}: the board");
    Ok(())
}

/// The reply to this request, where it is the next that the seat asked from this place on, which is then the one behind it.
fn next_reply(history: &History, from: &mut usize, seat: u8, wanted: &Asked) -> Option<Answered> {
    let place = place_of(history, seat, *from)?;
    *from = place + 1;
    match history.get(place)?.call {
        Call::Exchanged { asked, answered } if asked.is(wanted) => Some(answered),
        _ => None,
    }
}

/// Whether a port that hears what this link heard, and gets the answers that the history has of this seat, sends what this link sent.
fn is_sent(
    alloc: Global,
    port: &mut Port,
    seat: u8,
    frames: &[Frame],
    link: &MemLink,
    history: &History,
) -> Result<bool, NotMade> {
    let mut out = Out::new();
    let mut from = 0;
    let mut sent: Vec<Frame> = Vec::new(alloc);
    let heard = link.counts().calls.min(frames.len() as u64) as usize;
    for frame in &frames[..heard] {
        if frame.is_empty() {
            continue;
        }
        if let Step::Ask(pending) = port.hear(frame.as_slice(), &mut out) {
            let Some(answered) = next_reply(history, &mut from, seat, &pending.asked()) else {
                break;
            };
            port.answer(pending, &answered, &mut out);
        }
        for frame in out.frames.as_slice() {
            sent.push(frame.copy())?;
        }
    }
    let is_all = place_of(history, seat, from).is_none();
    let most = sent.len().min(MOST_KEPT);
    Ok(is_all && &sent.as_slice()[..most] == link.sent())
}

/// Each worker sent what one of these ports sends that gets the answers which the history has of its seat.
pub(super) fn expect_sent(
    rt: &impl Abort,
    alloc: Global,
    ports: &mut Ports,
    seed: u64,
    script: &Script,
    told: &Told,
) -> Result<(), NotMade> {
    let Ports { first, second } = ports;
    let frames = script.first.as_slice();
    let is_first = is_sent(alloc, first, 0, frames, &told.first, &told.history)?;
    assert!(rt; is_first, "seed {seed}: a frame of port 0");
    let frames = script.second.as_slice();
    let is_second = is_sent(alloc, second, 1, frames, &told.second, &told.history)?;
    assert!(rt; is_second, "seed {seed}: a frame of port 1");
    Ok(())
}
