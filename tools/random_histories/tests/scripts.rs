//! What two workers hear, and what the scanner has happen.
use super::fault::NotMade;
use super::dice::Dice;
use bmc_board::Bench;
use std::alloc::Global;
use two_wire::{Below, Frame, check_byte, pec};

/// The IPMB address and the endpoint of those who ask.
pub(super) const REQUESTER: u8 = 0x2C;
pub(super) const ENDPOINT: u8 = 0x08;

/// How many requests a worker hears at most, those that come twice counted once, and how many events the scanner has. So many requests ask for
/// few things, under other numbers each: what a Get is replied changes between two of them.
const MOST_REQUESTS: u64 = 24;
const MOST_BENCH: u64 = 8;

/// A history has room for at most so many events, and a worker makes fewer turns than that. Both are mostly above what the scripts need.
const MOST_ROOM: u64 = 96;

/// What a run is of: the frames of both links, of which an empty one stands for a call of `next` that hears none, what happens on the bench, how many
/// turns each makes, and how many events the history has room for.
#[derive(Drop)]
pub(super) struct Script {
    pub first: Vec<Frame>,
    pub second: Vec<Frame>,
    pub bench: Vec<Bench>,
    pub turns: u32,
    pub room: usize,
}

/// The bytes, and behind them their check byte.
fn with_check(mut frame: Frame, from: usize) -> Frame {
    let check = check_byte(&frame.as_slice()[from..]);
    frame.push(check);
    frame
}

/// A request on IPMB to the controller's logical unit 0.
fn ipmb(sequence: u8, net_fn: u8, command: u8, data: &[u8]) -> Frame {
    let mut frame = with_check(Frame::from_slice(&[0x20, net_fn << 2]), 0);
    frame.extend_from_slice(&[REQUESTER, sequence << 2, command]);
    frame.extend_from_slice(data);
    with_check(frame, 3)
}

/// How many bytes of a message a packet has at most.
const MOST_PACKET: usize = 64;

/// The packets of a PLDM request, from the wire address 18h to the controller's endpoint 0Ah. The instance is the number's last five bits.
fn smbus(
    alloc: Global,
    number: u8,
    kind: u8,
    command: u8,
    data: &[u8],
) -> Result<Vec<Frame>, NotMade> {
    let instance = number & 0x1F;
    let mut message = Vec::from_slice(alloc, &[0x01, 0x80 | instance, kind, command])?;
    message.extend_from_slice(data)?;
    let message = message.as_slice();
    let mut frames = Vec::new(alloc);
    for place in 0..(message.len() + MOST_PACKET - 1) / MOST_PACKET {
        let from = MOST_PACKET * place;
        let to = (from + MOST_PACKET).min(message.len());
        let start = if place == 0 { 0x80 } else { 0 };
        let end = if to == message.len() { 0x40 } else { 0 };
        let flags = start | end | (place as u8 & 3) << 4 | 0x08 | (instance & 7);
        let count = ((to - from) as u8).wrapping_add(5);
        let mut frame = Frame::from_slice(&[0x20, 0x0F, count, 0x31, 0x01, 0x0A, ENDPOINT, flags]);
        frame.extend_from_slice(&message[from..to]);
        let check = pec(frame.as_slice());
        frame.push(check);
        frames.push(frame)?;
    }
    Ok(frames)
}

/// A request of the boot flags, of a reading, of the log, of the device, or of a new boot device.
fn any_ipmb(alloc: Global, dice: &mut Dice, sequence: u8) -> Result<Vec<Frame>, NotMade> {
    let frame = match dice.below(6) {
        0 => ipmb(sequence, 0x00, 0x09, &[0x05, 0x00, 0x00]),
        1 => ipmb(sequence, 0x04, 0x2D, &[0x05]),
        2 => ipmb(sequence, 0x0A, 0x40, &[]),
        3 => ipmb(sequence, 0x06, 0x01, &[]),
        _ => {
            let device = (dice.below(16) as u8) << 2;
            ipmb(sequence, 0x00, 0x08, &[0x05, 0x80, device, 0, 0, 0])
        }
    };
    let mut frames = Vec::new(alloc);
    frames.push(frame)?;
    Ok(frames)
}

/// A transfer handle and a flag or an operation behind it: how many bytes stand before a part, and which part it is.
const FIRST: [u8; 5] = [0, 0, 0, 0, 0x01];
const MIDDLE: [u8; 5] = [0xC0, 0, 0, 0, 0x02];
const LAST_OF_TWO: [u8; 5] = [0xC0, 0, 0, 0, 0x04];
const LAST_OF_THREE: [u8; 5] = [0x80, 0x01, 0, 0, 0x04];
const WHOLE: [u8; 5] = [0, 0, 0, 0, 0x05];

/// A Set of the text, in parts or whole: parts come by turns, mostly those of a text of 400 bytes, else those of one of 300. Some come out of turn.
fn text_set(alloc: Global, dice: &mut Dice, number: u8) -> Result<Vec<Frame>, NotMade> {
    let is_short = dice.happens(20);
    let turn = if dice.happens(90) { number % 3 } else { dice.below(4) as u8 };
    // Before a text stand its attribute, the type of a string and its length.
    let (head, entry, letters): ([u8; 5], &[u8], usize) = match turn {
        0 if is_short => (FIRST, &[1, 0, 1, 0x2C, 0x01], 187),
        0 => (FIRST, &[1, 0, 1, 0x90, 0x01], 187),
        1 if is_short => (LAST_OF_TWO, &[], 113),
        1 => (MIDDLE, &[], 192),
        2 => (LAST_OF_THREE, &[], 21),
        _ => (WHOLE, &[1, 0, 1, 0x03, 0x00], 3),
    };
    let letter = 0x61 + dice.byte() % 26;
    let mut data = Vec::from_slice(alloc, &head)?;
    data.extend_from_slice(entry)?;
    for _ in 0..letters {
        data.push(letter)?;
    }
    smbus(alloc, number, 0x03, 0x07, data.as_slice())
}

/// A request of the terminus, of the types, of an enumeration, of the first part of the text or a later one, or of a new value of either.
fn any_smbus(alloc: Global, dice: &mut Dice, number: u8) -> Result<Vec<Frame>, NotMade> {
    match dice.below(16) {
        0 => smbus(alloc, number, 0x00, 0x02, &[]),
        1 => smbus(alloc, number, 0x00, 0x04, &[]),
        2 => smbus(alloc, number, 0x03, 0x08, &[0, 0, 0, 0, 0x01, 0, 0]),
        3 => smbus(alloc, number, 0x03, 0x08, &[0, 0, 0, 0, 0x01, 1, 0]),
        4 | 5 => smbus(alloc, number, 0x03, 0x08, &[0xC0, 0, 0, 0, 0x00, 1, 0]),
        6 => smbus(alloc, number, 0x03, 0x08, &[0x80, 0x01, 0, 0, 0x00, 1, 0]),
        7 => {
            let value = dice.below(3) as u8;
            smbus(alloc, number, 0x03, 0x07, &[0, 0, 0, 0, 0x05, 0, 0, 0x00, 1, value])
        }
        _ => text_set(alloc, dice, number),
    }
}

/// Frames of a bus: requests under numbers that go up, some of them twice, some with a byte less, and pauses.
fn any_frames(
    alloc: Global,
    dice: &mut Dice,
    any: fn(Global, &mut Dice, u8) -> Result<Vec<Frame>, NotMade>,
) -> Result<Vec<Frame>, NotMade> {
    let mut frames: Vec<Frame> = Vec::new(alloc);
    for place in 0..dice.below(MOST_REQUESTS + 1) {
        let request = any(alloc, dice, place as u8)?;
        let percent = dice.below(100);
        let cut = dice.below(request.len() as u64) as usize;
        if percent < 10 {
            frames.push(Frame::new())?;
        } else {
            let times = if (20..30).contains(&percent) { 2 } else { 1 };
            for _ in 0..times {
                for (at, frame) in request.iter().enumerate() {
                    let from = if percent < 20 && at == cut { 1 } else { 0 };
                    frames.push(Frame::from_slice(&frame.as_slice()[from..]))?;
                }
            }
        }
    }
    Ok(frames)
}

/// What can happen on the bench.
fn any_bench(dice: &mut Dice) -> Bench {
    match dice.below(4) {
        0 => Bench::Tick,
        1 => Bench::Chassis(Below::new(dice.byte() & 31)),
        2 => Bench::Reading {
            sensor: dice.byte(),
            raw: dice.byte(),
        },
        _ => Bench::Reading {
            sensor: 5,
            raw: dice.byte(),
        },
    }
}

/// A script.
pub(super) fn any_script(alloc: Global, dice: &mut Dice) -> Result<Script, NotMade> {
    let first = any_frames(alloc, dice, any_ipmb)?;
    let second = any_frames(alloc, dice, any_smbus)?;
    let mut bench = Vec::new(alloc);
    for _ in 0..dice.below(MOST_BENCH + 1) {
        bench.push(any_bench(dice))?;
    }
    Ok(Script {
        first,
        second,
        bench,
        turns: dice.below(MOST_ROOM) as u32,
        room: 1 + dice.below(MOST_ROOM) as usize,
    })
}
