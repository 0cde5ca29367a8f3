//! What others do, and what isn't configuration.
ghost use Rattle.std.specs.Prelude.{◌<◌};

use super::dice::Dice;
use ipmb_frame::Party;
use lab_run::SentFrame;
use text_lines::{BenchEvent, Event, Octets, OtherMessage, OtherRequest};
use std::alloc::Global;
use std::test::Fail;
use two_wire::{Address, Below, Bus, Bytes, Lun, NetFn};

/// A network function, a command and its data, none of which sets the configuration: live commands, commands that get a record, a
/// password, one of a wrong length, and one that isn't there.
const ASKED: [(u8, u8, &[u8]); 16] = [
    (0x00, 0x01, &[]),
    (0x00, 0x09, &[0x05, 0x00, 0x00]),
    (0x04, 0x25, &[0x05, 0x00]),
    (0x04, 0x27, &[0x07]),
    (0x04, 0x29, &[0x05]),
    (0x04, 0x2D, &[0x05]),
    (0x06, 0x01, &[]),
    (0x06, 0x01, &[0x00]),
    (0x06, 0x22, &[]),
    (0x06, 0x47, &[0x02, 0x01]),
    (0x06, 0x99, &[]),
    (
        0x0A,
        0x44,
        &[0, 0, 0x02, 0, 0, 0, 0, 1, 2, 3, 4, 5, 6, 7, 8, 9],
    ),
    (0x0A, 0x49, &[0x10, 0x20, 0x30, 0x40]),
    (0x0A, 0x43, &[0, 0, 0, 0, 0, 0xFF]),
    (0x0C, 0x02, &[0x01, 0x03, 0x00, 0x00]),
    (0x0C, 0x02, &[0x81, 0x00, 0x00, 0x00]),
];

/// Messages of which none sets the configuration: GetTID, GetPLDMTypes, GetNumericEffecterValue of two effecters, Get Endpoint ID, Get
/// Message Type Support, a PLDM command that isn't there, and one of a type that isn't there, in two packets.
const TOLD: [&[u8]; 8] = [
    &[0x01, 0x80, 0x00, 0x02],
    &[0x01, 0x81, 0x00, 0x04],
    &[0x01, 0x82, 0x02, 0x32, 0x04, 0x00],
    &[0x01, 0x83, 0x02, 0x32, 0x05, 0x01],
    &[0x00, 0x84, 0x02],
    &[0x00, 0x85, 0x05],
    &[0x01, 0x86, 0x02, 0x33, 0x04, 0x00],
    &[0x7E; 100],
];

/// A requester that isn't the manager, by a small number: one of four, or of nine where it is crowded.
fn requester(dice: &mut Dice, is_crowded: bool) -> u8
    ensures { result < 9 }
{
    if is_crowded {
        dice.below(9) as u8
    } else {
        dice.below(4) as u8
    }
}

/// The request of these parts.
fn request(
    dice: &mut Dice,
    from: Address,
    (net_fn, command, body): (u8, u8, &[u8]),
) -> Option<OtherRequest> {
    if net_fn >= 64 || net_fn % 2 != 0 || body.len() > 25 {
        return None;
    }
    Some(OtherRequest {
        requester: Party {
            address: from,
            lun: Lun::new(dice.byte() % 4),
        },
        responder: Lun::new(0),
        net_fn: NetFn::new(net_fn),
        sequence: Below::new(dice.byte() % 64),
        command,
        body: Bytes::from_slice(body),
    })
}

/// A request of somebody else on IPMB.
pub(super) fn other_request(dice: &mut Dice, is_crowded: bool) -> Result<Event, Fail> {
    let place = dice.below(16) as usize;
    let asked = *ASKED.get(place).ok_or("a request")?;
    let from = Address::new(0x40 + 2 * requester(dice, is_crowded)).ok_or("an address")?;
    Ok(Event::OtherIpmb(request(dice, from, asked).ok_or("a request")?))
}

/// A message of somebody else on SMBus.
pub(super) fn other_message(
    alloc: Global,
    dice: &mut Dice,
    is_crowded: bool,
) -> Result<Event, Fail> {
    let place = dice.below(8) as usize;
    let told = TOLD.get(place).ok_or("a message")?;
    let mut body = Vec::new(alloc);
    body.extend_from_slice(told)?;
    Ok(Event::OtherSmbus(OtherMessage {
        from: 0x10 + requester(dice, is_crowded),
        body: Octets::new(body).ok_or("bytes")?,
    }))
}

/// A frame that was sent, one of whose bytes was changed on the way, so that its check bytes fail.
pub(super) fn noise_of(alloc: Global, dice: &mut Dice, frame: &SentFrame) -> Result<Event, Fail> {
    let many = frame.bytes.len() as u64;
    if many == 0 {
        return Ok(Event::OnBench(BenchEvent::Tick));
    }
    let damaged = dice.below(many) as usize;
    let by = 1 + dice.byte() % 255;
    let mut heard = Vec::new(alloc);
    for (place, byte) in frame.bytes.as_slice().iter().enumerate() {
        heard.push(if place == damaged { *byte ^ by } else { *byte })?;
    }
    Ok(Event::Noise(frame.mark.on, Octets::new(heard).ok_or("bytes")?))
}

/// A requester's window is forgotten: the manager's, or another's.
pub(super) fn idle(dice: &mut Dice, is_crowded: bool) -> Event {
    let of_manager = dice.happens(30);
    let requester = requester(dice, is_crowded);
    if dice.happens(50) {
        let from = if of_manager {
            0x2C
        } else {
            0x40 + 2 * requester
        };
        Event::Idle(Bus::Ipmb, from)
    } else {
        let from = if of_manager { 0x08 } else { 0x10 + requester };
        Event::Idle(Bus::Smbus, from)
    }
}

/// A reading of a sensor, that isn't always there.
pub(super) fn scan(dice: &mut Dice) -> Event {
    let sensor = match dice.below(5) {
        0 | 1 => 5,
        2 | 3 => 7,
        _ => 9,
    };
    Event::OnBench(BenchEvent::Scan {
        sensor,
        reading: dice.byte(),
    })
}
