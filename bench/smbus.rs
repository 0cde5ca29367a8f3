//! The port on the System Management Bus once more in plain Rust, with no proof: packets, messages, and the endpoint's control commands.

use crate::attributes::Attributes;
use crate::plain::{Reply, WIRE};
use crate::slots::Out;
use crate::windows::{Found, Windows};

/// How many bytes of a message each packet carries but the last.
const UNIT_SIZE: usize = 64;

/// At most so many messages are put together at a time.
const MOST_ASSEMBLIES: usize = 8;

/// How many bytes a message that a port sends has at most.
const MOST_MESSAGE: usize = 256;

/// A message of PLDM as it grows: its data follow its code.
pub type MessageReply<'a> = Reply<'a, MOST_MESSAGE>;

/// How many bytes a control reply has at most.
const CONTROL_REPLY: usize = 8;

const CONTROL: u8 = 0x00;
const PLDM: u8 = 0x01;

const INVALID_DATA: u8 = 0x02;
const INVALID_LENGTH: u8 = 0x03;
const NOT_READY: u8 = 0x04;
const UNSUPPORTED_COMMAND: u8 = 0x05;

const fn crc_table() -> [u8; 256] {
    let mut table = [0; 256];
    let mut byte = 0;
    while byte < 256 {
        let mut crc = byte as u8;
        let mut bit = 0;
        while bit < 8 {
            crc = if crc & 0x80 != 0 {
                crc << 1 ^ 7
            } else {
                crc << 1
            };
            bit += 1;
        }
        table[byte] = crc;
        byte += 1;
    }
    table
}

static CRC: [u8; 256] = crc_table();

/// The packet error code.
pub fn pec(bytes: &[u8]) -> u8 {
    bytes.iter().fold(0, |crc, byte| CRC[(crc ^ byte) as usize])
}

/// Packets of a message that isn't whole yet. None wait where the count is 0.
struct Assembly {
    /// The source's EID, and its tag with the owner's bit.
    name: (u8, u8),
    count: u8,
    bytes: [u8; 256],
    length: usize,
}

/// Where the message lies that a packet ended.
enum Whole {
    InPacket,
    At(usize),
}

struct Assembler {
    assemblies: Vec<Assembly>,
}

impl Assembler {
    fn new() -> Self {
        let empty = || Assembly {
            name: (0, 0),
            count: 0,
            bytes: [0; 256],
            length: 0,
        };
        Assembler {
            assemblies: (0..MOST_ASSEMBLIES).map(|_| empty()).collect(),
        }
    }

    /// Takes a packet of these flags, and says where its message lies if it's whole.
    fn take(&mut self, name: (u8, u8), flags: u8, payload: &[u8]) -> Option<Whole> {
        let (start, end, sequence) = (flags & 0x80 != 0, flags & 0x40 != 0, flags >> 4 & 3);
        let open = |it: &Assembly| it.count > 0 && it.name == name;
        let place = self.assemblies.iter().position(open);
        let waiting = place.map_or(0, |place| self.assemblies[place].count);
        if !start && waiting == 0 {
            return None;
        }
        let number = if start { 0 } else { waiting };
        let is_right = number < 4 && sequence == number && (end || payload.len() == UNIT_SIZE);
        let free = self.assemblies.iter().position(|it| it.count == 0);
        if !is_right || start && !end && place.is_none() && free.is_none() {
            if let Some(place) = place {
                self.assemblies[place].count = 0;
            }
            return None;
        }
        if start && end {
            if let Some(place) = place {
                self.assemblies[place].count = 0;
            }
            return Some(Whole::InPacket);
        }
        let place = place.or(free)?;
        let assembly = &mut self.assemblies[place];
        if start {
            assembly.name = name;
            assembly.length = 0;
        }
        assembly.bytes[assembly.length..assembly.length + payload.len()].copy_from_slice(payload);
        assembly.length += payload.len();
        assembly.count = if end { 0 } else { number + 1 };
        end.then_some(Whole::At(place))
    }
}

/// Sends a message in packets, each from its start to the packet error code.
fn send(out: &mut Out, packet: &[u8], own: u8, message: &[u8]) {
    let last = (message.len() - 1) / UNIT_SIZE;
    for (place, payload) in message.chunks(UNIT_SIZE).enumerate() {
        let start = if place == 0 { 0x80 } else { 0 };
        let end = if place == last { 0x40 } else { 0 };
        let flags = start | end | (place as u8) << 4 | packet[7] & 7;
        out.send(|bytes| write_packet(bytes, packet, own, flags, payload));
    }
}

/// Writes a packet to the sender of this one, and gives its length.
fn write_packet(bytes: &mut [u8; 80], packet: &[u8], own: u8, flags: u8, payload: &[u8]) -> usize {
    let mut reply = Reply { bytes, length: 0 };
    reply.extend(&[
        packet[3] - 1,
        0x0F,
        payload.len() as u8 + 5,
        WIRE + 1,
        1,
        packet[6],
        own,
        flags,
    ]);
    reply.extend(payload);
    let check = pec(&reply.bytes[..reply.length]);
    reply.push(check);
    reply.length
}

/// A port, which keeps the messages of requests and of their replies.
pub struct Port<W> {
    own: u8,
    assembler: Assembler,
    windows: W,
    /// Where the message is written that is sent.
    message: [u8; MOST_MESSAGE],
}

impl<W: Windows> Port<W> {
    pub fn new() -> Self {
        Port {
            own: 0x0A,
            assembler: Assembler::new(),
            windows: W::new(),
            message: [0; MOST_MESSAGE],
        }
    }

    /// What the endpoint replies to a control request, behind its completion code.
    fn control(&mut self, command: u8, data: &[u8], reply: &mut Reply<CONTROL_REPLY>) -> u8 {
        match (command, data) {
            (1, [operation, eid]) => {
                if operation & 3 > 1 || *eid < 8 || *eid == 0xFF {
                    return INVALID_DATA;
                }
                self.own = *eid;
                reply.extend(&[0, *eid, 0]);
            }
            (2, []) => reply.extend(&[self.own, 0, 0]),
            (5, []) => reply.extend(&[1, 1]),
            (1 | 2 | 5, _) => return INVALID_LENGTH,
            _ => return UNSUPPORTED_COMMAND,
        }
        0
    }

    /// Takes a frame that was heard, and sends the reply's frames.
    pub fn on_frame(&mut self, attributes: &mut Attributes, frame: &[u8], out: &mut Out) {
        self.on_frame_by(frame, out, |from, message, reply| {
            attributes.serve(from, message, reply)
        })
    }

    /// The same, where `serve` carries a PLDM request of this endpoint out, puts its data into the reply and gives its code.
    #[inline(always)]
    pub fn on_frame_by(
        &mut self,
        frame: &[u8],
        out: &mut Out,
        serve: impl FnOnce(u8, &[u8], &mut MessageReply) -> u8,
    ) {
        out.clear();
        let length = frame.len();
        if length < 10 || frame[1] != 0x0F || frame[0] & 1 == 1 || frame[3] & 1 == 0 {
            return;
        }
        if frame[2] as usize + 4 != length || length > 73 {
            return;
        }
        if pec(&frame[..length - 1]) != frame[length - 1] || frame[4] & 15 != 1 {
            return;
        }
        if frame[0] != WIRE || frame[5] != self.own && frame[5] != 0 {
            return;
        }
        let payload = &frame[8..length - 1];
        let name = (frame[6], frame[7] & 15);
        match self.assembler.take(name, frame[7], payload) {
            None => {}
            Some(Whole::InPacket) => self.on_message(frame, payload, out, serve),
            Some(Whole::At(place)) => {
                // The port replies beside the message.
                let assembly = &self.assembler.assemblies[place];
                let (message, length) = (assembly.bytes, assembly.length);
                self.on_message(frame, &message[..length], out, serve)
            }
        }
    }

    /// Takes a message that this packet ended.
    fn on_message(
        &mut self,
        packet: &[u8],
        message: &[u8],
        out: &mut Out,
        serve: impl FnOnce(u8, &[u8], &mut MessageReply) -> u8,
    ) {
        if packet[7] & 8 == 0 {
            return;
        }
        match message[0] {
            CONTROL => self.on_control(packet, message, out),
            PLDM => self.on_pldm(packet, message, out, serve),
            _ => {}
        }
    }

    fn on_control(&mut self, packet: &[u8], message: &[u8], out: &mut Out) {
        if message.len() < 3 || message[1] >> 6 != 2 {
            return;
        }
        let mut body = [0; CONTROL_REPLY];
        let mut reply = Reply {
            bytes: &mut body,
            length: 0,
        };
        reply.extend(&[CONTROL, message[1] & 0x1F, message[2], 0]);
        let code = self.control(message[2], &message[3..], &mut reply);
        reply.bytes[3] = code;
        let length = reply.length;
        send(out, packet, self.own, &body[..length]);
    }

    fn on_pldm(
        &mut self,
        packet: &[u8],
        message: &[u8],
        out: &mut Out,
        serve: impl FnOnce(u8, &[u8], &mut MessageReply) -> u8,
    ) {
        if message.len() < 4 || message[2] >> 6 != 0 || message[1] >> 6 != 2 {
            return;
        }
        // The ignored bit is no part of the request: what is kept begins behind its byte, and the number stands for that.
        let (eid, number, rest) = (packet[6], message[1] & 31, &message[2..]);
        let found = self.windows.find(eid, number, rest);
        if let Found::Repeats(reply) = found {
            return send(out, packet, self.own, reply);
        }
        let is_busy = matches!(found, Found::Busy);
        let mut reply = Reply {
            bytes: &mut self.message,
            length: 0,
        };
        reply.extend(&[PLDM, number, message[2], message[3], NOT_READY]);
        if !is_busy {
            let code = serve(eid, message, &mut reply);
            reply.bytes[4] = code;
        }
        let length = reply.length;
        let reply = &self.message[..length];
        if !is_busy {
            self.windows.keep(eid, number, rest, reply);
        }
        send(out, packet, self.own, reply);
    }
}
