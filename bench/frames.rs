//! The frames that both controllers get.

use crate::boards::Board;
use crate::slots::{Bus, Kind, Slot};
use crate::smbus::pec;

const WIRE: u8 = 0x20;
const REQUESTER: u8 = 0x2C;
const SENSOR_EVENT: u8 = 0x04;
const CHASSIS: u8 = 0x00;
const APP: u8 = 0x06;

fn check_byte(bytes: &[u8]) -> u8 {
    bytes
        .iter()
        .fold(0, |check: u8, byte| check.wrapping_sub(*byte))
}

/// The frame of a request from this address to the controller's logical unit 0.
fn request_from(requester: u8, net_fn: u8, sequence: u8, command: u8, data: &[u8]) -> Vec<u8> {
    let mut frame = vec![WIRE, net_fn << 2];
    frame.push(check_byte(&frame));
    frame.extend([requester, sequence << 2, command]);
    frame.extend(data);
    frame.push(check_byte(&frame[3..]));
    frame
}

fn request(net_fn: u8, sequence: u8, command: u8, data: &[u8]) -> Vec<u8> {
    request_from(REQUESTER, net_fn, sequence, command, data)
}

/// A packet from 30h and this endpoint to the controller's, with these flags.
fn packet(eid: u8, flags: u8, payload: &[u8]) -> Vec<u8> {
    let mut frame = vec![
        WIRE,
        0x0F,
        payload.len() as u8 + 5,
        0x31,
        1,
        0x0A,
        eid,
        flags,
    ];
    frame.extend(payload);
    frame.push(pec(&frame));
    frame
}

/// The packets of a message under this tag, whose sender owns it.
fn packets(eid: u8, tag: u8, message: &[u8]) -> Vec<Vec<u8>> {
    let count = message.chunks(64).count();
    message
        .chunks(64)
        .enumerate()
        .map(|(place, payload)| {
            let start = if place == 0 { 0x80 } else { 0 };
            let end = if place + 1 == count { 0x40 } else { 0 };
            packet(eid, start | end | (place as u8) << 4 | 8 | tag, payload)
        })
        .collect()
}

/// A list of frames, and what it is called. Handed over again and again it has the same requests as new ones, but for the list of repeats:
/// their numbers go round the circle.
pub struct Work {
    pub name: &'static str,
    pub kind: Kind,
    pub frames: Vec<Slot>,
}

fn work(name: &'static str, bus: Bus, board: Board, frames: Vec<Vec<u8>>) -> Work {
    Work {
        name,
        kind: Kind { bus, board },
        frames: frames.iter().map(|frame| Slot::new(frame)).collect(),
    }
}

/// A Set of the thresholds of each of these sensors in turn and then a Get of them, each Set with other values than the last.
fn thresholds(sensors: &[u8]) -> Vec<Vec<u8>> {
    (0..32)
        .flat_map(|turn: u8| {
            let sensor = sensors[turn as usize % sensors.len()];
            let low = turn % 4;
            let set = [
                sensor,
                0x3F,
                0x14 + low,
                0x0A + low,
                0x05 + low,
                0x50,
                0x5F,
                0x6E + low,
            ];
            [
                request(SENSOR_EVENT, 2 * turn % 64, 0x26, &set),
                request(SENSOR_EVENT, (2 * turn + 1) % 64, 0x27, &[sensor]),
            ]
        })
        .collect()
}

/// Gets of thresholds from eight requesters in turn, each with every eighth number.
fn eight_requesters() -> Vec<Vec<u8>> {
    (0..64)
        .map(|turn: u8| request_from(0x40 + turn % 8 * 2, SENSOR_EVENT, turn / 8 * 8, 0x27, &[5]))
        .collect()
}

/// Gets of thresholds with the lower half of the numbers: in each round but the first they repeat those of the last.
fn repeats() -> Vec<Vec<u8>> {
    (0..64)
        .map(|turn: u8| request(SENSOR_EVENT, turn % 32, 0x27, &[5]))
        .collect()
}

fn device_id() -> Vec<Vec<u8>> {
    (0..64).map(|turn| request(APP, turn, 0x01, &[])).collect()
}

/// Sets of thresholds whose last byte is off by one.
fn bad_check() -> Vec<Vec<u8>> {
    let mut frames = thresholds(&[5]);
    for frame in &mut frames {
        let last = frame.len() - 1;
        frame[last] = frame[last].wrapping_add(1);
    }
    frames
}

/// GetTID.
fn get_tid() -> Vec<Vec<u8>> {
    (0..64)
        .flat_map(|turn: u8| packets(8, turn % 8, &[1, 0x80 | turn % 32, 0, 2]))
        .collect()
}

/// Messages of two packets: GetTID with 96 bytes of data, which its length refuses.
fn two_packets() -> Vec<Vec<u8>> {
    (0..32)
        .flat_map(|turn: u8| {
            let mut message = vec![1, 0x80 | turn, 0, 2];
            message.extend([turn; 96]);
            packets(8, turn % 8, &message)
        })
        .collect()
}

/// A Set of the asset's name, the attribute of handle 1, and then a Get of it, each Set with another text than the last.
fn attributes() -> Vec<Vec<u8>> {
    (0..32)
        .flat_map(|turn: u8| {
            let mut set = vec![1, 0x80 | 2 * turn % 32, 3, 7, 0, 0, 0, 0, 5, 1, 0, 1, 24, 0];
            set.extend([0x41 + turn % 26; 24]);
            let get = [1, 0x80 | (2 * turn + 1) % 32, 3, 8, 0, 0, 0, 0, 1, 1, 0];
            let tag = 2 * turn % 8;
            [packets(8, tag, &set), packets(8, tag + 1, &get)].concat()
        })
        .collect()
}

/// How many bytes each part of an entry has but the last.
const PART: usize = 192;

/// The transfer flags of parts: the first, one between, and the last.
const START: u8 = 1;
const MIDDLE: u8 = 2;
const END: u8 = 4;

/// The transfer operations: the first part, and the next.
const FIRST: u8 = 1;
const NEXT: u8 = 0;

/// The entry of the asset's name, so many times this letter.
fn asset_entry(letter: u8, length: usize) -> Vec<u8> {
    let mut entry = vec![1, 0, 1];
    entry.extend((length as u16).to_le_bytes());
    entry.extend(vec![letter; length]);
    entry
}

/// A Set of some bytes of an entry.
fn set_part(numbers: u8, handle: u32, flag: u8, bytes: &[u8]) -> Vec<u8> {
    let mut message = vec![1, numbers, 3, 7];
    message.extend(handle.to_le_bytes());
    message.push(flag);
    message.extend(bytes);
    message
}

/// A Get of an attribute's value, or of a part of its entry.
fn get_part(numbers: u8, handle: u32, operation: u8, attribute: u8) -> Vec<u8> {
    let mut message = vec![1, numbers, 3, 8];
    message.extend(handle.to_le_bytes());
    message.extend([operation, attribute, 0]);
    message
}

/// The Sets of an entry in parts, without their numbers.
fn set_in_parts(entry: &[u8]) -> Vec<Vec<u8>> {
    let count = entry.chunks(PART).count();
    (entry.chunks(PART).enumerate())
        .map(|(place, bytes)| {
            let flag = match place {
                0 => START,
                _ if place + 1 == count => END,
                _ => MIDDLE,
            };
            set_part(0, (PART * place) as u32, flag, bytes)
        })
        .collect()
}

/// The Gets of an entry of three parts, without their numbers.
fn get_in_parts() -> Vec<Vec<u8>> {
    vec![
        get_part(0, 0, FIRST, 1),
        get_part(0, 192, NEXT, 1),
        get_part(0, 384, NEXT, 1),
    ]
}

/// A PLDM message, and the endpoint that sends it.
type Told = (u8, Vec<u8>);

/// The messages by one endpoint.
fn by(eid: u8, messages: Vec<Vec<u8>>) -> Vec<Told> {
    messages.into_iter().map(|it| (eid, it)).collect()
}

/// The packets of requests, whose instances and tags are counted on.
fn numbered(messages: Vec<Told>) -> Vec<Vec<u8>> {
    (messages.into_iter().enumerate())
        .flat_map(|(place, (eid, mut message))| {
            message[1] = 0x80 | place as u8 % 32;
            packets(eid, place as u8 % 8, &message)
        })
        .collect()
}

/// Sets of a text of 400 bytes in three parts and Gets of it in three, each Set with another text than the last.
fn long_texts() -> Vec<Vec<u8>> {
    let turn = |turn: u8| {
        let sets = set_in_parts(&asset_entry(0x41 + turn, 400));
        by(8, [sets, get_in_parts()].concat())
    };
    numbered((0..16).flat_map(turn).collect())
}

/// Gets of a text of 400 bytes in parts, behind a Set of it.
fn long_gets() -> Vec<Vec<u8>> {
    let sets = set_in_parts(&asset_entry(0x41, 400));
    let gets = get_in_parts().into_iter().cycle().take(93);
    numbered(by(8, sets.into_iter().chain(gets).collect()))
}

/// First parts of which none is taken: too short, of no attribute, of another type, of no string, of another length, of an entry that isn't
/// over one part, and of a text that is too long.
fn refused_firsts() -> Vec<Vec<u8>> {
    let entry = asset_entry(0x41, 400);
    let named = |attribute, kind| [&[attribute, 0, kind], &entry[3..PART]].concat();
    let first = |bytes: &[u8]| set_part(0, 0, START, bytes);
    let mut firsts = vec![
        first(&[]),
        first(&[1]),
        first(&[1, 0]),
        first(&[1, 0, 1]),
        first(&named(3, 1)),
        first(&named(1, 0)),
        first(&named(1, 0x81)),
        first(&named(0, 1)),
        first(&named(0, 0)),
        first(&named(2, 3)),
        first(&entry[..PART - 1]),
        first(&entry[..PART + 1]),
    ];
    for length in [0, 186, 187, 1025, 0xFFFF] {
        let entry = asset_entry(0x41, length);
        let filled = [&entry[..], &[0x41; PART]].concat();
        firsts.push(first(&filled[..PART]));
    }
    firsts
}

/// How many bytes come behind the first part of an entry of 405.
const WHOLE_REST: usize = 405 - PART;

/// Later parts of which none is taken where 192 bytes of 405 are staged, or 384, or none: at another place, and of another length.
fn refused_laters(staged: u32) -> Vec<Vec<u8>> {
    let letters = [0x42; WHOLE_REST];
    let mut laters = Vec::new();
    for handle in [0, 191, 193, 192, 384, 405] {
        for flag in [MIDDLE, END] {
            for length in [0, 1, 20, 22, PART - 1, PART + 1, WHOLE_REST] {
                laters.push(set_part(0, handle, flag, &letters[..length]));
            }
            if handle != staged {
                laters.push(set_part(0, handle, flag, &letters[..PART]));
                laters.push(set_part(0, handle, flag, &letters[..21]));
            }
        }
    }
    for flag in [0, 3, 6, 7, 8, 0x81, 0xFF] {
        laters.push(set_part(0, staged, flag, &letters[..PART]));
    }
    laters
}

/// Gets that no part answers: of another operation, at another place, of no attribute, of an entry that is shown whole, and of another length.
fn refused_gets() -> Vec<Vec<u8>> {
    let mut gets = vec![
        get_part(0, 0, 2, 1),
        get_part(0, 192, 0xFF, 1),
        get_part(0, 192, NEXT, 3),
        get_part(0, 0, NEXT, 0),
        get_part(0, 192, NEXT, 2),
    ];
    for handle in [0, 1, 191, 193, 405, 576, 0xFFFF_FFC0] {
        gets.push(get_part(0, handle, NEXT, 1));
    }
    for length in [4, 5, 8, 10, 12] {
        let mut get = get_part(0, 192, NEXT, 1);
        get.resize(length, 0);
        gets.push(get);
    }
    gets
}

/// A text whose entry has just two parts: the second isn't taken as one between, but as the last.
fn just_two_parts() -> Vec<Vec<u8>> {
    let mut told = set_in_parts(&asset_entry(0x44, 2 * PART - 5));
    let between = set_part(0, PART as u32, MIDDLE, &[0x44; PART]);
    told.insert(1, between);
    [told, get_in_parts()].concat()
}

/// Parts that are refused before each part of a text that is set, and behind it.
fn refused_parts() -> Vec<Vec<u8>> {
    let mut told = Vec::new();
    for (place, set) in set_in_parts(&asset_entry(0x43, 400))
        .into_iter()
        .enumerate()
    {
        let staged = (PART * place) as u32;
        told.extend(by(8, [refused_firsts(), refused_laters(staged)].concat()));
        told.extend(by(8, [get_in_parts(), vec![set]].concat()));
    }
    let laters = [refused_laters(0), refused_gets(), get_in_parts()].concat();
    told.extend(by(8, laters));
    told.extend(by(8, just_two_parts()));
    numbered(told)
}

/// Texts of eight requesters, of whom each sends a part in turn, those of odd numbers from the last to the first; and a whole entry of one who
/// has a part staged, and a first part anew.
fn parts_in_turn() -> Vec<Vec<u8>> {
    let parts = |eid: u8| set_in_parts(&asset_entry(0x41 + eid, 400 - usize::from(eid)));
    let mut told = Vec::new();
    for place in 0..3 {
        for turn in 0..8 {
            let eid = 8 + if place == 1 { 7 - turn } else { turn };
            told.push((eid, parts(eid).swap_remove(place)));
            told.push((8 + (eid + 1) % 8, set_part(0, 191, MIDDLE, &[0x41; PART])));
        }
        told.push((9, set_part(0, 0, 5, &asset_entry(0x61, 24))));
        told.extend(by(10, get_in_parts()));
    }
    let again = [&parts(8)[..1], &set_in_parts(&asset_entry(0x62, 300))].concat();
    told.extend(by(8, [again, get_in_parts()].concat()));
    numbered(told)
}

/// What is compared, and not measured.
pub fn refused_works() -> Vec<Work> {
    let (smbus, long) = (Bus::Smbus, Board::LongText);
    vec![
        work("parts that are refused", smbus, long, refused_parts()),
        work(
            "parts that are refused, sample board",
            smbus,
            Board::Sample,
            refused_parts(),
        ),
        work("parts of eight requesters", smbus, long, parts_in_turn()),
    ]
}

/// What is measured.
pub fn works() -> Vec<Work> {
    let all: Vec<u8> = (0..32).collect();
    let (ipmb, smbus, sample) = (Bus::Ipmb, Bus::Smbus, Board::Sample);
    vec![
        work("Set and Get of thresholds", ipmb, sample, thresholds(&[5])),
        work("eight requesters in turn", ipmb, sample, eight_requesters()),
        work("repeats", ipmb, sample, repeats()),
        work("Get Device ID", ipmb, sample, device_id()),
        work("bad check byte", ipmb, sample, bad_check()),
        work("32 sensors", ipmb, Board::Of32, thresholds(&all)),
        work("GetTID", smbus, sample, get_tid()),
        work("messages of two packets", smbus, sample, two_packets()),
        work("Set and Get of an attribute", smbus, sample, attributes()),
        work(
            "largest board, 32 sensors",
            ipmb,
            Board::Largest,
            thresholds(&all),
        ),
        work(
            "largest board, an attribute",
            smbus,
            Board::Largest,
            attributes(),
        ),
        work(
            "Set and Get of a long text",
            smbus,
            Board::LongText,
            long_texts(),
        ),
        work("Gets of a long text", smbus, Board::LongText, long_gets()),
    ]
}

/// Numbers that look random, the same at each run (xorshift).
struct Random(u64);

impl Random {
    fn next(&mut self) -> u64 {
        self.0 ^= self.0 << 13;
        self.0 ^= self.0 >> 7;
        self.0 ^= self.0 << 17;
        self.0 >> 16
    }

    fn byte(&mut self) -> u8 {
        self.next() as u8
    }

    fn below(&mut self, end: u64) -> usize {
        (self.next() % end) as usize
    }

    fn one_of<T: Copy>(&mut self, choices: &[T]) -> T {
        choices[self.below(choices.len() as u64)]
    }

    fn bytes(&mut self, length: usize) -> Vec<u8> {
        (0..length).map(|_| self.byte()).collect()
    }

    /// A request for a command of the table, mostly with data of its length, and for a sensor that is often there.
    fn command(&mut self) -> Vec<u8> {
        let (net_fn, number, length) = self.one_of(&[
            (SENSOR_EVENT, 0x24, 4),
            (SENSOR_EVENT, 0x25, 2),
            (SENSOR_EVENT, 0x26, 8),
            (SENSOR_EVENT, 0x27, 1),
            (APP, 0x01, 0),
            (CHASSIS, 0x01, 0),
            (CHASSIS, 0x06, 1),
            (APP, 0x22, 0),
            (APP, 0x24, 6),
            (APP, 0x25, 0),
        ]);
        let length = if self.below(8) == 0 {
            self.below(26)
        } else {
            length
        };
        let mut data = self.bytes(length);
        if let Some(sensor) = data.first_mut() {
            *sensor = self.one_of(&[5, 7, 5, 7, 5, 7, 6, 255, 2, 0x44]);
        }
        if let Some(mask) = data.get_mut(1) {
            *mask = self.one_of(&[0x3F, 0x38, 0x01, 0x20, 0x00, *mask]);
        }
        if length == 8 && self.below(2) == 0 {
            // In order from the lowest to the highest: the lower three stand the other way round.
            data[2..].sort();
            data[2..5].reverse();
        }
        request(net_fn, self.byte() % 64, number, &data)
    }

    /// A request for a command of the table with one of its bytes changed, its sums put right or not.
    fn changed(&mut self) -> Vec<u8> {
        let mut frame = self.command();
        let place = self.below(frame.len() as u64);
        frame[place] = self.byte();
        if self.below(4) != 0 {
            let last = frame.len() - 1;
            frame[2] = check_byte(&frame[..2]);
            frame[last] = check_byte(&frame[3..last]);
        }
        frame
    }

    /// A frame on IPMB: a request for a command of the table, such a request with a byte changed, or any bytes.
    fn ipmb(&mut self) -> Vec<Vec<u8>> {
        vec![match self.below(8) {
            0..=3 => self.command(),
            4..=6 => self.changed(),
            _ => {
                let length = self.below(41);
                self.bytes(length)
            }
        }]
    }

    /// A Set or a Get of an attribute's value, mostly of a right form.
    fn of_attributes(&mut self, numbers: u8) -> Vec<u8> {
        let handle = self.one_of(&[0, 1, 1, 2, 3]);
        if self.below(2) == 0 {
            let operation = self.one_of(&[1, 1, 1, 0]);
            return vec![1, numbers, 3, 8, 0, 0, 0, 0, operation, handle, 0];
        }
        let flag = self.one_of(&[5, 5, 5, 1]);
        let mut message = vec![1, numbers, 3, 7, 0, 0, 0, 0, flag, handle, 0];
        let length = self.below(20);
        let value = match self.below(4) {
            0 => vec![0, 1, self.one_of(&[0, 1, 2])],
            1 => [vec![1, length as u8, 0], self.bytes(length)].concat(),
            2 => vec![
                3,
                self.one_of(&[0, 10, 35, 200]),
                self.one_of(&[0, 0, 1]),
                0,
                0,
                0,
                0,
                0,
                0,
            ],
            _ => [vec![self.one_of(&[0, 1, 3])], self.bytes(length)].concat(),
        };
        message.extend(value);
        message
    }

    /// A part of a text, which is set or got, mostly of a right form and often at its place.
    fn of_parts(&mut self, numbers: u8) -> Vec<u8> {
        if self.below(4) == 0 {
            let operation = self.one_of(&[FIRST, NEXT, NEXT, 2]);
            let handle = self.one_of(&[0, 192, 192, 384, 384, 191, 576]);
            return get_part(numbers, handle, operation, self.one_of(&[1, 1, 1, 0, 3]));
        }
        let length = self.one_of(&[195, 200, 400, 400]);
        let entry = asset_entry(0x41 + self.byte() % 26, length);
        let place = self.below(3).min(entry.len() / PART);
        let mut bytes = entry[PART * place..entry.len().min(PART * (place + 1))].to_vec();
        let mut handle = (PART * place) as u32;
        let right = if PART * (place + 1) >= entry.len() {
            END
        } else {
            [START, MIDDLE][place.min(1)]
        };
        let mut flag = right;
        match self.below(12) {
            0 => handle = self.one_of(&[0, 1, 191, 192, 384]),
            1 => flag = self.byte() % 8,
            2 => bytes.push(0x41),
            3 => drop(bytes.pop()),
            4 => bytes[0] = self.one_of(&[0, 2, 3]),
            _ => {}
        }
        set_part(numbers, handle, flag, &bytes)
    }

    /// The packets of a message to the endpoint, or of one with a byte changed.
    fn smbus(&mut self) -> Vec<Vec<u8>> {
        let eid = self.one_of(&[8, 8, 8, 9, 0x0B, 0x0C, 0x0D, 0x0E, 0x0F, 0x10, 0x11, 0x12]);
        let length = self.one_of(&[0, 0, 0, 0, 0, 0, 0, 1, 60, 61, 130, 252]);
        let numbers = self.one_of(&[0x80, 0x80, 0x80, 0xA0, 0x00]) | self.byte() % 32;
        if self.below(4) == 0 {
            let message = match self.below(2) {
                0 => self.of_attributes(numbers),
                _ => self.of_parts(numbers),
            };
            return packets(eid, self.byte() % 8, &message);
        }
        let mut message = match self.below(4) {
            0 => vec![0, numbers, self.one_of(&[1, 2, 2, 2, 5, 7])],
            1 => {
                let kind = self.one_of(&[0x00, 0x00, 0x02, 0x03, 0x05, 0x41]);
                vec![1, numbers, kind, self.byte()]
            }
            2 => vec![1, numbers, 0, 4],
            _ => vec![1, numbers, 0, 2],
        };
        message.extend(self.bytes(length));
        let mut frames = packets(eid, self.byte() % 8, &message);
        if self.below(8) == 0 {
            let which = self.below(frames.len() as u64);
            let frame = &mut frames[which];
            let place = self.below(frame.len() as u64);
            frame[place] = self.byte();
            let last = frame.len() - 1;
            frame[last] = pec(&frame[..last]);
        }
        frames
    }
}

/// Whether the frame has a command that the plain controller lacks: of boot options, global enables, users, channels, LAN parameters, effecters,
/// and tables of attributes.
fn is_lacking(kind: Kind, frame: &[u8]) -> bool {
    match kind.bus {
        Bus::Ipmb => {
            frame.len() > 5
                && matches!(
                    (frame[1] >> 2, frame[5]),
                    (0x00, 8 | 9) | (0x06, 0x2E | 0x2F | 0x40 | 0x41 | 0x43..=0x47) | (0x0C, 1 | 2)
                )
        }
        Bus::Smbus => {
            frame.len() > 11
                && matches!(
                    (frame[10] & 0x3F, frame[11]),
                    (2, 0x31 | 0x32 | 0x39 | 0x3A) | (3, 1)
                )
        }
    }
}

/// Frames that look random, of which some come again.
pub fn random(kind: Kind, count: usize) -> Vec<Slot> {
    let mut random = Random(0x9E37_79B9_7F4A_7C15);
    let mut frames: Vec<Slot> = Vec::new();
    while frames.len() < count {
        if frames.len() > 16 && random.below(4) == 0 {
            frames.push(frames[frames.len() - 1 - random.below(16)]);
        } else {
            let next = match kind.bus {
                Bus::Ipmb => random.ipmb(),
                Bus::Smbus => random.smbus(),
            };
            let known = next.iter().filter(|frame| !is_lacking(kind, frame));
            frames.extend(known.map(|frame| Slot::new(frame)));
        }
    }
    frames
}
