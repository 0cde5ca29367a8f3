//! The board and the port on IPMB once more in plain Rust, with no proof: the same commands on the same boards, the same checks in the
//! same order.

use crate::slots::Out;
use crate::windows::{Found, Windows};

const OK: u8 = 0x00;
const UNINITIALIZED_WATCHDOG: u8 = 0x80;
const NODE_BUSY: u8 = 0xC0;
const INVALID_COMMAND: u8 = 0xC1;
const INVALID_FOR_LUN: u8 = 0xC2;
const INVALID_LENGTH: u8 = 0xC7;
const NOT_PRESENT: u8 = 0xCB;
const INVALID_DATA_FIELD: u8 = 0xCC;

/// The controller's two-wire address.
pub const WIRE: u8 = 0x20;

/// The place of a sensor that isn't there.
const NOWHERE: u8 = 255;

/// The places of the thresholds, from the lowest to the highest.
const LOWEST_FIRST: [usize; 6] = [2, 1, 0, 3, 4, 5];

/// What Get Device ID replies: IPMI 2.0, manufacturer ABCDh and product 1234h.
const DEVICE: [u8; 11] = [
    0x20, 0x01, 0x01, 0x05, 0x02, 0x07, 0xCD, 0xAB, 0x00, 0x34, 0x12,
];

/// What Get Self Test Results replies: no error was found.
const NO_ERROR: [u8; 2] = [0x55, 0x00];

/// Which events are supported and enabled.
struct Events {
    supported: u16,
    /// Bits 7 and 6: event messages, scanning.
    flags: u8,
    assertions: u16,
    deassertions: u16,
}

impl Events {
    /// Data behind the sensor's number: flags, and up to two masks.
    fn set(&mut self, data: &[u8]) -> u8 {
        let byte = |place: usize| u16::from(data.get(place).copied().unwrap_or(0));
        let assertions = byte(1) | byte(2) << 8;
        let deassertions = byte(3) | byte(4) << 8;
        let selection = data[0] >> 4 & 3;
        if selection == 3 {
            return INVALID_DATA_FIELD;
        }
        if selection != 0 && (assertions | deassertions) & !self.supported != 0 {
            return INVALID_DATA_FIELD;
        }
        if selection == 1 {
            self.assertions |= assertions;
            self.deassertions |= deassertions;
        } else if selection == 2 {
            self.assertions &= !assertions;
            self.deassertions &= !deassertions;
        }
        self.flags = data[0] & 0xC0;
        OK
    }

    fn put(&self, reply: &mut Reply) {
        reply.push(self.flags);
        reply.extend(&self.assertions.to_le_bytes());
        reply.extend(&self.deassertions.to_le_bytes());
    }
}

struct Sensor {
    number: u8,
    readable: u8,
    settable: u8,
    thresholds: [u8; 6],
    hysteresis: [u8; 2],
    events: Events,
}

impl Sensor {
    /// The six thresholds, where all that the sensor has are in order.
    fn in_order(&self, thresholds: &[u8; 6]) -> bool {
        let there = self.readable | self.settable;
        let mut highest = 0;
        for place in LOWEST_FIRST {
            if there >> place & 1 == 1 {
                if thresholds[place] < highest {
                    return false;
                }
                highest = thresholds[place];
            }
        }
        true
    }

    fn set_thresholds(&mut self, mask: u8, values: &[u8]) -> u8 {
        let mut new = self.thresholds;
        for (place, threshold) in new.iter_mut().enumerate() {
            if mask >> place & 1 == 1 {
                *threshold = values[place];
            }
        }
        if mask & !self.settable != 0 || !self.in_order(&new) {
            return INVALID_DATA_FIELD;
        }
        self.thresholds = new;
        OK
    }

    fn put_thresholds(&self, reply: &mut Reply) {
        reply.push(self.readable);
        for (place, threshold) in self.thresholds.iter().enumerate() {
            reply.push(if self.readable >> place & 1 == 1 {
                *threshold
            } else {
                0
            });
        }
    }
}

/// The settings of the watchdog timer, and the timer.
struct Watchdog {
    timer_use: u8,
    actions: u8,
    pre_timeout: u8,
    expired: u8,
    initial: [u8; 2],
    countdown: [u8; 2],
    is_running: bool,
}

impl Watchdog {
    fn set(&mut self, data: &[u8]) -> u8 {
        if !(1..=5).contains(&(data[0] & 7)) || data[1] >> 4 & 7 > 3 || data[1] & 7 > 3 {
            return INVALID_DATA_FIELD;
        }
        self.timer_use = data[0] & 0x87;
        self.actions = data[1] & 0x77;
        self.pre_timeout = data[2];
        self.expired &= !data[3];
        self.initial = [data[4], data[5]];
        self.countdown = self.initial;
        self.is_running = self.is_running && data[0] & 0x40 != 0;
        OK
    }

    fn reset(&mut self) -> u8 {
        if self.timer_use & 7 == 0 {
            return UNINITIALIZED_WATCHDOG;
        }
        self.countdown = self.initial;
        self.is_running = true;
        OK
    }

    fn put(&self, reply: &mut Reply) {
        let running = if self.is_running { 0x40 } else { 0 };
        reply.extend(&[
            self.timer_use | running,
            self.actions,
            self.pre_timeout,
            self.expired,
        ]);
        reply.extend(&self.initial);
        reply.extend(&self.countdown);
    }
}

/// A reply as it grows: its data follow its code. A frame has room for what the commands of IPMI reply.
pub struct Reply<'a, const ROOM: usize = 80> {
    pub bytes: &'a mut [u8; ROOM],
    pub length: usize,
}

impl<const ROOM: usize> Reply<'_, ROOM> {
    pub fn push(&mut self, byte: u8) {
        self.bytes[self.length] = byte;
        self.length += 1;
    }

    pub fn extend(&mut self, bytes: &[u8]) {
        self.bytes[self.length..self.length + bytes.len()].copy_from_slice(bytes);
        self.length += bytes.len();
    }
}

impl Reply<'_> {
    /// Puts the code in its place.
    fn code(&mut self, code: u8) {
        self.bytes[6] = code;
    }
}

#[derive(Clone, Copy)]
enum Command {
    GetDeviceId,
    GetSelfTest,
    GetChassisStatus,
    SetPowerRestorePolicy,
    ResetWatchdog,
    SetWatchdog,
    GetWatchdog,
    SetHysteresis,
    GetHysteresis,
    SetThresholds,
    GetThresholds,
    SetEvents,
    GetEvents,
}

/// The command, and the least and the most bytes of data that it takes.
fn find_command(net_fn: u8, number: u8) -> Option<(Command, usize, usize)> {
    Some(match (net_fn, number) {
        (0x00, 0x01) => (Command::GetChassisStatus, 0, 0),
        (0x00, 0x06) => (Command::SetPowerRestorePolicy, 1, 1),
        (0x04, 0x24) => (Command::SetHysteresis, 4, 4),
        (0x04, 0x25) => (Command::GetHysteresis, 2, 2),
        (0x04, 0x26) => (Command::SetThresholds, 8, 8),
        (0x04, 0x27) => (Command::GetThresholds, 1, 1),
        (0x04, 0x28) => (Command::SetEvents, 2, 6),
        (0x04, 0x29) => (Command::GetEvents, 1, 1),
        (0x06, 0x01) => (Command::GetDeviceId, 0, 0),
        (0x06, 0x04) => (Command::GetSelfTest, 0, 0),
        (0x06, 0x22) => (Command::ResetWatchdog, 0, 0),
        (0x06, 0x24) => (Command::SetWatchdog, 6, 6),
        (0x06, 0x25) => (Command::GetWatchdog, 0, 0),
        _ => return None,
    })
}

fn sum(bytes: &[u8]) -> u8 {
    bytes
        .iter()
        .fold(0, |sum: u8, byte| sum.wrapping_add(*byte))
}

/// Whether the bytes are a frame.
fn is_frame(bytes: &[u8]) -> bool {
    if bytes.len() < 7 || bytes.len() > 32 {
        return false;
    }
    let is_response = bytes[1] >> 2 & 1 == 1;
    !(is_response && bytes.len() == 7)
        && sum(&bytes[..3]) == 0
        && sum(&bytes[3..]) == 0
        && bytes[0] & 1 == 0
        && bytes[3] & 1 == 0
}

/// A board, without any bus.
pub struct Board {
    sensors: Vec<Sensor>,
    /// For each number, where its sensor stands.
    places: [u8; 256],
    policy: u8,
    watchdog: Watchdog,
}

impl Board {
    fn of(sensors: Vec<Sensor>) -> Board {
        let mut places = [NOWHERE; 256];
        for (place, sensor) in sensors.iter().enumerate() {
            places[sensor.number as usize] = place as u8;
        }
        let watchdog = Watchdog {
            timer_use: 0,
            actions: 0,
            pre_timeout: 0,
            expired: 0,
            initial: [0, 0],
            countdown: [0, 0],
            is_running: false,
        };
        Board {
            sensors,
            places,
            policy: 1,
            watchdog,
        }
    }

    /// The sample board.
    pub fn sample() -> Board {
        let temperature = Sensor {
            number: 5,
            readable: 0x3F,
            settable: 0x3F,
            thresholds: [0x14, 0x0A, 0x05, 0x50, 0x5F, 0x6E],
            hysteresis: [2, 2],
            events: Events {
                supported: 0xFFF,
                flags: 0xC0,
                assertions: 0x200,
                deassertions: 0,
            },
        };
        let fan = Sensor {
            number: 7,
            readable: 0x18,
            settable: 0x38,
            thresholds: [0, 0, 0, 0x90, 0xA0, 0xB0],
            hysteresis: [0, 0],
            events: Events {
                supported: 0xFC0,
                flags: 0,
                assertions: 0,
                deassertions: 0,
            },
        };
        Board::of(vec![temperature, fan])
    }

    /// The sample board, but with the sensors 0 to 31.
    pub fn of_32() -> Board {
        let sensor = |number| Sensor {
            number,
            readable: 0x3F,
            settable: 0x3F,
            thresholds: [0x14, 0x0A, 0x05, 0x50, 0x5F, 0x6E],
            hysteresis: [2, 2],
            events: Events {
                supported: 0,
                flags: 0,
                assertions: 0,
                deassertions: 0,
            },
        };
        Board::of((0..32).map(sensor).collect())
    }

    fn sensor(&mut self, number: u8) -> Option<&mut Sensor> {
        self.sensors.get_mut(self.places[number as usize] as usize)
    }

    /// Bits 2:0 are the policy, and 3 leaves it as it is. The reply says that 0, 1 and 2 are there.
    fn set_policy(&mut self, asked: u8, reply: &mut Reply) -> u8 {
        match asked & 7 {
            policy @ 0..=2 => self.policy = policy,
            3 => {}
            _ => return INVALID_DATA_FIELD,
        }
        reply.push(0x07);
        OK
    }

    /// Carries a request out, puts its data into the reply and gives its code.
    pub fn serve(&mut self, frame: &[u8], reply: &mut Reply) -> u8 {
        let data = &frame[6..frame.len() - 1];
        if frame[1] & 3 != 0 {
            return INVALID_FOR_LUN;
        }
        let Some((command, least, most)) = find_command(frame[1] >> 2, frame[5]) else {
            return INVALID_COMMAND;
        };
        if data.len() < least || data.len() > most {
            return INVALID_LENGTH;
        }
        match command {
            Command::GetDeviceId => reply.extend(&DEVICE),
            Command::GetSelfTest => reply.extend(&NO_ERROR),
            Command::GetChassisStatus => reply.extend(&[self.policy << 5, 0, 0]),
            Command::SetPowerRestorePolicy => return self.set_policy(data[0], reply),
            Command::ResetWatchdog => return self.watchdog.reset(),
            Command::SetWatchdog => return self.watchdog.set(data),
            Command::GetWatchdog => self.watchdog.put(reply),
            _ => return self.serve_sensor(command, data, reply),
        }
        OK
    }

    fn serve_sensor(&mut self, command: Command, data: &[u8], reply: &mut Reply) -> u8 {
        let Some(sensor) = self.sensor(data[0]) else {
            return NOT_PRESENT;
        };
        match command {
            Command::SetHysteresis => sensor.hysteresis.copy_from_slice(&data[2..4]),
            Command::GetHysteresis => reply.extend(&sensor.hysteresis),
            Command::SetThresholds => return sensor.set_thresholds(data[1], &data[2..]),
            Command::SetEvents => return sensor.events.set(&data[1..]),
            Command::GetEvents => sensor.events.put(reply),
            _ => sensor.put_thresholds(reply),
        }
        OK
    }
}

/// A port on IPMB, which keeps the frames of requests and of their replies.
pub struct Port<W> {
    windows: W,
}

impl<W: Windows> Port<W> {
    pub fn new() -> Self {
        Port { windows: W::new() }
    }

    /// Takes a frame that was heard, and sends the reply's frame.
    pub fn on_frame(&mut self, board: &mut Board, frame: &[u8], out: &mut Out) {
        self.on_frame_by(frame, out, |frame, reply| board.serve(frame, reply))
    }

    /// The same, where `serve` carries a request out, puts its data into the reply and gives its code.
    #[inline(always)]
    pub fn on_frame_by(
        &mut self,
        frame: &[u8],
        out: &mut Out,
        serve: impl FnOnce(&[u8], &mut Reply) -> u8,
    ) {
        out.clear();
        if is_frame(frame) && frame[0] == WIRE && frame[1] >> 2 & 1 == 0 {
            out.send(|bytes| self.reply(frame, bytes, serve));
        }
    }

    /// Writes the frame of the reply to a request, and gives its length.
    #[inline(always)]
    fn reply(
        &mut self,
        frame: &[u8],
        bytes: &mut [u8; 80],
        serve: impl FnOnce(&[u8], &mut Reply) -> u8,
    ) -> usize {
        let (requester, number) = (frame[3], frame[4] >> 2);
        let found = self.windows.find(requester, number, frame);
        if let Found::Repeats(reply) = found {
            bytes[..reply.len()].copy_from_slice(reply);
            return reply.len();
        }
        let is_busy = matches!(found, Found::Busy);
        let mut reply = Reply { bytes, length: 0 };
        let function = (frame[1] & !3) + 4 | frame[4] & 3;
        reply.extend(&[
            frame[3],
            function,
            0u8.wrapping_sub(frame[3]).wrapping_sub(function),
        ]);
        reply.extend(&[frame[0], frame[4] & !3 | frame[1] & 3, frame[5], OK]);
        let code = if is_busy {
            NODE_BUSY
        } else {
            serve(frame, &mut reply)
        };
        reply.code(code);
        let check = 0u8.wrapping_sub(sum(&reply.bytes[3..reply.length]));
        reply.push(check);
        let length = reply.length;
        if !is_busy {
            self.windows
                .keep(requester, number, frame, &bytes[..length]);
        }
        length
    }
}
