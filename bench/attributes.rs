//! PLDM and the values of BIOS attributes once more in plain Rust, with no proof: whole, and in parts where they are long.

use crate::smbus::MessageReply;

const ERROR: u8 = 0x01;
const INVALID_DATA: u8 = 0x02;
const INVALID_LENGTH: u8 = 0x03;
const UNSUPPORTED_COMMAND: u8 = 0x05;
const INVALID_TYPE: u8 = 0x20;
const INVALID_ATTRIBUTE: u8 = 0x88;

/// The terminus of the sample board.
const TID: u8 = 5;

/// What GetPLDMTypes replies.
const TYPES: [u8; 8] = [0x0D, 0, 0, 0, 0, 0, 0, 0];

/// How many bytes the text of the sample board has at most, and of any board.
pub const SAMPLE_TEXT: usize = 200;
pub const LONGEST_TEXT: usize = 1024;

/// What a string's entry has before its text: the attribute, its type, and the length.
const BEFORE_TEXT: usize = 5;

/// How many bytes each part of an entry has but the last.
const PART: usize = 192;

/// How many bytes an entry has at most that is shown whole.
const MOST_WHOLE: usize = 205;

/// At most so many requesters have a part staged.
const MOST_STAGINGS: usize = 8;

/// The transfer flags.
const START: u8 = 1;
const MIDDLE: u8 = 2;
const END: u8 = 4;
const WHOLE: u8 = 5;

/// The attributes' handles, and their types.
const QUIET: u16 = 0;
const ASSET: u16 = 1;
const DELAY: u16 = 2;
const ENUMERATION: u8 = 0;
const STRING: u8 = 1;
const INTEGER: u8 = 3;

/// What a requester sent so far of an entry that comes in parts. Nobody's has no bytes.
struct Staging {
    from: u8,
    length: usize,
    entry: [u8; BEFORE_TEXT + LONGEST_TEXT],
}

impl Staging {
    const NOBODYS: Staging = Staging {
        from: 0,
        length: 0,
        entry: [0; BEFORE_TEXT + LONGEST_TEXT],
    };

    /// How many bytes the entry has once it is whole.
    fn whole(&self) -> usize {
        BEFORE_TEXT + u16::from_le_bytes([self.entry[3], self.entry[4]]) as usize
    }

    /// Whether the part may follow, being the last or not, or the code that refuses it.
    fn check(&self, handle: u32, part: &[u8], is_last: bool) -> Result<(), u8> {
        if handle as usize != self.length {
            return Err(INVALID_DATA);
        }
        let (length, whole) = (self.length + part.len(), self.whole());
        let is_right = match is_last {
            true => length == whole && part.len() <= PART,
            false => part.len() == PART && length < whole,
        };
        if is_right {
            Ok(())
        } else {
            Err(INVALID_LENGTH)
        }
    }

    fn push(&mut self, part: &[u8]) {
        self.entry[self.length..self.length + part.len()].copy_from_slice(part);
        self.length += part.len();
    }
}

/// What requesters have staged.
struct Stagings {
    all: Vec<Staging>,
}

impl Stagings {
    fn new() -> Self {
        Stagings {
            all: (0..MOST_STAGINGS).map(|_| Staging::NOBODYS).collect(),
        }
    }

    /// The requester's staging.
    fn of(&mut self, from: u8) -> Option<&mut Staging> {
        (self.all.iter_mut()).find(|it| it.length > 0 && it.from == from)
    }

    /// The requester's staging, or a place for one.
    fn place(&mut self, from: u8) -> Option<&mut Staging> {
        let own = (self.all.iter()).position(|it| it.length > 0 && it.from == from);
        let place = own.or_else(|| self.all.iter().position(|it| it.length == 0))?;
        Some(&mut self.all[place])
    }
}

/// The values of the sample board's attributes: an enumeration of two values, a text, and a number.
pub struct Attributes {
    quiet: Vec<u8>,
    asset: [u8; LONGEST_TEXT],
    length: usize,
    /// How many bytes the text can have.
    most: usize,
    delay: u64,
    stagings: Stagings,
}

impl Attributes {
    /// Those of the sample board, whose text can have so many bytes.
    pub fn new(most: usize) -> Self {
        let mut asset = [0; LONGEST_TEXT];
        asset[..6].copy_from_slice(b"rack-1");
        Attributes {
            quiet: Vec::from([0]),
            asset,
            length: 6,
            most,
            delay: 30,
            stagings: Stagings::new(),
        }
    }

    fn set_text(&mut self, text: &[u8]) -> Result<(), u8> {
        if text.len() > self.most {
            return Err(INVALID_DATA);
        }
        self.asset[..text.len()].copy_from_slice(text);
        self.length = text.len();
        Ok(())
    }

    /// Sets the value of a whole entry.
    fn set(&mut self, data: &[u8]) -> Result<(), u8> {
        let [_, _, _, _, _, low, high, kind, value @ ..] = data else {
            return Err(INVALID_LENGTH);
        };
        let handle = u16::from_le_bytes([*low, *high]);
        if handle > DELAY {
            return Err(INVALID_ATTRIBUTE);
        }
        match (handle, *kind) {
            (QUIET, ENUMERATION) => match value {
                [count, indexes @ ..] if indexes.len() == *count as usize => {
                    if !matches!(indexes, [0 | 1] | [0 | 1, 0 | 1]) {
                        return Err(INVALID_DATA);
                    }
                    self.quiet.clear();
                    self.quiet.extend(indexes);
                }
                _ => return Err(INVALID_LENGTH),
            },
            (ASSET, STRING) => match value {
                [low, high, text @ ..]
                    if text.len() == u16::from_le_bytes([*low, *high]) as usize =>
                {
                    return self.set_text(text);
                }
                _ => return Err(INVALID_LENGTH),
            },
            (DELAY, INTEGER) => {
                let Ok(number) = value.try_into() else {
                    return Err(INVALID_LENGTH);
                };
                let number = u64::from_le_bytes(number);
                if number > 300 || number % 10 != 0 {
                    return Err(INVALID_DATA);
                }
                self.delay = number;
            }
            _ => return Err(INVALID_DATA),
        }
        Ok(())
    }

    /// Stages the first part of an entry, and gives the handle of the next.
    fn start(&mut self, from: u8, entry: &[u8]) -> Result<u32, u8> {
        let [low, high, kind, rest @ ..] = entry else {
            return Err(INVALID_LENGTH);
        };
        let own_kind = match u16::from_le_bytes([*low, *high]) {
            QUIET => ENUMERATION,
            ASSET => STRING,
            DELAY => INTEGER,
            _ => return Err(INVALID_ATTRIBUTE),
        };
        if *kind != own_kind {
            return Err(INVALID_DATA);
        }
        let text = match rest {
            [low, high, ..] => u16::from_le_bytes([*low, *high]) as usize,
            _ => 0,
        };
        if *kind != STRING || entry.len() != PART || BEFORE_TEXT + text <= PART {
            return Err(INVALID_LENGTH);
        }
        if text > self.most {
            return Err(INVALID_DATA);
        }
        let Some(staging) = self.stagings.place(from) else {
            return Err(ERROR);
        };
        staging.from = from;
        staging.length = 0;
        staging.push(entry);
        Ok(staging.length as u32)
    }

    /// Stages a part between the first and the last, and gives the handle of the next.
    fn add(&mut self, from: u8, handle: u32, part: &[u8]) -> Result<u32, u8> {
        let staging = self.stagings.of(from).ok_or(INVALID_DATA)?;
        staging.check(handle, part, false)?;
        staging.push(part);
        Ok(staging.length as u32)
    }

    /// Sets the text, whose last part this is.
    fn end(&mut self, from: u8, handle: u32, part: &[u8]) -> Result<u32, u8> {
        let staging = self.stagings.of(from).ok_or(INVALID_DATA)?;
        staging.check(handle, part, true)?;
        staging.push(part);
        let text = &staging.entry[BEFORE_TEXT..staging.length];
        self.asset[..text.len()].copy_from_slice(text);
        self.length = text.len();
        staging.length = 0;
        Ok(0)
    }

    /// Carries out a Set, whole or a part, and gives the next part's handle.
    fn set_by(&mut self, from: u8, data: &[u8]) -> Result<u32, u8> {
        let [a, b, c, d, flag, entry @ ..] = data else {
            return Err(INVALID_LENGTH);
        };
        if entry.is_empty() {
            return Err(INVALID_LENGTH);
        }
        let handle = u32::from_le_bytes([*a, *b, *c, *d]);
        match *flag {
            WHOLE => self.set(data).map(|()| 0),
            START => self.start(from, entry),
            MIDDLE => self.add(from, handle, entry),
            END => self.end(from, handle, entry),
            _ => Err(INVALID_DATA),
        }
    }

    /// Appends a long text's part at this offset in its entry.
    fn show_part(&self, offset: usize, reply: &mut MessageReply) {
        let whole = BEFORE_TEXT + self.length;
        let end = whole.min(offset + PART);
        let is_last = end == whole;
        let next = if is_last { 0 } else { end as u32 };
        reply.extend(&next.to_le_bytes());
        match offset {
            0 => {
                let [low, high] = (self.length as u16).to_le_bytes();
                reply.extend(&[START, ASSET as u8, 0, STRING, low, high]);
                reply.extend(&self.asset[..end - BEFORE_TEXT]);
            }
            _ => {
                reply.push(if is_last { END } else { MIDDLE });
                reply.extend(&self.asset[offset - BEFORE_TEXT..end - BEFORE_TEXT]);
            }
        }
    }

    /// Appends the entry that is asked for, or a part of it, behind the next part's handle and the flag, or says why not.
    fn get(&self, data: &[u8], reply: &mut MessageReply) -> Result<(), u8> {
        let &[a, b, c, d, operation, low, high] = data else {
            return Err(INVALID_LENGTH);
        };
        if operation > 1 {
            return Err(INVALID_DATA);
        }
        let handle = u16::from_le_bytes([low, high]);
        if handle > DELAY {
            return Err(INVALID_ATTRIBUTE);
        }
        let offset = match operation {
            1 => 0,
            _ => u32::from_le_bytes([a, b, c, d]) as usize,
        };
        let is_long = handle == ASSET && BEFORE_TEXT + self.length > MOST_WHOLE;
        if operation == 0 {
            let begins_part = offset > 0 && offset % PART == 0;
            if !is_long || !begins_part || offset >= BEFORE_TEXT + self.length {
                return Err(INVALID_DATA);
            }
        }
        if is_long {
            self.show_part(offset, reply);
            return Ok(());
        }
        reply.extend(&[0, 0, 0, 0, WHOLE, low, high]);
        match handle {
            QUIET => {
                reply.extend(&[ENUMERATION, self.quiet.len() as u8]);
                reply.extend(&self.quiet);
            }
            ASSET => {
                reply.push(STRING);
                reply.extend(&(self.length as u16).to_le_bytes());
                reply.extend(&self.asset[..self.length]);
            }
            _ => {
                reply.push(INTEGER);
                reply.extend(&self.delay.to_le_bytes());
            }
        }
        Ok(())
    }

    /// What a PLDM request of this endpoint is replied, behind its completion code.
    pub fn serve(&mut self, from: u8, message: &[u8], reply: &mut MessageReply) -> u8 {
        let (kind, command, data) = (message[2], message[3], &message[4..]);
        match (kind, command) {
            (0, 2 | 4) if !data.is_empty() => return INVALID_LENGTH,
            (0, 2) => reply.push(TID),
            (0, 4) => reply.extend(&TYPES),
            (3, 7) => match self.set_by(from, data) {
                Ok(next) => reply.extend(&next.to_le_bytes()),
                Err(code) => return code,
            },
            (3, 8) => return self.get(data, reply).err().unwrap_or(0),
            (0 | 2 | 3, _) => return UNSUPPORTED_COMMAND,
            _ => return INVALID_TYPE,
        }
        0
    }
}
