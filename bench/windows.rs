//! The windows of a plain port, in two forms: the faster of the two is what the proved port is measured by.

/// What is to be done with a request.
pub enum Found<'a> {
    Repeats(&'a [u8]),
    Busy,
    New,
}

/// The requests that a port carried out, with their replies, for at most eight requesters.
pub trait Windows {
    fn new() -> Self;

    fn find(&self, requester: u8, number: u8, request: &[u8]) -> Found<'_>;

    /// Keeps a new request that was carried out, and forgets those at the next half of the circle.
    fn keep(&mut self, requester: u8, number: u8, request: &[u8], reply: &[u8]);
}

/// A request and its reply.
#[derive(Clone)]
struct Row<const CAP: usize> {
    request: [u8; CAP],
    request_length: u16,
    reply: [u8; CAP],
    reply_length: u16,
}

impl<const CAP: usize> Row<CAP> {
    const EMPTY: Self = Row {
        request: [0; CAP],
        request_length: 0,
        reply: [0; CAP],
        reply_length: 0,
    };

    fn is(&self, request: &[u8]) -> bool {
        &self.request[..self.request_length as usize] == request
    }

    fn reply(&self) -> &[u8] {
        &self.reply[..self.reply_length as usize]
    }

    fn set(&mut self, request: &[u8], reply: &[u8]) {
        self.request[..request.len()].copy_from_slice(request);
        self.request_length = request.len() as u16;
        self.reply[..reply.len()].copy_from_slice(reply);
        self.reply_length = reply.len() as u16;
    }
}

/// Windows as options: each has an owner, who is looked for, and a row or none under each number.
pub struct Options<const NUMBERS: usize, const CAP: usize> {
    windows: Vec<(Option<u8>, Vec<Option<Row<CAP>>>)>,
}

impl<const NUMBERS: usize, const CAP: usize> Windows for Options<NUMBERS, CAP> {
    fn new() -> Self {
        Options {
            windows: (0..8).map(|_| (None, vec![None; NUMBERS])).collect(),
        }
    }

    fn find(&self, requester: u8, number: u8, request: &[u8]) -> Found<'_> {
        let mut is_full = true;
        for (owner, rows) in &self.windows {
            if *owner == Some(requester) {
                return match &rows[number as usize] {
                    Some(row) if row.is(request) => Found::Repeats(row.reply()),
                    _ => Found::New,
                };
            }
            is_full &= owner.is_some();
        }
        if is_full { Found::Busy } else { Found::New }
    }

    fn keep(&mut self, requester: u8, number: u8, request: &[u8], reply: &[u8]) {
        let place = match self
            .windows
            .iter()
            .position(|(owner, _)| *owner == Some(requester))
        {
            Some(place) => place,
            None => self
                .windows
                .iter()
                .position(|(owner, _)| owner.is_none())
                .expect("a free window"),
        };
        let (owner, rows) = &mut self.windows[place];
        *owner = Some(requester);
        for above in 1..=NUMBERS / 2 {
            rows[(number as usize + above) % NUMBERS] = None;
        }
        rows[number as usize]
            .get_or_insert(Row::EMPTY)
            .set(request, reply);
    }
}

/// Windows as one word and an array each: a bit for each number in use, and the rows; each requester's window is found by its byte.
pub struct Words<const NUMBERS: usize, const CAP: usize> {
    slots: [u8; 256],
    taken: usize,
    used: [u64; 8],
    rows: Vec<Row<CAP>>,
}

/// The slot of a requester that has no window.
const NONE: u8 = 255;

impl<const NUMBERS: usize, const CAP: usize> Words<NUMBERS, CAP> {
    /// The next half of the circle.
    fn next_half(number: u8) -> u64 {
        let places = u32::from(number) + 1;
        if NUMBERS == 64 {
            0xFFFF_FFFFu64.rotate_left(places)
        } else {
            u64::from(0xFFFFu32.rotate_left(places))
        }
    }
}

impl<const NUMBERS: usize, const CAP: usize> Windows for Words<NUMBERS, CAP> {
    fn new() -> Self {
        Words {
            slots: [NONE; 256],
            taken: 0,
            used: [0; 8],
            rows: vec![Row::EMPTY; 8 * NUMBERS],
        }
    }

    fn find(&self, requester: u8, number: u8, request: &[u8]) -> Found<'_> {
        let slot = self.slots[requester as usize];
        if slot == NONE {
            return if self.taken == 8 {
                Found::Busy
            } else {
                Found::New
            };
        }
        if self.used[slot as usize] >> number & 1 == 0 {
            return Found::New;
        }
        let row = &self.rows[slot as usize * NUMBERS + number as usize];
        if row.is(request) {
            Found::Repeats(row.reply())
        } else {
            Found::New
        }
    }

    fn keep(&mut self, requester: u8, number: u8, request: &[u8], reply: &[u8]) {
        let mut slot = self.slots[requester as usize];
        if slot == NONE {
            slot = self.taken as u8;
            self.taken += 1;
            self.slots[requester as usize] = slot;
        }
        let used = &mut self.used[slot as usize];
        *used = *used & !Self::next_half(number) | 1 << number;
        self.rows[slot as usize * NUMBERS + number as usize].set(request, reply);
    }
}
