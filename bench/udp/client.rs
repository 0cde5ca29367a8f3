//! A client of one port: it sends frames, one at a time or so many at once, and looks at each reply.

use std::io;
use std::net::{Ipv4Addr, UdpSocket};
use std::os::fd::AsRawFd;
use std::time::{Duration, Instant};

/// A datagram has at most so many bytes.
const ROOM: usize = 96;

/// So many requests are outstanding at most.
pub const OUTSTANDING: usize = 16;

/// How long a client waits for a reply.
const WAIT: Duration = Duration::from_secs(2);

/// What a client sends, and what it is to hear, in this order.
#[derive(Clone, Copy)]
pub struct Talk<'a> {
    pub requests: &'a [Vec<u8>],
    pub replies: &'a [Vec<u8>],
}

impl<'a> Talk<'a> {
    /// The first so many, and the rest.
    pub fn split_at(self, place: usize) -> (Talk<'a>, Talk<'a>) {
        let (first, rest) = self.requests.split_at(place);
        let (first_replies, rest_replies) = self.replies.split_at(place);
        (
            Talk {
                requests: first,
                replies: first_replies,
            },
            Talk {
                requests: rest,
                replies: rest_replies,
            },
        )
    }
}

#[repr(C)]
struct IoVec {
    base: *mut u8,
    length: usize,
}

#[repr(C)]
struct Header {
    name: *mut u8,
    name_length: u32,
    parts: *mut IoVec,
    part_count: usize,
    control: *mut u8,
    control_length: usize,
    flags: i32,
}

/// What one call of the system sends or receives of one datagram.
#[repr(C)]
struct Message {
    header: Header,
    length: u32,
}

#[repr(C)]
struct TimeSpec {
    seconds: i64,
    nanoseconds: i64,
}

unsafe extern "C" {
    fn sendmmsg(socket: i32, messages: *mut Message, count: u32, flags: i32) -> i32;
    fn recvmmsg(
        socket: i32,
        messages: *mut Message,
        count: u32,
        flags: i32,
        wait: *mut TimeSpec,
    ) -> i32;
    fn clock_gettime(clock: i32, time: *mut TimeSpec) -> i32;
}

/// Linux's flag to wait for the first datagram alone.
const WAIT_FOR_ONE: i32 = 0x10000;

/// Linux's clock of a thread's processor time.
const THREAD_CLOCK: i32 = 3;

/// The processor time that this thread has used.
fn thread_time() -> Duration {
    let mut time = TimeSpec {
        seconds: 0,
        nanoseconds: 0,
    };
    // SAFETY: the declaration fits the function's, and it writes a time alone.
    let status = unsafe { clock_gettime(THREAD_CLOCK, &mut time) };
    assert_eq!(status, 0, "a thread has a clock");
    Duration::new(time.seconds as u64, time.nanoseconds as u32)
}

/// Room for as many datagrams as one call sends or receives.
struct Batch {
    bytes: [[u8; ROOM]; OUTSTANDING],
}

impl Batch {
    fn new() -> Self {
        Batch {
            bytes: [[0; ROOM]; OUTSTANDING],
        }
    }

    /// Calls one of the system's functions with a message for each of these lengths, and gives the messages' lengths then.
    fn call(
        &mut self,
        lengths: &[usize],
        call: impl FnOnce(*mut Message, u32) -> i32,
    ) -> io::Result<([usize; OUTSTANDING], usize)> {
        let base = self.bytes.as_mut_ptr();
        let mut parts: [IoVec; OUTSTANDING] = std::array::from_fn(|place| IoVec {
            // SAFETY: the place is within the array.
            base: unsafe { base.add(place) }.cast(),
            length: lengths.get(place).copied().unwrap_or(0),
        });
        let first = parts.as_mut_ptr();
        let mut messages: [Message; OUTSTANDING] = std::array::from_fn(|place| Message {
            header: Header {
                name: std::ptr::null_mut(),
                name_length: 0,
                // SAFETY: the place is within the array.
                parts: unsafe { first.add(place) },
                part_count: 1,
                control: std::ptr::null_mut(),
                control_length: 0,
                flags: 0,
            },
            length: 0,
        });
        let count = call(messages.as_mut_ptr(), lengths.len() as u32);
        if count < 0 {
            return Err(io::Error::last_os_error());
        }
        let all = std::array::from_fn(|place| messages[place].length as usize);
        Ok((all, count as usize))
    }
}

/// How long a talk took, and how much of that the client's thread was at work.
#[derive(Clone, Copy, Debug)]
pub struct Took {
    pub begin: Instant,
    pub end: Instant,
    pub busy: Duration,
}

pub struct Client {
    socket: UdpSocket,
    batch: Batch,
}

/// An error that says which reply was wrong.
fn wrong(place: usize, request: &[u8], heard: &[u8], wanted: &[u8]) -> io::Error {
    io::Error::other(format!(
        "request {place}, {request:02X?}: heard {heard:02X?}, and not {wanted:02X?}"
    ))
}

impl Client {
    /// A client of this port of the loopback address.
    pub fn to(port: u16) -> io::Result<Client> {
        let socket = UdpSocket::bind((Ipv4Addr::LOCALHOST, 0))?;
        socket.connect((Ipv4Addr::LOCALHOST, port))?;
        socket.set_read_timeout(Some(WAIT))?;
        Ok(Client {
            socket,
            batch: Batch::new(),
        })
    }

    /// Sends each request once the one before it was answered.
    pub fn one_at_a_time(&mut self, talk: Talk) -> io::Result<Took> {
        let (begin, worked) = (Instant::now(), thread_time());
        let mut bytes = [0; ROOM];
        for (place, (request, wanted)) in talk.requests.iter().zip(talk.replies).enumerate() {
            self.socket.send(request)?;
            let length = self.socket.recv(&mut bytes)?;
            if bytes[..length] != wanted[..] {
                return Err(wrong(place, request, &bytes[..length], wanted));
            }
        }
        Ok(Took {
            begin,
            end: Instant::now(),
            busy: thread_time() - worked,
        })
    }

    /// Sends these requests by one call of the system.
    fn send_all(&mut self, requests: &[Vec<u8>]) -> io::Result<()> {
        let mut lengths = [0; OUTSTANDING];
        for (place, request) in requests.iter().enumerate() {
            self.batch.bytes[place][..request.len()].copy_from_slice(request);
            lengths[place] = request.len();
        }
        let socket = self.socket.as_raw_fd();
        // SAFETY: the messages point into the batch, and into arrays that live for the call.
        let send = |messages, count| unsafe { sendmmsg(socket, messages, count, 0) };
        let (_, sent) = self.batch.call(&lengths[..requests.len()], send)?;
        if sent != requests.len() {
            return Err(io::Error::other("not all requests were sent"));
        }
        Ok(())
    }

    /// Waits for a reply, and takes those that are there besides, at most so many. It gives their lengths.
    fn hear_all(&mut self, most: usize) -> io::Result<([usize; OUTSTANDING], usize)> {
        let socket = self.socket.as_raw_fd();
        let hear = |messages, count| {
            // SAFETY: the messages point into the batch, and into arrays that live for the call.
            unsafe { recvmmsg(socket, messages, count, WAIT_FOR_ONE, std::ptr::null_mut()) }
        };
        self.batch.call(&[ROOM; OUTSTANDING][..most], hear)
    }

    /// Sends requests so that sixteen are outstanding, until the last were sent. The replies are to come in the requests' order.
    pub fn sixteen_at_once(&mut self, talk: Talk) -> io::Result<Took> {
        let (begin, worked) = (Instant::now(), thread_time());
        let (mut sent, mut heard) = (0, 0);
        while heard < talk.replies.len() {
            let next = talk.requests.len().min(heard + OUTSTANDING);
            self.send_all(&talk.requests[sent..next])?;
            sent = next;
            let (lengths, count) = self.hear_all(sent - heard)?;
            for (bytes, length) in self.batch.bytes.iter().zip(lengths).take(count) {
                let wanted = &talk.replies[heard];
                if bytes[..length] != wanted[..] {
                    let request = &talk.requests[heard];
                    return Err(wrong(heard, request, &bytes[..length], wanted));
                }
                heard += 1;
            }
        }
        Ok(Took {
            begin,
            end: Instant::now(),
            busy: thread_time() - worked,
        })
    }

    /// Sends so many datagrams of no bytes, which are no frame of any bus: each uses up a turn of the server. Where nobody hears them any
    /// more, that is no fault.
    pub fn send_nothing(&self, many: usize) {
        for _ in 0..many {
            let _ = self.socket.send(&[]);
        }
    }
}
