//! Measures `bmcnet serve` over UDP beside an echo in C and the plain controller, and looks at each reply. `bench/net` starts it.

#[allow(dead_code, reason = "bench/run uses more of it")]
#[path = "../attributes.rs"]
mod attributes;
#[allow(dead_code, reason = "bench/run uses more of it")]
#[path = "../boards.rs"]
mod boards;
mod calls;
mod client;
#[allow(dead_code, reason = "bench/run uses more of it")]
#[path = "../frames.rs"]
mod frames;
mod measures;
mod place;
#[allow(dead_code, reason = "bench/run uses more of it")]
#[path = "../plain.rs"]
mod plain;
mod plain_server;
mod servers;
#[path = "../shared.rs"]
mod shared;
#[allow(dead_code, reason = "bench/run uses more of it")]
#[path = "../slots.rs"]
mod slots;
#[allow(dead_code, reason = "bench/run uses more of it")]
#[path = "../smbus.rs"]
mod smbus;
#[path = "../table.rs"]
mod table;
#[allow(dead_code, reason = "bench/run uses more of it")]
#[path = "../windows.rs"]
mod windows;
mod words;

use client::{Client, Talk, Took};
use measures::Measure;
use place::Place;
use servers::{Programs, Running, SERVERS, Server};
use shared::{Ipmb, MOST_EVENTS, Port, Shared, Smbus};
use slots::Out;
use std::io;
use std::process::ExitCode;
use std::sync::Barrier;
use std::time::Instant;
use words::{Asked, Words};

/// So many requests each port gets of a server: together as many as a board's history has room for.
const REQUESTS: usize = MOST_EVENTS / 2;

/// So many of these aren't measured: the server begins with them.
const WARM_UP: usize = 64;

/// So often a server listens beside that. Whoever has fewer is through with them before the server's wait is over.
const SPARE_TURNS: usize = 400;

/// What a port is sent, and what it is to answer.
struct Side {
    requests: Vec<Vec<u8>>,
    replies: Vec<Vec<u8>>,
    echoes: Vec<Vec<u8>>,
}

/// What the plain controller's port answers to each request.
fn replies_of<P: Port>(requests: &[Vec<u8>]) -> Vec<Vec<u8>> {
    let (shared, mut port) = (Shared::sample(), P::new());
    requests
        .iter()
        .map(|request| {
            let mut out = Out::new();
            port.on_frame(&shared, request, &mut out);
            match out.sent() {
                [reply] => reply.as_slice().to_vec(),
                replies => panic!("{} frames to one", replies.len()),
            }
        })
        .collect()
}

impl Side {
    /// A list of frames, over and over.
    fn of<P: Port>(name: &str) -> Side {
        let work = frames::works()
            .into_iter()
            .find(|work| work.name == name)
            .expect("a list of this name");
        let requests: Vec<Vec<u8>> = (work.frames.iter().cycle().take(REQUESTS))
            .map(|slot| slot.as_slice().to_vec())
            .collect();
        let replies = replies_of::<P>(&requests);
        let echoes = (requests.iter().zip(&replies))
            .map(|(request, reply)| {
                let mut echo = request.clone();
                echo.resize(reply.len(), 0);
                echo
            })
            .collect();
        Side {
            requests,
            replies,
            echoes,
        }
    }

    fn talk(&self, server: Server) -> Talk<'_> {
        Talk {
            requests: &self.requests,
            replies: match server {
                Server::Echo => &self.echoes,
                Server::Serve | Server::Plain => &self.replies,
            },
        }
    }

    /// The lengths of requests and of their replies, as the echo is told of them.
    fn sizes(&self) -> String {
        let mut pairs: Vec<(usize, usize)> = (self.requests.iter().zip(&self.replies))
            .map(|(request, reply)| (request.len(), reply.len()))
            .collect();
        pairs.sort();
        pairs.dedup();
        for pair in pairs.windows(2) {
            assert_ne!(
                pair[0].0, pair[1].0,
                "the length of a request tells that of its reply"
            );
        }
        let words: Vec<String> = (pairs.iter())
            .map(|(request, reply)| format!("{request}:{reply}"))
            .collect();
        words.join(",")
    }
}

/// Nanoseconds that each of so many requests took.
fn nanoseconds(begin: Instant, end: Instant, requests: usize) -> f64 {
    end.duration_since(begin).as_nanos() as f64 / requests as f64
}

/// One port, one request at a time.
fn one_at_a_time(client: &mut Client, talk: Talk) -> io::Result<Measure> {
    let (warm_up, measured) = talk.split_at(WARM_UP);
    client.one_at_a_time(warm_up)?;
    let took = client.one_at_a_time(measured)?;
    Ok(Measure {
        nanoseconds: nanoseconds(took.begin, took.end, measured.requests.len()),
        busy: took.busy.as_secs_f64() / took.end.duration_since(took.begin).as_secs_f64(),
    })
}

/// Both ports at once, sixteen requests outstanding at each.
fn sixteen_of_each(clients: &mut [Client; 2], talks: [Talk; 2]) -> io::Result<Measure> {
    let together = Barrier::new(2);
    let [first, second] = clients;
    let talk_to = |client: &mut Client, talk: Talk| -> io::Result<Took> {
        let (warm_up, measured) = talk.split_at(WARM_UP);
        let is_warm = client.one_at_a_time(warm_up);
        together.wait();
        is_warm?;
        client.sixteen_at_once(measured)
    };
    let (first, second) = std::thread::scope(|scope| {
        let first = scope.spawn(|| talk_to(first, talks[0]));
        let second = talk_to(second, talks[1]);
        (first.join().expect("no thread panicked"), second)
    });
    let (first, second) = (first?, second?);
    let (begin, end) = (first.begin.min(second.begin), first.end.max(second.end));
    let alone = |took: Took| took.end.duration_since(took.begin).as_secs_f64();
    Ok(Measure {
        nanoseconds: nanoseconds(begin, end, 2 * (REQUESTS - WARM_UP)),
        busy: (first.busy + second.busy).as_secs_f64() / (alone(first) + alone(second)),
    })
}

/// What one round measures of one server: one request at a time at each port, with processors of their own for the server and the clients where
/// there are four, and sixteen outstanding at both, on any.
fn round(
    programs: &Programs,
    server: Server,
    sides: &[Side; 2],
    place: Place,
) -> io::Result<[Measure; 3]> {
    let talks = [sides[0].talk(server), sides[1].talk(server)];
    let begin = |is_apart| -> io::Result<(Running, [Client; 2])> {
        place.take(is_apart)?;
        let running = Running::start(programs, server, REQUESTS + SPARE_TURNS, is_apart)?;
        let clients = [Client::to(running.ports[0])?, Client::to(running.ports[1])?];
        Ok((running, clients))
    };
    let end = |running: Running, clients: &[Client; 2]| {
        running.end(2 * REQUESTS, || {
            clients.iter().for_each(|it| it.send_nothing(64))
        })
    };
    let (running, mut clients) = begin(place.can_part())?;
    let first = one_at_a_time(&mut clients[0], talks[0])?;
    let second = one_at_a_time(&mut clients[1], talks[1])?;
    end(running, &clients)?;
    let (running, mut clients) = begin(false)?;
    let both = sixteen_of_each(&mut clients, talks)?;
    end(running, &clients)?;
    Ok([first, second, both])
}

/// Rounds of all servers in turn, the order turned in each, so many or until the time is over.
fn measure(words: &Words, sides: &[Side; 2]) -> io::Result<Vec<[[Measure; 3]; 3]>> {
    let programs = Programs {
        bmcnet: words.bmcnet.clone(),
        board: words.board.clone(),
        echo: words.echo.clone(),
        sizes: [sides[0].sizes(), sides[1].sizes()],
    };
    let place = Place::of_process()?;
    let begin = Instant::now();
    let mut rounds = Vec::new();
    while rounds.len() < words.rounds && begin.elapsed() < words.time {
        let mut measured = [[Measure::default(); 3]; 3];
        for turn in 0..SERVERS.len() {
            let turned = (turn + rounds.len()) % SERVERS.len();
            measured[turned] = round(&programs, SERVERS[turned], sides, place)?;
        }
        rounds.push(measured);
    }
    Ok(rounds)
}

fn run(asked: Asked) -> io::Result<()> {
    let sides = || {
        [
            Side::of::<Ipmb>("Set and Get of thresholds"),
            Side::of::<Smbus>("Set and Get of an attribute"),
        ]
    };
    match asked {
        Asked::Serve { ports, turns } => plain_server::serve(ports, turns),
        Asked::Calls {
            bmcnet,
            board,
            is_page,
        } => {
            let has_checks = bmcnet.ends_with(".unproved");
            let programs = Programs {
                bmcnet,
                board,
                echo: String::new(),
                sizes: [String::new(), String::new()],
            };
            calls::show(&programs, &sides(), has_checks, is_page)
        }
        Asked::Measure(words) => {
            let rounds = measure(&words, &sides())?;
            measures::show(&rounds, words.is_page);
            Ok(())
        }
    }
}

fn main() -> ExitCode {
    let words: Vec<String> = std::env::args().skip(1).collect();
    let Some(asked) = Asked::read(&words) else {
        eprintln!("net: {}", words::USAGE);
        return ExitCode::from(2);
    };
    match run(asked) {
        Ok(()) => ExitCode::SUCCESS,
        Err(why) => {
            eprintln!("net: {why}");
            ExitCode::FAILURE
        }
    }
}
