//! Measures the proved controller beside one in plain Rust, over the same frames, and checks that both send the same bytes.

mod agree;
mod attributes;
mod boards;
#[allow(dead_code, reason = "bench/run same uses more of it")]
mod frames;
mod plain;
mod proved;
#[allow(dead_code, reason = "bench/run same uses more of it")]
mod serve;
mod shared;
mod slots;
mod smbus;
#[allow(dead_code, reason = "bench/net uses more of it")]
mod table;
mod two;
mod windows;

use agree::{Controller, Sent};
use frames::Work;
use slots::{Kind, Slot};
use std::io;
use std::process::ExitCode;
use std::time::Instant;
use table::Table;
use two::Two;

/// How many frames that look random all controllers get, of each kind.
const RANDOM: usize = 4000;

/// How often each list of frames is measured, once with each controller in turn.
const TURNS: usize = 1000;

/// About how many requests one measure takes: few, so that many a turn is over before the machine turns to other work.
const REQUESTS: u64 = 1 << 14;

/// A controller: hands it the frames in turn, so many times over and once more, and leaves what it sent at last to each.
type Serve = fn(Kind, &[Slot], u64, &mut [Slot]);

/// The plain controllers, of which the faster counts.
const PLAIN: [Serve; 2] = [serve::by_options, serve::by_words];

/// Of what a controller sends to each frame the first, which it leaves: after one round, and then after two.
fn first_sent(serve: Serve, kind: Kind, frames: &[Slot]) -> io::Result<Vec<Sent>> {
    let mut sent = Vec::new();
    for rounds in [0, 1] {
        let mut replies = vec![Slot::new(&[]); frames.len()];
        serve(kind, frames, rounds, &mut replies);
        let first = |reply: Slot| {
            if reply.length == 0 {
                vec![]
            } else {
                vec![reply]
            }
        };
        sent.extend(replies.into_iter().map(first));
    }
    Ok(sent)
}

/// All controllers, of which the others have to send what the first does.
const CONTROLLERS: [Controller; 4] = [
    ("proved", |kind, frames| {
        first_sent(proved::serve, kind, frames)
    }),
    ("list", |kind, frames| {
        first_sent(proved::over_list, kind, frames)
    }),
    ("options", |kind, frames| {
        first_sent(serve::by_options, kind, frames)
    }),
    ("words", |kind, frames| {
        first_sent(serve::by_words, kind, frames)
    }),
];

/// The seconds that a fresh controller takes to serve the frames so many times over and once more.
fn seconds(serve: Serve, work: &Work, rounds: u64, replies: &mut [Slot]) -> f64 {
    let start = Instant::now();
    serve(work.kind, &work.frames, rounds, replies);
    let seconds = start.elapsed().as_secs_f64();
    std::hint::black_box(&replies);
    seconds
}

/// Frames a second, by the fastest of so many turns, each of all controllers one after another. What it takes to read a board's file and to
/// open the board isn't counted: the fastest turn with no rounds is taken away.
fn fastest<const N: usize>(serves: [Serve; N], work: &Work) -> [f64; N] {
    let rounds = REQUESTS / work.frames.len() as u64;
    let mut replies = vec![Slot::new(&[]); work.frames.len()];
    let mut opened = [f64::INFINITY; N];
    let mut served = [f64::INFINITY; N];
    for _ in 0..TURNS {
        for (place, serve) in serves.into_iter().enumerate() {
            opened[place] = opened[place].min(seconds(serve, work, 0, &mut replies));
            served[place] = served[place].min(seconds(serve, work, rounds, &mut replies));
        }
    }
    let frames = (rounds * work.frames.len() as u64) as f64;
    std::array::from_fn(|place| frames / (served[place] - opened[place]))
}

/// Measures a list, and adds its row: millions of frames a second.
fn measure(table: &mut Table, work: &Work) {
    let [options, words] = PLAIN;
    let [proved, list, options, words] =
        fastest([proved::serve, proved::over_list, options, words], work);
    let millions = |speed: f64| format!("{:.1}", speed / 1e6);
    table.row([
        work.name.to_string(),
        millions(proved),
        millions(list),
        millions(options),
        millions(words),
        format!("{:.2}", proved / list),
        format!("{:.2}", proved / f64::max(options, words)),
    ]);
}

fn measure_lists(works: &[Work], is_page: bool) {
    let heads = [
        "List",
        "proved",
        "over list",
        "plain, windows as options",
        "plain, windows as words",
        "stores",
        "ratio",
    ];
    let mut table = Table::new(is_page, heads);
    works.iter().for_each(|work| measure(&mut table, work));
}

/// The lists that two workers share a board for.
fn two_of(works: &[Work]) -> io::Result<Two<'_>> {
    let named = |name| works.iter().find(|work| work.name == name);
    let ipmb = named("Set and Get of thresholds");
    let smbus = named("Set and Get of an attribute");
    match (ipmb, smbus) {
        (Some(ipmb), Some(smbus)) => Ok(Two::new(ipmb, smbus)),
        _ => Err(io::Error::other("no such list")),
    }
}

/// Measures what the word asks for, or all. It gives whether all controllers send the same.
fn run(word: Option<&str>, is_page: bool) -> io::Result<bool> {
    let works = frames::works();
    if word == Some("two") {
        two_of(&works)?.measure(is_page)?;
        return Ok(true);
    }
    if !agree::all_agree(&CONTROLLERS, works.iter(), RANDOM)? {
        return Ok(false);
    }
    match word {
        None => {
            measure_lists(&works, is_page);
            two_of(&works)?.measure(is_page)?;
        }
        // One list with the proved controller alone, for a profiler.
        Some(place) => {
            let place: usize = place.parse().map_err(io::Error::other)?;
            let work = works.get(place).ok_or(io::Error::other("no such list"))?;
            let [speed] = fastest([proved::serve], work);
            println!("{:<28} {:>14.0}", work.name, speed);
        }
    }
    Ok(true)
}

fn main() -> ExitCode {
    let mut words: Vec<String> = std::env::args().skip(1).collect();
    let count = words.len();
    words.retain(|word| word != "--page");
    let is_page = words.len() < count;
    match run(words.first().map(String::as_str), is_page) {
        Ok(true) => ExitCode::SUCCESS,
        Ok(false) => {
            eprintln!("bench: the controllers differ");
            ExitCode::FAILURE
        }
        Err(why) => {
            eprintln!("bench: {why}");
            ExitCode::FAILURE
        }
    }
}
