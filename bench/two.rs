//! Two workers on one board: the proved program `bench_two`, beside plain Rust with a mutex and a list of the same events.

use crate::frames::Work;
use crate::shared::{Ipmb, MOST_EVENTS, Port, Shared, Smbus};
use crate::slots::{Out, Slot};
use crate::table::Table;
use std::collections::HashMap;
use std::fmt::Write;
use std::fs;
use std::hint::black_box;
use std::io;
use std::process::Command;
use std::time::{Duration, Instant};

/// The program, as `rt run` leaves it.
const PROGRAM: &str = "out/tree/crates/bench_two/out/bench_two";

/// Both are run in turn so many times, each for so many rounds.
const TURNS: usize = 20;
const ROUNDS: usize = 50;

/// The files of the frames that the program is handed.
const FILES: [&str; 2] = ["out/two_ipmb.txt", "out/two_smbus.txt"];

/// The frames of both ports, and how many times over each port gets its own in a round.
pub struct Two<'a> {
    ipmb: &'a Work,
    smbus: &'a Work,
    times: usize,
}

/// Hands a port the frames so many times over.
fn work<P: Port>(shared: &Shared, frames: &[Slot], times: usize) {
    let mut port = P::new();
    let mut out = Out::new();
    for _ in 0..times {
        for frame in frames {
            port.on_frame(shared, frame.as_slice(), &mut out);
            black_box(&out);
        }
    }
}

/// The frames, each in hexadecimal digits on a line.
fn text_of(frames: &[Slot]) -> String {
    let mut text = String::new();
    for frame in frames {
        for byte in frame.as_slice() {
            write!(text, "{byte:02X}").expect("memory");
        }
        text.push('\n');
    }
    text
}

impl<'a> Two<'a> {
    /// Both lists, whose requests fill a history together.
    pub fn new(ipmb: &'a Work, smbus: &'a Work) -> Two<'a> {
        let times = MOST_EVENTS / (ipmb.frames.len() + smbus.frames.len());
        Two { ipmb, smbus, times }
    }

    /// How long both workers of the plain controller take in a round.
    fn plain_round(&self) -> Duration {
        let shared = Shared::sample();
        let start = Instant::now();
        std::thread::scope(|scope| {
            scope.spawn(|| work::<Ipmb>(&shared, &self.ipmb.frames, self.times));
            scope.spawn(|| work::<Smbus>(&shared, &self.smbus.frames, self.times));
        });
        let took = start.elapsed();
        assert_eq!(shared.close().0, MOST_EVENTS, "each frame is a request");
        took
    }

    /// The nanoseconds of a round of the proved controller, by the names that the program gives them.
    fn proved_rounds(&self) -> io::Result<HashMap<String, u64>> {
        let (times, rounds) = (self.times.to_string(), (ROUNDS - 1).to_string());
        let said = Command::new(PROGRAM)
            .args(FILES)
            .args([times, rounds])
            .output()?;
        if !said.status.success() {
            return Err(io::Error::other(format!(
                "{PROGRAM} ended with {}",
                said.status
            )));
        }
        let numbers: HashMap<String, u64> = String::from_utf8_lossy(&said.stdout)
            .lines()
            .filter_map(|line| line.split_once(' '))
            .filter_map(|(name, number)| Some((name.to_string(), number.parse().ok()?)))
            .collect();
        assert_eq!(
            numbers["events"], MOST_EVENTS as u64,
            "each frame is a request"
        );
        Ok(numbers)
    }

    /// Measures both, and shows the table: nanoseconds a request.
    pub fn measure(&self, is_page: bool) -> io::Result<()> {
        fs::write(FILES[0], text_of(&self.ipmb.frames))?;
        fs::write(FILES[1], text_of(&self.smbus.frames))?;
        let mut plain = Duration::MAX;
        let mut proved = HashMap::new();
        for _ in 0..TURNS {
            for (name, number) in self.proved_rounds()? {
                let least = proved.entry(name).or_insert(number);
                *least = number.min(*least);
            }
            let least = (0..ROUNDS).map(|_| self.plain_round()).min();
            plain = plain.min(least.unwrap_or(plain));
        }
        let heads = [
            "Two workers, one board",
            "two",
            "in turn",
            "history",
            "alone",
            "plain, two",
            "ratio",
        ];
        let mut table = Table::new(is_page, heads);
        let each = |round: u64| round as f64 / MOST_EVENTS as f64;
        let plain = each(plain.as_nanos() as u64);
        let told = |number: f64| format!("{number:.0}");
        table.row([
            "thresholds, and an attribute, ns".to_string(),
            told(each(proved["two"])),
            told(each(proved["in-turn"])),
            told(each(proved["held"])),
            told(each(proved["alone"])),
            told(plain),
            format!("{:.2}", plain / each(proved["two"])),
        ]);
        Ok(())
    }
}
