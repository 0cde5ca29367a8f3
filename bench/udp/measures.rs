//! What was measured of the three servers, as a table.

use crate::table::{Table, median};

/// What one round measured: nanoseconds a request, and how much of the time the clients were at work.
#[derive(Clone, Copy, Debug, Default)]
pub struct Measure {
    pub nanoseconds: f64,
    pub busy: f64,
}

/// What is measured, and the least that `serve` is to have of the echo's speed.
const LOADS: [(&str, f64); 3] = [
    ("one at a time, IPMB", 0.9),
    ("one at a time, SMBus", 0.9),
    ("sixteen at each of both", 0.8),
];

const HEADS: [&str; 8] = [
    "Load",
    "serve",
    "echo in C",
    "plain Rust",
    "of the echo",
    "goal",
    "of plain Rust",
    "clients at work",
];

/// A row of the table: medians of requests a second, and of the ratios of each round.
fn row(rounds: &[[[Measure; 3]; 3]], load: usize) -> [String; 8] {
    let time = |server: usize| move |it: &[[Measure; 3]; 3]| it[server][load].nanoseconds;
    let speed = |server: usize| format!("{:.0}", 1e9 / median(rounds.iter().map(time(server))));
    let ratio = |to: usize| {
        let of_round = |it: &[[Measure; 3]; 3]| time(to)(it) / time(0)(it);
        format!("{:.2}", median(rounds.iter().map(of_round)))
    };
    let busy = |server: usize| {
        let share = median(rounds.iter().map(|it| it[server][load].busy));
        format!("{:.0}", 100.0 * share)
    };
    let (name, goal) = LOADS[load];
    [
        name.to_string(),
        speed(0),
        speed(1),
        speed(2),
        ratio(1),
        format!("{goal:.1}"),
        ratio(2),
        format!("{}, {}, {} %", busy(0), busy(1), busy(2)),
    ]
}

/// Shows the table, in Markdown or in columns.
pub fn show(rounds: &[[[Measure; 3]; 3]], is_page: bool) {
    println!("{} rounds, medians; requests a second\n", rounds.len());
    let mut table = Table::new(is_page, HEADS);
    for load in 0..LOADS.len() {
        table.row(row(rounds, load));
    }
}
