//! What a server does beside its work: its calls of the system, and how often it takes memory, for few requests and for many. What it does for
//! each request is the difference.

use crate::client::{Client, Talk};
use crate::servers::{Programs, Running, Server};
use crate::table::Table;
use crate::{REQUESTS, Side};
use std::collections::BTreeMap;
use std::io;

/// What watches a server, and how many requests it gets at each port, in two runs.
struct Watcher {
    words: &'static [&'static str],
    few: usize,
    many: usize,
    spare_turns: usize,
    /// What it counted.
    counted: fn() -> io::Result<BTreeMap<String, usize>>,
}

/// It counts calls of the system.
const STRACE: Watcher = Watcher {
    words: &["strace", "-f", "-c", "-o", "out/strace.log"],
    few: 512,
    many: REQUESTS,
    spare_turns: 400,
    counted: counted_by_strace,
};

/// It counts how often memory is taken, of a program that is compiled without checks.
const VALGRIND: Watcher = Watcher {
    words: &["valgrind", "--leak-check=no", "--log-file=out/valgrind.log"],
    few: 512,
    many: REQUESTS,
    spare_turns: 400,
    counted: counted_by_valgrind,
};

/// It counts how often memory is taken, and looks which calls of the system are made under the lock, of a program whose calls aren't inlined.
const GDB: Watcher = Watcher {
    words: &["gdb", "-batch", "-x", "udp/watch.py", "--args"],
    few: 32,
    many: 128,
    spare_turns: 20,
    counted: counted_by_gdb,
};

/// By the table of `strace -c`: the fourth column, and the last.
fn counted_by_strace() -> io::Result<BTreeMap<String, usize>> {
    let text = std::fs::read_to_string("out/strace.log")?;
    let mut counts = BTreeMap::new();
    for line in text.lines() {
        let words: Vec<&str> = line.split_whitespace().collect();
        if let [_, _, _, count, .., name] = words.as_slice()
            && let Ok(count) = count.parse()
            && *name != "total"
        {
            counts.insert(name.to_string(), count);
        }
    }
    Ok(counts)
}

/// By valgrind's summary.
fn counted_by_valgrind() -> io::Result<BTreeMap<String, usize>> {
    let text = std::fs::read_to_string("out/valgrind.log")?;
    let of = |line: &str| {
        let (_, rest) = line.split_once("total heap usage: ")?;
        rest.split_once(" allocs")?.0.replace(',', "").parse().ok()
    };
    let count = text.lines().find_map(of);
    let count = count.ok_or(io::Error::other("valgrind counted nothing"))?;
    Ok(BTreeMap::from([("memory taken".to_string(), count)]))
}

/// By the lines that udp/watch.py writes.
fn counted_by_gdb() -> io::Result<BTreeMap<String, usize>> {
    let text = std::fs::read_to_string("out/gdb.log")?;
    let of = |line: &str| {
        let (count, name) = line.split_once(' ')?;
        Some((name.to_string(), count.parse().ok()?))
    };
    Ok(text.lines().filter_map(of).collect())
}

impl Watcher {
    /// Asks a server so many requests at both ports at once, and gives what was counted.
    fn watch(
        &self,
        programs: &Programs,
        sides: &[Side; 2],
        requests: usize,
    ) -> io::Result<BTreeMap<String, usize>> {
        let turns = requests + self.spare_turns;
        let running = Running::watched(programs, self.words, Server::Serve, turns)?;
        let mut clients = [Client::to(running.ports[0])?, Client::to(running.ports[1])?];
        let talk = |place: usize| -> Talk { sides[place].talk(Server::Serve).split_at(requests).0 };
        let [first, second] = &mut clients;
        std::thread::scope(|scope| {
            let first = scope.spawn(|| first.sixteen_at_once(talk(0)));
            second.sixteen_at_once(talk(1))?;
            first.join().expect("no thread panicked")
        })?;
        running.end(2 * requests, || {
            clients.iter().for_each(|it| it.send_nothing(8))
        })?;
        (self.counted)()
    }

    /// Adds what was counted in both runs, and how much that is for each request more.
    fn rows(&self, programs: &Programs, sides: &[Side; 2], table: &mut Table) -> io::Result<()> {
        let few = self.watch(programs, sides, self.few)?;
        let many = self.watch(programs, sides, self.many)?;
        for (name, count) in &many {
            let before = few.get(name).copied().unwrap_or(0);
            // Of the many calls of the system those that both runs make as often say nothing.
            if self.words[0] == "strace" && before == *count {
                continue;
            }
            let each = (*count as f64 - before as f64) / (2 * (self.many - self.few)) as f64;
            table.row([
                format!("{}: {name}", self.words[0]),
                format!("{before} ({})", 2 * self.few),
                format!("{count} ({})", 2 * self.many),
                format!("{each:.3}"),
            ]);
        }
        Ok(())
    }
}

/// Shows what is counted of a server, which is compiled with checks or without.
pub fn show(
    programs: &Programs,
    sides: &[Side; 2],
    has_checks: bool,
    is_page: bool,
) -> io::Result<()> {
    let heads = ["Who counts what", "of requests", "of more", "for each more"];
    let mut table = Table::new(is_page, heads);
    let watchers = if has_checks {
        [STRACE, GDB]
    } else {
        [STRACE, VALGRIND]
    };
    (watchers.iter()).try_for_each(|watcher| watcher.rows(programs, sides, &mut table))
}
