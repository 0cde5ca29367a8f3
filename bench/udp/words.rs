//! What the program is asked for.

use std::time::Duration;

pub const USAGE: &str = "BMCNET BOARD ECHO ROUNDS SECONDS [--page] are wanted, calls BMCNET BOARD [--page], or serve P0 P1 TURNS";

/// What is measured, for how long, and how it is shown.
pub struct Words {
    pub bmcnet: String,
    pub board: String,
    pub echo: String,
    pub rounds: usize,
    /// No round begins behind that.
    pub time: Duration,
    /// Whether the table is in Markdown.
    pub is_page: bool,
}

pub enum Asked {
    /// The plain controller as a server.
    Serve {
        ports: [u16; 2],
        turns: u32,
    },
    /// What `serve` does beside its work.
    Calls {
        bmcnet: String,
        board: String,
        is_page: bool,
    },
    Measure(Words),
}

impl Asked {
    pub fn read(words: &[String]) -> Option<Asked> {
        let words: Vec<&str> = words.iter().map(String::as_str).collect();
        let (words, is_page) = match words.as_slice() {
            [words @ .., "--page"] => (words, true),
            words => (words, false),
        };
        match words {
            ["serve", first, second, turns] => Some(Asked::Serve {
                ports: [first.parse().ok()?, second.parse().ok()?],
                turns: turns.parse().ok()?,
            }),
            ["calls", bmcnet, board] => Some(Asked::Calls {
                bmcnet: bmcnet.to_string(),
                board: board.to_string(),
                is_page,
            }),
            [bmcnet, board, echo, rounds, seconds] => Some(Asked::Measure(Words {
                bmcnet: bmcnet.to_string(),
                board: board.to_string(),
                echo: echo.to_string(),
                rounds: rounds.parse().ok().filter(|rounds| *rounds > 0)?,
                time: Duration::from_secs(seconds.parse().ok().filter(|seconds| *seconds > 0)?),
                is_page,
            })),
            _ => None,
        }
    }
}
