//! The boards that the controllers have, as texts of board files.

use std::fmt::Write;
use std::sync::OnceLock;

/// The sample board.
const SAMPLE: &str = include_str!("../sample.toml");

/// What stands of the sample board before its first sensor.
fn head() -> &'static str {
    &SAMPLE[..SAMPLE.find("[[sensor]]").expect("sensors")]
}

/// What stands of the sample board from its first channel on.
fn rest() -> &'static str {
    &SAMPLE[SAMPLE.find("[[channel]]").expect("channels")..]
}

/// The sensors 0 to 31, all of whose thresholds can be read and set, and which have no events.
fn sensors() -> String {
    let mut text = String::new();
    for number in 0..32 {
        write!(
            text,
            "[[sensor]]\nnumber = {number}\ntype = 1\nreadable = 0x3F\nsettable = 0x3F\n\
             thresholds = [0x14, 0x0A, 0x05, 0x50, 0x5F, 0x6E]\nhysteresis = [2, 2]\nsupported = 0\n\
             flags = 0\nassert = 0\ndeassert = 0\n\n"
        )
        .expect("memory");
    }
    text
}

/// Names of users 1 to 16, of which the first has none.
fn users() -> String {
    let names: Vec<String> = (2..=16).map(|user| format!("\"user{user}\"")).collect();
    format!("users = [\"\", {}]", names.join(", "))
}

/// Channels 1 to 8 with sessions, and what each user may do there.
fn channels() -> String {
    let rights = ["0x14"; 16].join(", ");
    (1..=8)
        .map(|number| {
            format!(
                "[[channel]]\nnumber = {number}\nsessions = true\naccess = [2, 2]\nlimit = [4, 4]\nusers = [{rights}]\n\n"
            )
        })
        .collect()
}

/// LAN parameters of channels 1 to 8.
fn lans() -> String {
    (1..=8)
        .map(|channel| {
            format!(
                "[[lan]]\nchannel = {channel}\nip = [192, 0, 2, {channel}]\nsource = 1\nmask = [255, 255, 255, 0]\n\
                 gateway = [192, 0, 2, 254]\nvlan = [0, 0]\n\n"
            )
        })
        .collect()
}

/// Texts of up to 200 bytes beside the three attributes of the sample board, so that there are 64.
fn attributes() -> String {
    let own = &SAMPLE[SAMPLE.find("[[attribute]]").expect("attributes")..];
    let more: String = (3..64)
        .map(|handle| {
            format!(
                "\n[[attribute]]\nname = \"Note{handle}\"\nkind = \"string\"\nstring_type = 1\nleast = 0\nmost = 200\n\
                 default = \"\"\ncurrent = \"\"\nreadonly = false\n"
            )
        })
        .collect();
    format!("{own}\n{more}")
}

/// 32 numeric effecters and 32 state effecters.
fn effecters() -> String {
    let numeric: String = (0..32)
        .map(|id| {
            format!(
                "\n[[numeric]]\nid = {id}\nsize = 5\noperational = 1\nlower = 0\nupper = 1000\ncurrent = 500\n"
            )
        })
        .collect();
    let state: String = (32..64)
        .map(|id| {
            format!(
                "\n[[state]]\nid = {id}\noperational = 1\nstates = [[1, 2], [1, 2], [1, 2], [1, 2], [1, 2], [1, 2], [1, 2], [1, 2]]\n\
                 current = [1, 1, 1, 1, 1, 1, 1, 1]\n"
            )
        })
        .collect();
    numeric + &state
}

/// The sample board, but with 32 sensors.
fn of_32() -> String {
    format!("{}{}{}", head(), sensors(), rest())
}

/// A board with all that the limits allow: 32 sensors, 16 users, 8 channels with sessions and LAN parameters, 64 attributes and 64
/// effecters.
fn largest() -> String {
    let head = head().replace("users = [\"\", \"admin\"]", &users());
    format!(
        "{head}{}{}{}{}{}",
        sensors(),
        channels(),
        lans(),
        attributes(),
        effecters()
    )
}

/// The sample board, but with a text of up to 1,024 bytes.
fn long_text() -> String {
    SAMPLE.replace("most = 200", "most = 1024")
}

/// Which board serves the frames.
#[derive(Clone, Copy, Debug, PartialEq, Eq)]
pub enum Board {
    Sample,
    Of32,
    LongText,
    Largest,
}

impl Board {
    /// Its board file.
    pub fn text(self) -> &'static str {
        static OF_32: OnceLock<String> = OnceLock::new();
        static LONG_TEXT: OnceLock<String> = OnceLock::new();
        static LARGEST: OnceLock<String> = OnceLock::new();
        match self {
            Board::Sample => SAMPLE,
            Board::Of32 => OF_32.get_or_init(of_32),
            Board::LongText => LONG_TEXT.get_or_init(long_text),
            Board::Largest => LARGEST.get_or_init(largest),
        }
    }
}
