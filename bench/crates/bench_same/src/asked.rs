//! What the words of the program ask for.
use cfg_records::BoardFile;
use std::alloc::AllocError;
use std::env;
use std::fs::read_to_string;
use std::rt::{Env, Files};
use text_board::read_board;
use two_wire::Bus;

/// What a board keeps its records in.
#[derive(Clone, Copy)]
pub enum Kept {
    /// One image of bytes, as in the programs.
    Packed,
    /// A list of values.
    List,
}

/// What is served: the bus, the board, and the text of the frames.
#[derive(Drop)]
pub struct Asked {
    pub kept: Kept,
    pub bus: Bus,
    pub board: BoardFile,
    pub frames: String,
}

fn kept_of(word: &str) -> Option<Kept> {
    match word {
        "packed" => Some(Kept::Packed),
        "list" => Some(Kept::List),
        _ => None,
    }
}

fn bus_of(word: &str) -> Option<Bus> {
    match word {
        "ipmb" => Some(Bus::Ipmb),
        "smbus" => Some(Bus::Smbus),
        _ => None,
    }
}

/// The words that the process was given, the program's own name first among them.
fn words_of<R: Env + AllocGlobal>(rt: &R) -> Option<Vec<String>> {
    let Ok(args) = env::args(rt) else {
        return None;
    };
    let words: Result<Vec<String>, AllocError> = args.collect(rt.alloc());
    words.ok()
}

/// What the process was asked for.
pub fn read_asked<R: Env + Files + AllocGlobal>(rt: &R) -> Option<Asked> {
    let words = words_of(rt)?;
    let [_, kept, bus, board, frames] = words.as_slice() else {
        return None;
    };
    let text = read_to_string(rt, board.as_str()).ok()?;
    Some(Asked {
        kept: kept_of(kept.as_str())?,
        bus: bus_of(bus.as_str())?,
        board: read_board(rt.alloc(), text.as_str()).ok()?,
        frames: read_to_string(rt, frames.as_str()).ok()?,
    })
}
