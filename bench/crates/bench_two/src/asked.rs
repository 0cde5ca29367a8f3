//! What the words of the program ask for.
use crate::frames::frames_of;
use std::alloc::AllocError;
use std::env;
use std::fs::read_to_string;
use std::rt::{Env, Files};

/// What is measured: the frames of both ports, how many times over each port gets its own, and how many rounds are made.
#[derive(Drop)]
pub struct Asked {
    pub ipmb: Vec<Vec<u8>>,
    pub smbus: Vec<Vec<u8>>,
    pub times: u32,
    pub rounds: u32,
}

/// The frames of a file.
fn read_frames<R: Files + AllocGlobal>(rt: &R, path: &str) -> Option<Vec<Vec<u8>>> {
    match read_to_string(rt, path) {
        Ok(text) => frames_of(rt.alloc(), text.as_str()),
        Err(_) => None,
    }
}

/// Both files' frames, and these numbers.
fn asked_by<R: Files + AllocGlobal>(
    rt: &R,
    ipmb: &str,
    smbus: &str,
    times: u32,
    rounds: u32,
) -> Option<Asked> {
    let ipmb = read_frames(rt, ipmb)?;
    match read_frames(rt, smbus) {
        Some(smbus) => Some(Asked {
            ipmb,
            smbus,
            times,
            rounds,
        }),
        None => None,
    }
}

/// The words that the process was given, the program's own name first among them.
fn words_of<R: Env + AllocGlobal>(rt: &R) -> Option<Vec<String>> {
    let Ok(args) = env::args(rt) else {
        return None;
    };
    let words: Result<Vec<String>, AllocError> = args.collect(rt.alloc());
    words.ok()
}

/// What the process was asked for, where its words are these.
pub fn read_asked<R: Env + Files + AllocGlobal>(rt: &R) -> Option<Asked> {
    let words = words_of(rt)?;
    match words.as_slice() {
        [_, ipmb, smbus, times, rounds] => match (times.parse::<u32>(), rounds.parse::<u32>()) {
            (Ok(times), Ok(rounds)) => asked_by(rt, ipmb.as_str(), smbus.as_str(), times, rounds),
            _ => None,
        },
        _ => None,
    }
}
