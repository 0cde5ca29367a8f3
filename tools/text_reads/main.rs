//! Readers of texts, on texts that are cut off, edited at random, or long. tools/random-texts and tools/read-time add this program to a copy of
//! the tree. It writes such a text, too, so that they have another program read it.
#![tactic(auto)]

mod dice;
mod edits;
mod files;
mod long;
mod reading;

use files::text_of;
use reading::{Form, Tally, Unwell, is_read, read_timed};
use std::alloc::{AllocError, AllocGlobal, Global};
use std::env::{self, Env};
use std::io::Print;
use std::process::ExitCode;
use std::time::Clock;

/// Reads the whole text, and of its prefixes each of so many, the empty one first.
fn read_prefixes<R: Clock + Print>(
    rt: &R,
    alloc: Global,
    form: Form,
    every: u64,
    tally: &mut Tally,
) -> Result<(), Unwell> {
    let text = text_of(form);
    for end in 0..=text.len() {
        if end as u64 % every != 0 && end != text.len() {
            continue;
        }
        if let Some(prefix) = text.get(..end) {
            tally.count(read_timed(rt, alloc, form, prefix)?, prefix.len(), end as u64);
        }
    }
    tally.tell(rt)
}

/// Reads so many edits of the text, the first of this seed.
fn read_edits<R: Clock + Print>(
    rt: &R,
    alloc: Global,
    form: Form,
    (first, many): (u64, u64),
    tally: &mut Tally,
) -> Result<(), Unwell> {
    for place in 0..many {
        let seed = first.wrapping_add(place);
        let text = edits::edited(alloc, text_of(form), seed)?;
        tally.count(read_timed(rt, alloc, form, text.as_str())?, text.len(), seed);
    }
    tally.tell(rt)
}

/// Makes a long text and reads it so often, and tells how many bytes it has, and whether it is read as a value.
fn read_long<R: Print>(
    rt: &R,
    alloc: Global,
    name: &str,
    (many, times): (u64, u64),
) -> Result<(), Unwell> {
    let (form, text) = long::text_called(alloc, name, many as usize)?;
    let mut read = false;
    for _ in 0..times {
        read = is_read(alloc, form, text.as_str())?;
    }
    println!(rt; "{} {read}", text.len())?;
    Ok(())
}

/// Writes a text: the prefix that ends here, the edit of this seed, or the long text of so many parts.
fn write_text<R: Print>(
    rt: &R,
    alloc: Global,
    sort: &str,
    name: &str,
    which: u64,
) -> Result<(), Unwell> {
    match sort {
        "prefixes" => {
            let text = text_of(Form::of(name)?);
            print!(rt; "{}", text.get(..which as usize).ok_or(Unwell::Words)?)?;
        }
        "edits" => {
            let text = edits::edited(alloc, text_of(Form::of(name)?), which)?;
            print!(rt; "{}", text.as_str())?;
        }
        "long" => {
            let (_, text) = long::text_called(alloc, name, which as usize)?;
            print!(rt; "{}", text.as_str())?;
        }
        _ => return Err(Unwell::Words),
    }
    Ok(())
}

fn word_at(words: &[String], place: usize) -> Result<&str, Unwell> {
    match words.get(place) {
        Some(word) => Ok(word.as_str()),
        None => Err(Unwell::Words),
    }
}

fn number_at(words: &[String], place: usize) -> Result<u64, Unwell> {
    word_at(words, place)?.parse().ok().ok_or(Unwell::Words)
}

/// `prefixes FORM EVERY`, `edits FORM SEED MANY`, `long NAME MANY TIMES`, or `text` with `prefixes FORM END`, `edits FORM SEED` or `long NAME MANY`.
fn run<R: Clock + Print>(rt: &R, alloc: Global, words: &[String]) -> Result<(), Unwell> {
    let name = word_at(words, 2)?;
    let mut tally = Tally::NOTHING;
    match word_at(words, 1)? {
        "prefixes" => {
            let every = number_at(words, 3)?.max(1);
            read_prefixes(rt, alloc, Form::of(name)?, every, &mut tally)
        }
        "edits" => {
            let seeds = (number_at(words, 3)?, number_at(words, 4)?);
            read_edits(rt, alloc, Form::of(name)?, seeds, &mut tally)
        }
        "long" => read_long(rt, alloc, name, (number_at(words, 3)?, number_at(words, 4)?)),
        "text" => write_text(rt, alloc, name, word_at(words, 3)?, number_at(words, 4)?),
        _ => Err(Unwell::Words),
    }
}

/// The words that the process was given.
fn words_of<R: Env + AllocGlobal>(rt: &R) -> Option<Vec<String>> {
    let args = env::args(rt).ok()?;
    let words: Result<Vec<String>, AllocError> = args.collect(rt.alloc());
    words.ok()
}

fn main(rt: HostRuntime) -> ExitCode {
    let Some(words) = words_of(&rt) else {
        return ExitCode::from(70);
    };
    match run(&rt, rt.alloc(), words.as_slice()) {
        Ok(()) => ExitCode::from(0),
        Err(fault) => {
            let _ = eprintln!(rt; "{fault:?}");
            ExitCode::from(70)
        }
    }
}
