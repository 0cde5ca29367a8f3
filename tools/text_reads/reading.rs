//! What is read, and how long that takes.
use plan_file::{PlanFault, read_plan};
use std::alloc::{AllocError, Global};
use std::io::{self, Print};
use std::time::{Clock, Instant};
use text_board::{FileFault, read_board};
use text_journal::{JournalTextFault, read_journal};
use text_lines::{ScheduleFault, UndoFault, read_schedule, read_undo};

/// Why nothing is told.
#[derive(Clone, Copy, Debug, PartialEq, Eq)]
pub enum Unwell {
    /// The words ask for nothing.
    Words,
    /// No text can be made, for want of memory.
    Text,
    /// A reader was refused memory, or answered so.
    Memory,
    /// There is no clock, or nowhere to write.
    Host,
}

impl From<AllocError> for Unwell {
    fn from(_: AllocError) -> Unwell {
        Unwell::Text
    }
}

impl From<io::Error> for Unwell {
    fn from(_: io::Error) -> Unwell {
        Unwell::Host
    }
}

/// What a text is read as.
#[derive(Clone, Copy, Debug, PartialEq, Eq)]
pub enum Form {
    Board,
    Plan,
    Undo,
    Journal,
    Schedule,
    /// A tree of TOML, by the kit's crate alone.
    Tree,
}

impl Form {
    pub fn of(word: &str) -> Result<Form, Unwell> {
        Ok(match word {
            "board" => Form::Board,
            "plan" => Form::Plan,
            "undo" => Form::Undo,
            "journal" => Form::Journal,
            "schedule" => Form::Schedule,
            "tree" => Form::Tree,
            _ => return Err(Unwell::Words),
        })
    }
}

fn board(alloc: Global, text: &str) -> Result<bool, Unwell> {
    match read_board(alloc, text) {
        Ok(_) => Ok(true),
        Err(FileFault::Memory) => Err(Unwell::Memory),
        Err(_) => Ok(false),
    }
}

fn plan(alloc: Global, text: &str) -> Result<bool, Unwell> {
    match read_plan(alloc, text) {
        Ok(_) => Ok(true),
        Err(PlanFault::Memory) => Err(Unwell::Memory),
        Err(_) => Ok(false),
    }
}

fn undo(alloc: Global, text: &str) -> Result<bool, Unwell> {
    match read_undo(alloc, text) {
        Ok(_) => Ok(true),
        Err(UndoFault::Memory) => Err(Unwell::Memory),
        Err(_) => Ok(false),
    }
}

fn journal(alloc: Global, text: &str) -> Result<bool, Unwell> {
    match read_journal(alloc, text) {
        Ok(_) => Ok(true),
        Err(JournalTextFault::Memory) => Err(Unwell::Memory),
        Err(_) => Ok(false),
    }
}

fn schedule(alloc: Global, text: &str) -> Result<bool, Unwell> {
    match read_schedule(alloc, text) {
        Ok(_) => Ok(true),
        Err(ScheduleFault::Memory) => Err(Unwell::Memory),
        Err(_) => Ok(false),
    }
}

fn tree(alloc: Global, text: &str) -> Result<bool, Unwell> {
    match toml::table_from_str(alloc, text) {
        Ok(_) => Ok(true),
        Err(error) if error.is_memory() => Err(Unwell::Memory),
        Err(_) => Ok(false),
    }
}

/// Whether the text is read as a value, and not refused for a fault.
pub fn is_read(alloc: Global, form: Form, text: &str) -> Result<bool, Unwell> {
    match form {
        Form::Board => board(alloc, text),
        Form::Plan => plan(alloc, text),
        Form::Undo => undo(alloc, text),
        Form::Journal => journal(alloc, text),
        Form::Schedule => schedule(alloc, text),
        Form::Tree => tree(alloc, text),
    }
}

/// The same, with how many nanoseconds it took.
pub fn read_timed<C: Clock>(
    clock: &C,
    alloc: Global,
    form: Form,
    text: &str,
) -> Result<(u64, bool), Unwell> {
    let start = Instant::now(clock)?;
    let read = is_read(alloc, form, text)?;
    let taken = start.elapsed(clock)?;
    Ok((taken.as_nanos() as u64, read))
}

/// How many texts were read as values and how many had a fault, how many bytes the longest had, how long the slowest took, and which that was.
#[derive(Clone, Copy, Debug)]
pub struct Tally {
    values: u64,
    faults: u64,
    bytes: usize,
    slowest: u64,
    of: usize,
    /// The number of the slowest: its seed, or where the prefix ends.
    which: u64,
}

impl Tally {
    pub const NOTHING: Tally = Tally {
        values: 0,
        faults: 0,
        bytes: 0,
        slowest: 0,
        of: 0,
        which: 0,
    };

    /// The text of this number, with so many bytes, was read in so many nanoseconds.
    pub fn count(&mut self, (nanos, read): (u64, bool), bytes: usize, which: u64) {
        if read {
            self.values = self.values.wrapping_add(1);
        } else {
            self.faults = self.faults.wrapping_add(1);
        }
        self.bytes = self.bytes.max(bytes);
        if nanos > self.slowest {
            self.slowest = nanos;
            self.of = bytes;
            self.which = which;
        }
    }

    pub fn tell<R: Print>(&self, rt: &R) -> Result<(), Unwell> {
        println!(rt; "{} {} {} {}", self.values, self.faults, self.bytes, self.slowest)?;
        println!(rt; "{} {}", self.of, self.which)?;
        Ok(())
    }
}
