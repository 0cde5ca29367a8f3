//! The codes of replies, and the board that is asked for all that a board can be asked for.
use super::asked::BOARD;
use super::called::{Unwell, some};
use bmc_board::{Board, Records};
use std::alloc::Global;
use std::io::Print;
use text_board::read_board;
use two_wire::{Bus, Frame};

/// How many codes are noted at most.
const MOST: usize = 128;

/// The codes of replies, in the order in which these were sent. The room is taken when this is made.
#[derive(Drop)]
pub struct Codes {
    codes: Vec<u8>,
}

/// The code in the frame with which a reply begins.
fn code_in(bus: Bus, frame: &[u8]) -> Option<u8> {
    match (bus, frame) {
        (Bus::Ipmb, [_, _, _, _, _, _, code, ..]) => Some(*code),
        (Bus::Smbus, [_, _, _, _, _, _, _, flags, _, _, _, _, code, ..]) if flags & 0x80 != 0 => {
            Some(*code)
        }
        _ => None,
    }
}

impl Codes {
    pub fn new(alloc: Global) -> Result<Codes, Unwell> {
        let codes = some(Vec::with_capacity(alloc, MOST).ok())?;
        Ok(Codes { codes })
    }

    /// Notes the codes of the replies that begin among these frames.
    pub fn note(&mut self, bus: Bus, frames: &[Frame]) {
        for frame in frames {
            if let Some(code) = code_in(bus, frame.as_slice()) {
                if self.codes.len() < MOST {
                    self.codes.push_reserved(code);
                }
            }
        }
    }

    /// Prints each in two hexadecimal digits, and the end of the line, without memory.
    pub fn print<R: Print>(&self, rt: &R) -> Result<(), Unwell> {
        for code in self.codes.as_slice() {
            print!(rt; "{code:02X}")?;
        }
        println!(rt; "")?;
        Ok(())
    }
}

/// A board with LAN parameters, effecters, and a text of up to 1,024 bytes.
pub fn open_board(alloc: Global) -> Result<Board<Records>, Unwell> {
    let file = some(read_board(alloc, BOARD).ok())?;
    Ok(Board::of_file(alloc, file)?)
}
