//! Texts that were edited at random.
use super::dice::Dice;
use super::reading::Unwell;
use std::alloc::{AllocError, Global};

/// How many bytes the longest line has that is put into a text.
const LONG: usize = 10_000_000;

/// How deep brackets are nested.
const DEEP: usize = 10_000;

/// Of how many seeds one gets such a line, and of how many one gets such brackets.
const A_LINE: u64 = 25_000;
const BRACKETS: u64 = 200;

/// A place in the bytes, or behind them.
fn place_in(dice: &mut Dice, bytes: &[u8]) -> usize {
    dice.below(bytes.len() as u64 + 1) as usize
}

/// Puts bytes at a place.
fn insert(alloc: Global, bytes: &mut Vec<u8>, place: usize, more: &[u8]) -> Result<(), AllocError> {
    let mut made = Vec::new(alloc);
    let (head, rest) = bytes.as_slice().split_at(place);
    made.extend_from_slice(head)?;
    made.extend_from_slice(more)?;
    made.extend_from_slice(rest)?;
    *bytes = made;
    Ok(())
}

/// A few bytes become others, mostly those that texts are written with.
fn change_bytes(dice: &mut Dice, bytes: &mut Vec<u8>) {
    const WRITTEN: &[u8] = b" \n\t\"'=[]{}#.,-+_0123456789abcdefxABCDEFtruesmbipn\\\r\0";
    for _ in 0..=dice.below(4) {
        let place = place_in(dice, bytes.as_slice());
        let new = match dice.below(8) {
            0 => dice.below(128) as u8,
            _ => WRITTEN[dice.below(WRITTEN.len() as u64) as usize],
        };
        if let Some(byte) = bytes.get_mut(place) {
            *byte = new;
        }
    }
}

/// A few bytes go.
fn remove_bytes(alloc: Global, dice: &mut Dice, bytes: &mut Vec<u8>) -> Result<(), AllocError> {
    let from = place_in(dice, bytes.as_slice());
    let to = (from + dice.below(40) as usize).min(bytes.len());
    let mut made = Vec::new(alloc);
    made.extend_from_slice(bytes.as_slice().split_at(from).0)?;
    made.extend_from_slice(bytes.as_slice().split_at(to).1)?;
    *bytes = made;
    Ok(())
}

/// Two lines take each other's place, or one is said again.
fn swap_lines(alloc: Global, dice: &mut Dice, bytes: &mut Vec<u8>) -> Result<(), AllocError> {
    let mut lines: Vec<Vec<u8>> = Vec::new(alloc);
    for line in bytes.as_slice().split(|byte| *byte == b'\n') {
        let mut own = Vec::new(alloc);
        own.extend_from_slice(line)?;
        lines.push(own).map_err(AllocError::from)?;
    }
    let (one, other) = (dice.below(lines.len() as u64), dice.below(lines.len() as u64));
    if dice.happens(70) {
        lines.as_mut_slice().swap(one as usize, other as usize);
    } else {
        let mut own = Vec::new(alloc);
        own.extend_from_slice(lines[other as usize].as_slice())?;
        lines[one as usize] = own;
    }
    let mut made = Vec::new(alloc);
    for (number, line) in lines.as_slice().iter().enumerate() {
        if number != 0 {
            made.push(b'\n')?;
        }
        made.extend_from_slice(line.as_slice())?;
    }
    *bytes = made;
    Ok(())
}

/// A number becomes one of twenty digits: digits are put where one stands.
fn lengthen_number(alloc: Global, dice: &mut Dice, bytes: &mut Vec<u8>) -> Result<(), AllocError> {
    let start = place_in(dice, bytes.as_slice());
    let found = bytes.as_slice().split_at(start).1.iter().position(|byte| byte.is_ascii_digit());
    let mut digits = [b'0'; 20];
    for digit in digits.iter_mut() {
        *digit = b'0' + dice.below(10) as u8;
    }
    match found {
        Some(further) => insert(alloc, bytes, start + further, &digits),
        None => insert(alloc, bytes, start, &digits),
    }
}

/// Brackets are nested, opened alone or closed too.
fn nest(alloc: Global, dice: &mut Dice, bytes: &mut Vec<u8>) -> Result<(), AllocError> {
    let (open, close) = match dice.below(2) {
        0 => (b'[', b']'),
        _ => (b'{', b'}'),
    };
    let mut more = Vec::new(alloc);
    if dice.happens(50) {
        more.extend_from_slice(b"\nx = ")?;
    }
    for _ in 0..DEEP {
        more.push(open)?;
    }
    if dice.happens(50) {
        for _ in 0..DEEP {
            more.push(close)?;
        }
    }
    let place = place_in(dice, bytes.as_slice());
    insert(alloc, bytes, place, more.as_slice())
}

/// One line gets ten megabytes of one character.
fn lengthen_line(alloc: Global, dice: &mut Dice, bytes: &mut Vec<u8>) -> Result<(), AllocError> {
    const OF: &[u8] = b"0A \"#[=a\\";
    let byte = OF[dice.below(OF.len() as u64) as usize];
    let mut more = Vec::new(alloc);
    for _ in 0..LONG {
        more.push(byte)?;
    }
    let place = place_in(dice, bytes.as_slice());
    insert(alloc, bytes, place, more.as_slice())
}

/// A character of two, three or four bytes is put somewhere.
fn put_character(alloc: Global, dice: &mut Dice, bytes: &mut Vec<u8>) -> Result<(), AllocError> {
    const OF: [&str; 4] = ["é", "€", "𝄞", "\u{FEFF}"];
    let more = OF[dice.below(4) as usize];
    let place = place_in(dice, bytes.as_slice());
    insert(alloc, bytes, place, more.as_bytes())
}

/// A small edit.
fn edit(alloc: Global, dice: &mut Dice, bytes: &mut Vec<u8>) -> Result<(), AllocError> {
    match dice.below(100) {
        0..=11 => lengthen_number(alloc, dice, bytes),
        12..=19 => put_character(alloc, dice, bytes),
        20..=43 => swap_lines(alloc, dice, bytes),
        44..=57 => remove_bytes(alloc, dice, bytes),
        _ => {
            change_bytes(dice, bytes);
            Ok(())
        }
    }
}

/// A large edit, where the seed's turn has come: a line of ten megabytes, or ten thousand brackets.
fn edit_much(alloc: Global, dice: &mut Dice, bytes: &mut Vec<u8>, seed: u64) -> Result<(), AllocError> {
    if seed % A_LINE == 0 {
        return lengthen_line(alloc, dice, bytes);
    }
    if seed % BRACKETS == 1 {
        return nest(alloc, dice, bytes);
    }
    Ok(())
}

/// The text with one to three small edits, which this seed picks, and now and then a large one. A character that an edit cut in two becomes `?`.
pub fn edited(alloc: Global, text: &str, seed: u64) -> Result<String, Unwell> {
    let mut dice = Dice::new(seed);
    let mut bytes = Vec::new(alloc);
    bytes.extend_from_slice(text.as_bytes())?;
    for _ in 0..=dice.below(3) {
        edit(alloc, &mut dice, &mut bytes)?;
    }
    edit_much(alloc, &mut dice, &mut bytes, seed)?;
    if std::str::from_utf8(bytes.as_slice()).is_err() {
        for byte in bytes.iter_mut() {
            if !byte.is_ascii() {
                *byte = b'?';
            }
        }
    }
    String::from_utf8(bytes).ok().ok_or(Unwell::Text)
}
