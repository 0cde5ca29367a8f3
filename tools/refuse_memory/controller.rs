//! What a board and its ports are opened by.
use super::called::{Unwell, call_twice, digits, some};
use bios_attr::{BiosTable, Tables};
use bmc_board::{Board, Records};
use bmc_core::{At, Out, Port};
use cfg_records::{Asked, BoardFile, Key, PackedStore, PlainStore, Store, Value, sample_board};
use mctp_net::{Assembler, EndpointId, read_packet};
use record_base::net_fn;
use sel_log::Sel;
use sensor_recs::Sdr;
use std::alloc::{AllocError, Global};
use std::io::Print;
use two_wire::{Address, Bus, NetFn};

/// Get Device ID, from 2Ch.
pub const GET_DEVICE_ID: &[u8] = &[0x20, 0x18, 0xC8, 0x2C, 0x00, 0x01, 0xD3];

/// GetTID, from the endpoint 08h.
pub const GET_TID: &[u8] = &[0x20, 0x0F, 0x09, 0x31, 0x01, 0x0A, 0x08, 0xC8, 0x01, 0x80, 0x00, 0x02, 0xBE];

pub fn place() -> Result<At, Unwell> {
    Ok(At {
        wire: some(Address::new(0x20))?,
        eid: some(EndpointId::new(0x0A))?,
    })
}

pub fn assembler<R: Print>(rt: &R, alloc: Global) -> Result<(), Unwell> {
    call_twice(
        rt,
        || Assembler::new(alloc),
        |mut assembler| {
            let packet = some(read_packet(GET_TID).ok())?;
            let taken = assembler.take(0x0A, &packet);
            Ok(format!(in alloc; "{taken:?}")?)
        },
    )
}

/// What a fresh sample board's port sends for a frame.
fn sent_by(alloc: Global, mut port: Port, frame: &[u8]) -> Result<String, Unwell> {
    let mut board = open_sample(alloc)?;
    let mut out = Out::new();
    port.on_frame(&mut board, frame, &mut out);
    match out.frames.as_slice() {
        [frame] => digits(alloc, frame.as_slice()),
        _ => Err(Unwell::Input),
    }
}

pub fn ipmb_port<R: Print>(rt: &R, alloc: Global) -> Result<(), Unwell> {
    let at = place()?;
    call_twice(
        rt,
        || Port::new(alloc, Bus::Ipmb, at),
        |port| sent_by(alloc, port, GET_DEVICE_ID),
    )
}

pub fn smbus_port<R: Print>(rt: &R, alloc: Global) -> Result<(), Unwell> {
    let at = place()?;
    call_twice(
        rt,
        || Port::new(alloc, Bus::Smbus, at),
        |port| sent_by(alloc, port, GET_TID),
    )
}

pub fn sample<R: Print>(rt: &R, alloc: Global) -> Result<(), Unwell> {
    call_twice(
        rt,
        || sample_board(alloc),
        |file| show_file(alloc, &file),
    )
}

/// What is shown of a board file.
pub fn show_file(alloc: Global, file: &BoardFile) -> Result<String, Unwell> {
    let sensors = file.sensors.items.as_slice().len();
    Ok(format!(in alloc; "tid {} sensors {sensors}", file.tid)?)
}

/// The record that is shown of stores and lists.
const SHOWN: Key = Key::Thresholds(5);

pub fn records<R: Print>(rt: &R, alloc: Global) -> Result<(), Unwell> {
    let file = sample_board(alloc)?;
    call_twice(
        rt,
        || file.records(alloc),
        |pairs| {
            for (key, value) in pairs.as_slice() {
                if *key == SHOWN {
                    return digits(alloc, value.as_slice());
                }
            }
            Err(Unwell::Input)
        },
    )
}

/// What a store keeps of the record that is shown.
fn kept_in<S: Store>(alloc: Global, store: &S) -> Result<String, Unwell> {
    digits(alloc, some(store.get(&SHOWN))?)
}

pub fn plain_store<R: Print>(rt: &R, alloc: Global) -> Result<(), Unwell> {
    let pairs = sample_board(alloc)?.records(alloc)?;
    call_twice(
        rt,
        || PlainStore::new(alloc, pairs.as_slice()),
        |store| kept_in(alloc, &store),
    )
}

pub fn packed_store<R: Print>(rt: &R, alloc: Global) -> Result<(), Unwell> {
    let pairs = sample_board(alloc)?.records(alloc)?;
    call_twice(
        rt,
        || PackedStore::new(alloc, pairs.as_slice()),
        |store| kept_in(alloc, &store),
    )
}

pub fn open_sample(alloc: Global) -> Result<Board<Records>, AllocError> {
    Board::of_file(alloc, sample_board(alloc)?)
}

/// What a board answers to Get Device ID.
pub fn answer_of<S: Store>(alloc: Global, board: &mut Board<S>) -> Result<String, Unwell> {
    let answered = board.answer(&Asked::ipmi(NetFn::new(net_fn::APPLICATION), 0x01, &[]));
    digits(alloc, answered.body.as_slice())
}

pub fn board<R: Print>(rt: &R, alloc: Global) -> Result<(), Unwell> {
    let mut made: Vec<(BoardFile, PackedStore)> = Vec::new(alloc);
    for _ in 0..2 {
        let file = sample_board(alloc)?;
        let store = PackedStore::of_file(alloc, &file)?;
        made.push((file, store)).map_err(AllocError::from)?;
    }
    call_twice(
        rt,
        || match made.pop() {
            Some((file, store)) => Board::open(alloc, file, store),
            None => Err(AllocError),
        },
        |mut board| answer_of(alloc, &mut board),
    )
}

pub fn tables<R: Print>(rt: &R, alloc: Global) -> Result<(), Unwell> {
    let file = sample_board(alloc)?;
    call_twice(
        rt,
        || Tables::open(alloc, &file.attributes),
        |tables| {
            let part = tables.part(BiosTable::Strings, 0x01, 0).ok();
            let part = some(part)?;
            digits(alloc, part.bytes.split_at(16).0)
        },
    )
}

pub fn sdr<R: Print>(rt: &R, alloc: Global) -> Result<(), Unwell> {
    let file = sample_board(alloc)?;
    call_twice(
        rt,
        || Sdr::new(alloc, &file.sdr),
        |sdr| Ok(format!(in alloc; "records {}", sdr.count())?),
    )
}

pub fn sel<R: Print>(rt: &R, alloc: Global) -> Result<(), Unwell> {
    call_twice(
        rt,
        || Sel::new(alloc, 2),
        |mut sel| {
            let reserved = sel.reserve();
            Ok(format!(in alloc; "reserved {reserved}")?)
        },
    )
}
