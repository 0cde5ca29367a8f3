//! Calls that take memory, each of which a word names, and calls that take none. tools/refuse-memory adds this program to a copy of the
//! tree, and refuses its allocations.
#![tactic(auto)]

mod asked;
mod called;
mod codes;
mod controller;
mod files;
mod manager;
mod serving;
mod shared;
mod sharing;
mod texts;

use called::Unwell;
use std::alloc::Global;
use std::env;
use std::io::Print;
use std::process::ExitCode;

/// Has the call that is called so made twice.
fn call<R: Print>(rt: &R, alloc: Global, name: &str) -> Result<(), Unwell> {
    match name {
        "Assembler::new" => controller::assembler(rt, alloc),
        "Port::new, IPMB" => controller::ipmb_port(rt, alloc),
        "Port::new, SMBus" => controller::smbus_port(rt, alloc),
        "sample_board" => controller::sample(rt, alloc),
        "BoardFile::records" => controller::records(rt, alloc),
        "PlainStore::new" => controller::plain_store(rt, alloc),
        "PackedStore::new" => controller::packed_store(rt, alloc),
        "Board::open" => controller::board(rt, alloc),
        "Tables::open" => controller::tables(rt, alloc),
        "Sdr::new" => controller::sdr(rt, alloc),
        "Sel::new" => controller::sel(rt, alloc),
        "read_board" => texts::board(rt, alloc),
        "read_plan" => texts::plan(rt, alloc),
        "read_schedule" => texts::schedule(rt, alloc),
        "read_readings" => texts::readings(rt, alloc),
        "read_undo" => texts::undo(rt, alloc),
        "write_undo" => texts::written_undo(rt, alloc),
        "Manager::open" => manager::opened(rt, alloc),
        "Manager::resume" => manager::resumed(rt, alloc),
        "play" => manager::played(rt, alloc),
        "frame_run" => texts::frame(rt, alloc),
        "play_run" => texts::play(rt, alloc),
        "MemLink::new" => shared::link(rt, alloc),
        "Held::open" => shared::held(rt, alloc),
        "Shared::open" => shared::shared(rt, alloc),
        _ => Err(Unwell::Input),
    }
}

fn main(rt: HostRuntime) -> ExitCode {
    let alloc = rt.alloc();
    let word: Option<String> = match env::args(&rt) {
        Ok(mut args) => args.nth(1),
        Err(_) => None,
    };
    let ran = match word.as_ref().map(|word| word.as_str()) {
        Some("run_two") => shared::two(&rt, alloc),
        Some("serving") => serving::serve(&rt, alloc),
        Some("serving, shared") => sharing::serve(&rt, alloc),
        Some(name) => call(&rt, alloc, name),
        None => Err(Unwell::Input),
    };
    match ran {
        Ok(()) => ExitCode::from(0),
        Err(_) => ExitCode::from(70),
    }
}
