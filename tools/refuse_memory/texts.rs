//! What reads and writes texts.
use super::called::{Unwell, call_twice, some};
use super::controller::{GET_DEVICE_ID, show_file};
use super::files::{PLAN, SAMPLE, SCHEDULE};
use super::manager::list;
use app_base::Console;
use bmc_lab::frame_run;
use app_play::play_run;
use plan_file::read_plan;
use std::alloc::{AllocError, Global};
use std::io::{self, Print};
use text_board::read_board;
use app_serve::read_readings;
use text_lines::{read_schedule, read_undo, write_undo};
use two_wire::Bus;

/// The undo text of two steps on one sensor, both of which were taken.
pub const UNDO: &str = "undo 2\nnext ipmb 4 smbus 0\nnames ipmb 2C 20 smbus 30 20 eid 08 0A\nipmb 10260530000000005A6E\nipmb 10260518000000505F00\n";

pub fn board<R: Print>(rt: &R, alloc: Global) -> Result<(), Unwell> {
    call_twice(
        rt,
        || read_board(alloc, SAMPLE),
        |file| show_file(alloc, &file),
    )
}

pub fn plan<R: Print>(rt: &R, alloc: Global) -> Result<(), Unwell> {
    call_twice(
        rt,
        || read_plan(alloc, PLAN),
        |plan| {
            let steps = plan.steps.len();
            Ok(format!(in alloc; "steps {steps} retries {}", plan.retries.number())?)
        },
    )
}

pub fn schedule<R: Print>(rt: &R, alloc: Global) -> Result<(), Unwell> {
    call_twice(
        rt,
        || read_schedule(alloc, SCHEDULE),
        |events| Ok(format!(in alloc; "events {}", events.as_slice().len())?),
    )
}

/// Three readings, one a line.
const READINGS: &str = "0 scan 05 55\n20 tick\n40 chassis 01\n";

pub fn readings<R: Print>(rt: &R, alloc: Global) -> Result<(), Unwell> {
    call_twice(
        rt,
        || read_readings(alloc, READINGS),
        |list| Ok(format!(in alloc; "events {}", list.as_slice().len())?),
    )
}

pub fn undo<R: Print>(rt: &R, alloc: Global) -> Result<(), Unwell> {
    call_twice(
        rt,
        || read_undo(alloc, UNDO),
        |list| {
            let next = list.next.ipmb.number();
            Ok(format!(in alloc; "requests {} next {next}", list.requests.len())?)
        },
    )
}

pub fn written_undo<R: Print>(rt: &R, alloc: Global) -> Result<(), Unwell> {
    let list = list(alloc)?;
    call_twice(
        rt,
        || write_undo(alloc, &list),
        |text| Ok(format!(in alloc; "{:?}", text.as_str())?),
    )
}

/// A writer whose room is there before it is written to.
#[derive(Drop)]
pub struct Sheet {
    text: Vec<u8>,
    room: usize,
}

impl Sheet {
    pub fn new(alloc: Global, room: usize) -> Result<Sheet, Unwell> {
        let text = some(Vec::with_capacity(alloc, room).ok())?;
        Ok(Sheet { text, room })
    }
}

impl io::Write for Sheet {
    fn write(&mut self, buf: &[u8]) -> io::Result<usize> {
        for byte in buf {
            if self.text.len() >= self.room {
                return Err(io::Error::from(io::ErrorKind::StorageFull));
            }
            self.text.push_reserved(*byte);
        }
        Ok(buf.len())
    }

    fn flush(&mut self) -> io::Result<()> {
        Ok(())
    }
}

/// The writers of a run.
type Paper = Console<Sheet, Sheet>;

/// Two papers, whose room is there.
fn two_papers(alloc: Global) -> Result<Vec<Paper>, Unwell> {
    let mut papers = Vec::new(alloc);
    for _ in 0..2 {
        papers.push(Console::new(Sheet::new(alloc, 1000)?, Sheet::new(alloc, 1000)?)).map_err(AllocError::from)?;
    }
    Ok(papers)
}

/// A run that has no paper, or that gives a status, with what it wrote.
type Ran = Result<(u8, Paper), &'static str>;

/// What a run wrote to both streams, and its status.
fn show_run(alloc: Global, (status, paper): (u8, Paper)) -> Result<String, Unwell> {
    let out = some(std::str::from_utf8(paper.out.text.as_slice()).ok())?;
    let err = some(std::str::from_utf8(paper.err.text.as_slice()).ok())?;
    Ok(format!(in alloc; "{out:?} {err:?} {status}")?)
}

/// A run on the next paper.
fn ran(papers: &mut Vec<Paper>, run: impl Fn(&mut Paper) -> u8) -> Ran {
    let Some(mut paper) = papers.pop() else {
        return Err("no paper");
    };
    let status = run(&mut paper);
    Ok((status, paper))
}

pub fn frame<R: Print>(rt: &R, alloc: Global) -> Result<(), Unwell> {
    let mut papers = two_papers(alloc)?;
    call_twice(
        rt,
        || ran(&mut papers, |paper| frame_run(alloc, Bus::Ipmb, None, GET_DEVICE_ID, paper)),
        |told| show_run(alloc, told),
    )
}

pub fn play<R: Print>(rt: &R, alloc: Global) -> Result<(), Unwell> {
    let mut papers = two_papers(alloc)?;
    call_twice(
        rt,
        || {
            ran(&mut papers, |paper| {
                play_run(alloc, false, false, SAMPLE, PLAN, SCHEDULE, paper)
            })
        },
        |told| show_run(alloc, told),
    )
}
