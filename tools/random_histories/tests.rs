//! Random runs of two workers and a scanner: each is closed, and a second board answers its history as the first did.
mod asked;
mod dice;
mod expected;
mod fault;
mod gate;
mod long_asset;
mod scripts;
mod sharing;
mod tally;

use dice::Dice;
use expected::{expect_sent, expect_told};
use fault::NotMade;
use scripts::any_script;
use sharing::{Ports, share_sample};
use std::alloc::Global;
use std::io::Print;
use std::process::Abort;
use std::sync::Wait;
use std::test::Fail;
use std::thread;
use std::thread::Threads;
use tally::{Tally, expect_often};

/// Of so many runs one is made by `run_two`, over ports of its own.
const OWN_OF: u64 = 8;

/// Ports that are lent to runs: those of the workers, and those that get what the history has.
#[derive(Drop)]
struct Lent {
    worked: Ports,
    told: Ports,
}

/// Makes the run of this seed, and counts what it showed.
fn expect_run<R: Abort + Threads + Wait + Sync>(
    rt: &R,
    alloc: Global,
    lent: &mut Lent,
    seed: u64,
    tally: &mut Tally,
) -> Result<(), NotMade> {
    let mut dice = Dice::new(seed);
    let script = any_script(alloc, &mut dice)?;
    let is_own = seed % OWN_OF == 0;
    let worked = if is_own {
        None
    } else {
        Some(&mut lent.worked)
    };
    let mut told = share_sample(rt, alloc, worked, &script, seed)?;
    expect_told(rt, alloc, seed, &script, &mut told)?;
    expect_sent(rt, alloc, &mut lent.told, seed, &script, &told)?;
    lent.worked.forget();
    lent.told.forget();
    tally.own += u64::from(is_own);
    tally.count(&told);
    Ok(())
}

/// Makes so many runs, of each `step`th seed from this one on.
fn make_share<R: Abort + Threads + Wait + Sync>(
    rt: &R,
    alloc: Global,
    first: u64,
    many: u64,
    step: u64,
) -> Result<Tally, NotMade> {
    let mut lent = Lent {
        worked: Ports::new(alloc)?,
        told: Ports::new(alloc)?,
    };
    let mut tally = Tally::NOTHING;
    for place in 0..many {
        let seed = first.wrapping_add(place.wrapping_mul(step));
        if let Err(NotMade(what)) = expect_run(rt, alloc, &mut lent, seed, &mut tally) {
            assert!(rt; false, "seed {seed}: {what}");
        }
    }
    Ok(tally)
}

/// Makes so many runs, the first of this seed, so many at a time, and says how often each thing was shown.
fn expect_runs<R: Abort + Print + Threads + Wait + Sync>(
    rt: &R,
    alloc: Global,
    first: u64,
    many: u64,
    jobs: u64,
) -> Result<(), Fail> {
    let share = |job: usize| -> Result<Tally, NotMade> {
        let job = job as u64;
        let mine = many / jobs + u64::from(job < many % jobs);
        make_share(rt, alloc, first.wrapping_add(job), mine, jobs)
    };
    let mut all = Tally::NOTHING;
    for tally in thread::map_indices(rt, alloc, jobs as usize, &share)? {
        match tally {
            Ok(tally) => all.add(&tally),
            Err(NotMade(what)) => return Err(what.into()),
        }
    }
    for (name, count, _) in all.counts() {
        println!(rt; "counted {count} {name}")?;
    }
    expect_often(rt, &all);
    Ok(())
}
