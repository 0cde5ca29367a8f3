//! Random honest schedules: whatever the lab takes, the phase stands on the records at every event.
mod asked;
mod course;
mod dice;
mod drawn;
mod lan;
mod long_asset;
mod others;
mod premise;
mod settings;
mod steps;
mod story;
mod tally;
mod told;

use std::alloc::Global;
use std::io::Print;
use std::process::Abort;
use std::test::Fail;
use story::{expect_schedule, tell};
use tally::Tally;

/// How many schedules a whole portion has. A smaller one may show less than what is counted below.
const WHOLE: u64 = 250;

/// What is counted, how often it was shown, and how often a whole portion shows it at least.
fn counts(tally: &Tally) -> [(&'static str, u64, u64); 31] {
    [
        ("schedules", tally.schedules, WHOLE),
        ("events", tally.events, 6000),
        ("frames to the port", tally.to_port, 1000),
        ("frames to the manager", tally.to_manager, 1500),
        ("frames on SMBus", tally.on_smbus, 600),
        ("repeats", tally.repeated, 800),
        ("late copies", tally.late, 150),
        ("losses", tally.lost, 300),
        ("calls of quiet", tally.quiets, 400),
        ("calls of again", tally.agains, 80),
        ("requests of others", tally.others, 600),
        ("noises", tally.noises, 200),
        ("windows forgotten", tally.idles, 150),
        ("readings and ticks", tally.benches, 600),
        ("events not taken", tally.refused, 40),
        ("Unsettled", tally.unsettled, 80),
        ("Done", tally.done, 120),
        ("Undone", tally.undone, 200),
        ("events after Undone", tally.after_undone, 800),
        ("undone halts", tally.undone_halts, 15),
        ("Stop", tally.stops, 4),
        ("GetRefused", tally.gets_refused, 5),
        ("Refused", tally.sets_refused, 4),
        ("NotRestorable", tally.not_restorable, 4),
        ("Sets in parts that were acknowledged", tally.sets_in_parts, 20),
        ("undos in parts that were acknowledged", tally.undos_in_parts, 3),
        ("packets of the manager that joined others", tally.joined, 200),
        ("schedules that broke the premise on packets", tally.broken, 1),
        ("schedules that make_schedule drew", tally.drawn, WHOLE / 4),
        ("packets that joined others in these", tally.drawn_joined, 100),
        ("restarts of the manager", tally.restarts, 100),
    ]
}

/// Each of what schedules are to show was shown often enough for a whole portion.
fn expect_often(rt: &impl Abort, tally: &Tally) {
    for (name, count, least) in counts(tally) {
        assert!(rt; count >= least, "{name}: {count}");
    }
}

/// Plays so many schedules, the first from this seed, and says how often each thing was shown.
fn expect_portion(
    rt: &(impl Abort + Print),
    alloc: Global,
    first: u64,
    many: u64,
) -> Result<(), Fail> {
    let mut tally = Tally::NOTHING;
    for place in 0..many {
        expect_schedule(rt, alloc, first.wrapping_add(place), &mut tally)?;
    }
    for (name, count, _) in counts(&tally) {
        println!(rt; "counted {count} {name}")?;
    }
    if many == WHOLE {
        expect_often(rt, &tally);
    }
    Ok(())
}

/// Says the story of the schedule from this seed.
fn expect_story(rt: &impl Print, alloc: Global, seed: u64) -> Result<(), Fail> {
    let text = tell(alloc, seed)?;
    println!(rt; "{text}")?;
    Ok(())
}
