//! Which schedules `make_schedule` draws, and how.
use super::dice::Dice;
use lab_play::{Chances, Links, Percent, ScheduleOptions};
use two_wire::Below;

/// Whether the schedule of this seed is drawn by `make_schedule`: each fourth is.
pub(super) fn is_drawn(seed: u64) -> bool {
    seed % 4 == 0
}

/// So many times in a hundred, or fewer.
fn at_most(dice: &mut Dice, percent: u64) -> Percent {
    Below::new(dice.below(1 + percent % 100) as u8)
}

/// A schedule on honest buses, on which a packet may join one that waits too long, and by which the plan is undone.
pub(super) fn any_wanted(dice: &mut Dice) -> ScheduleOptions {
    let chances = Chances {
        lose: at_most(dice, 30),
        repeat: at_most(dice, 30),
        delay: at_most(dice, 50),
        others: at_most(dice, 20),
        seed: u64::from(dice.word()),
        late_joins: true,
    };
    ScheduleOptions {
        links: Links::Drawn(chances),
        undo: true,
    }
}
