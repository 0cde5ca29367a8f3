//! How often what happened in the schedules that were played.
use lab_run::Fault;
use model_undo::Call;
use text_lines::Event;
use undo_core::{Phase, Why};

/// Counts of events that were taken, of phases that were entered, and of what became of frames.
#[derive(Clone, Copy)]
pub(super) struct Tally {
    pub schedules: u64,
    pub events: u64,
    pub refused: u64,
    pub to_port: u64,
    pub to_manager: u64,
    pub repeated: u64,
    pub late: u64,
    pub lost: u64,
    pub on_smbus: u64,
    pub quiets: u64,
    pub agains: u64,
    pub others: u64,
    pub noises: u64,
    pub idles: u64,
    pub benches: u64,
    pub unsettled: u64,
    pub done: u64,
    pub undone: u64,
    pub after_undone: u64,
    pub undone_halts: u64,
    pub stops: u64,
    pub gets_refused: u64,
    pub sets_refused: u64,
    pub not_restorable: u64,
    pub sets_in_parts: u64,
    pub undos_in_parts: u64,
    pub joined: u64,
    pub broken: u64,
    pub drawn: u64,
    pub drawn_joined: u64,
    pub restarts: u64,
}

/// Counts one more.
pub(super) fn one_more(count: &mut u64) {
    *count = count.wrapping_add(1);
}

impl Tally {
    /// Nothing was played.
    pub const NOTHING: Tally = Tally {
        schedules: 0,
        events: 0,
        refused: 0,
        to_port: 0,
        to_manager: 0,
        repeated: 0,
        late: 0,
        lost: 0,
        on_smbus: 0,
        quiets: 0,
        agains: 0,
        others: 0,
        noises: 0,
        idles: 0,
        benches: 0,
        unsettled: 0,
        done: 0,
        undone: 0,
        after_undone: 0,
        undone_halts: 0,
        stops: 0,
        gets_refused: 0,
        sets_refused: 0,
        not_restorable: 0,
        sets_in_parts: 0,
        undos_in_parts: 0,
        joined: 0,
        broken: 0,
        drawn: 0,
        drawn_joined: 0,
        restarts: 0,
    };

    /// An event was taken.
    pub fn event(&mut self, event: &Event) {
        one_more(&mut self.events);
        match event {
            Event::Calls(Call::Quiet) => one_more(&mut self.quiets),
            Event::Calls(Call::Again) => one_more(&mut self.agains),
            Event::Calls(_) => {}
            Event::ToBmc(_) => one_more(&mut self.to_port),
            Event::ToMgr(_) => one_more(&mut self.to_manager),
            Event::OtherIpmb(_) | Event::OtherSmbus(_) => one_more(&mut self.others),
            Event::Noise(..) => one_more(&mut self.noises),
            Event::Idle(..) => one_more(&mut self.idles),
            Event::OnBench(_) => one_more(&mut self.benches),
        }
    }

    /// A schedule that was drawn ended, in which so many packets joined others.
    pub fn drawn_end(&mut self, joined: u64) {
        one_more(&mut self.drawn);
        self.drawn_joined = self.drawn_joined.wrapping_add(joined);
    }

    /// A phase was entered from another.
    pub fn phase(&mut self, from: &Phase, to: &Phase) {
        match to {
            Phase::Unsettled(_) => one_more(&mut self.unsettled),
            Phase::Done => one_more(&mut self.done),
            Phase::Undone => one_more(&mut self.undone),
            Phase::Undoing(_) => {
                if let Phase::Halted(..) = from {
                    one_more(&mut self.undone_halts);
                }
            }
            Phase::Halted(_, why) => match why {
                Why::Stop => one_more(&mut self.stops),
                Why::Refused(_) => one_more(&mut self.sets_refused),
                Why::NotRestorable => one_more(&mut self.not_restorable),
                Why::GetRefused(_) => one_more(&mut self.gets_refused),
            },
            _ => {}
        }
    }
}

/// Whether an event that a schedule offered may have this fault: all others would be a fault of the generator.
pub(super) fn may_be_offered(fault: &Fault) -> bool {
    matches!(fault, Fault::Aged | Fault::StillOpen)
}
