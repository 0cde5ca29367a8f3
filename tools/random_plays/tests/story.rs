//! One schedule after another, each made event by event: what comes next depends on the frames that were sent and on the phase.
use super::course::{Course, are_after, changed_by, course_of, found_by, goes_in_parts};
use super::dice::Dice;
use super::drawn::{any_wanted, is_drawn};
use super::others::{idle, noise_of, other_message, other_request, scan};
use super::premise::{Waiting, is_first_of_several};
use super::steps::{Step, any_step, board_with_more, text_in_few_parts, text_of_packets};
use super::tally::{Tally, may_be_offered, one_more};
use super::told::{push_events_of, push_step};
use bmc_board::Records;
use cfg_records::{BoardFile, Key, StartValue, Value, sample_board};
use lab_run::{Lab, SentFrame, Way};
use lab_play::{LabFault, Played, make_schedule, play, play_restarting};
use undo_plans::{Plan, Steps};
use model_undo::Call;
use text_lines::{BenchEvent, Event};
use std::alloc::Global;
use std::process::Abort;
use std::test::Fail;
use two_wire::{Bus, Retries};
use undo_core::{Phase, Why};

/// How many events are offered in a schedule at most.
const MOST_EVENTS: usize = 160;

/// How many events are offered once the plan is undone.
const MOST_LATER: u64 = 6;

/// A plan on a board, and whether there are more others than ports have windows.
#[derive(Drop)]
struct Scene {
    steps: Vec<Step>,
    retries: Retries,
    has_more: bool,
    is_crowded: bool,
    /// Its steps are long texts, and first packets are late.
    is_late: bool,
}

/// Steps of long texts, some of them in parts where the board takes such.
fn long_texts(alloc: Global, dice: &mut Dice, has_more: bool) -> Result<Vec<Step>, Fail> {
    let mut steps = Vec::new(alloc);
    for _ in 0..5 {
        let packets = 2 + dice.below(3);
        let is_in_parts = has_more && dice.happens(20);
        steps.push(if is_in_parts {
            text_in_few_parts(dice)
        } else {
            text_of_packets(dice, packets)
        })?;
    }
    Ok(steps)
}

/// Any steps.
fn any_steps(alloc: Global, dice: &mut Dice, has_more: bool) -> Result<Vec<Step>, Fail> {
    let mut steps = Vec::new(alloc);
    for _ in 0..dice.below(6) {
        steps.push(any_step(dice, has_more))?;
    }
    Ok(steps)
}

/// Any scene.
fn any_scene(alloc: Global, dice: &mut Dice) -> Result<Scene, Fail> {
    let is_late = dice.happens(20);
    let has_more = dice.happens(90);
    let steps = if is_late {
        long_texts(alloc, dice, has_more)?
    } else {
        any_steps(alloc, dice, has_more)?
    };
    Ok(Scene {
        steps,
        is_late,
        retries: Retries::new(dice.byte() % 4),
        has_more,
        is_crowded: dice.happens(20),
    })
}

/// The board of a scene.
fn board_of(alloc: Global, scene: &Scene) -> Result<BoardFile, Fail> {
    Ok(if scene.has_more {
        board_with_more(alloc)?
    } else {
        sample_board(alloc)?
    })
}

/// The plan of a scene.
fn plan_of(alloc: Global, scene: &Scene) -> Result<Plan, Fail> {
    let mut steps = Steps::none(alloc);
    for step in scene.steps.iter() {
        let mut room = Value::new();
        steps.push(&step.op(&mut room))?;
    }
    let retries = scene.retries;
    Ok(Plan { steps, retries })
}

/// The play of these events in a scene, whose manager is made again behind the events of these places.
fn play_in(
    alloc: Global,
    scene: &Scene,
    events: &[Event],
    restarts: &[usize],
) -> Result<Result<Played, LabFault>, Fail> {
    let file = board_of(alloc, scene)?;
    let plan = plan_of(alloc, scene)?;
    if restarts.is_empty() {
        return Ok(play(alloc, file, plan, events));
    }
    let mut notes = Vec::new(alloc);
    Ok(play_restarting(alloc, file, plan, events, restarts, &mut notes))
}

/// A frame comes to where it goes; one that goes to others comes nowhere, and a tenth of a second goes by.
fn delivery(frames: &[SentFrame], number: usize) -> Event {
    match (frames.get(number), u32::try_from(number)) {
        (Some(frame), Ok(number)) if frame.way.is(Way::ToPort) => Event::ToBmc(number),
        (Some(frame), Ok(number)) if frame.way.is(Way::ToManager) => Event::ToMgr(number),
        _ => Event::OnBench(BenchEvent::Tick),
    }
}

/// The number of the newest frame that goes to the port or to the manager.
fn newest(frames: &[SentFrame]) -> usize {
    let mut found = 0;
    for (number, frame) in frames.iter().enumerate() {
        if !frame.way.is(Way::ToOthers) {
            found = number;
        }
    }
    found
}

/// Whether two frames are of one message, or of two copies of it: of one request, and one way.
fn are_of_one(frame: &SentFrame, other: &SentFrame) -> bool {
    let (mark, copy) = (frame.mark, other.mark);
    let is_of_one_request = mark.on == copy.on && mark.request == copy.request && mark.idles == copy.idles;
    frame.way.is(other.way) && is_of_one_request
}

/// The number of the first frame of the newest message that didn't come yet, or of the newest frame where all came. A late first packet doesn't
/// come in its turn.
fn due(frames: &[SentFrame], events: &[Event], skips_first: bool) -> usize {
    let last = newest(frames);
    let Some(message) = frames.get(last) else {
        return last;
    };
    for (number, frame) in frames.iter().enumerate() {
        let is_late = skips_first && is_first_of_several(frame);
        if are_of_one(frame, message) && !is_late && !is_delivered(events, number) {
            return number;
        }
    }
    last
}

/// The first packet of the oldest message of several packets that may still come: it comes late.
fn late_first(frames: &[SentFrame]) -> Event {
    let mut newest_request = 0;
    for frame in frames {
        if is_first_of_several(frame) && frame.mark.request > newest_request {
            newest_request = frame.mark.request;
        }
    }
    for (number, frame) in frames.iter().enumerate() {
        if is_first_of_several(frame) && frame.mark.request + 6 >= newest_request {
            return delivery(frames, number);
        }
    }
    Event::OnBench(BenchEvent::Tick)
}

/// The frame that was sent so many frames before the last one comes to where it goes, once or again.
fn late_copy(frames: &[SentFrame], before: u64) -> Event {
    let place = frames.len().wrapping_sub(1).wrapping_sub(before as usize);
    delivery(frames, place)
}

/// What brings the plan on in this phase.
fn what_is_due(lab: &Lab, events: &[Event], skips_first: bool) -> Event {
    match lab.phase() {
        Phase::Fresh => Event::Calls(Call::Start),
        Phase::Done | Phase::Halted(..) => Event::Calls(Call::Undo),
        Phase::Unsettled(_) => Event::Calls(Call::Again),
        _ => delivery(lab.frames(), due(lab.frames(), events, skips_first)),
    }
}

/// Any call.
fn any_call(dice: &mut Dice) -> Event {
    Event::Calls(match dice.below(5) {
        0 => Call::Start,
        1 => Call::Quiet,
        2 => Call::Stop,
        3 => Call::Again,
        _ => Call::Undo,
    })
}

/// A frame that was sent is heard with a byte changed; before any was sent, a tenth of a second goes by.
fn noise(alloc: Global, dice: &mut Dice, frames: &[SentFrame]) -> Result<Event, Fail> {
    let place = dice.below(1 + frames.len() as u64 % 65_536) as usize;
    match frames.get(place) {
        Some(frame) => noise_of(alloc, dice, frame),
        None => Ok(Event::OnBench(BenchEvent::Tick)),
    }
}

/// What may happen next.
fn any_event(
    alloc: Global,
    dice: &mut Dice,
    scene: &Scene,
    lab: &Lab,
    events: &[Event],
) -> Result<Event, Fail> {
    let is_crowded = scene.is_crowded;
    let frames = lab.frames();
    if scene.is_late && dice.happens(70) {
        let skips_first = dice.happens(25);
        return Ok(if dice.happens(12) {
            late_first(frames)
        } else {
            what_is_due(lab, events, skips_first)
        });
    }
    Ok(match dice.below(100) {
        0..=49 => what_is_due(lab, events, false),
        50..=58 => late_copy(frames, dice.below(6)),
        59..=62 => late_copy(frames, dice.below(70)),
        63..=69 => Event::Calls(Call::Quiet),
        70..=72 => any_call(dice),
        73..=77 => other_request(dice, is_crowded)?,
        78..=82 => other_message(alloc, dice, is_crowded)?,
        83..=87 => noise(alloc, dice, frames)?,
        88..=91 => idle(dice, is_crowded),
        92..=96 => scan(dice),
        _ => Event::OnBench(BenchEvent::Tick),
    })
}

/// The number of the frame that an event delivers.
fn delivered(event: &Event) -> Option<usize> {
    match event {
        Event::ToBmc(number) | Event::ToMgr(number) => Some(*number as usize),
        _ => None,
    }
}

/// Whether one of these events delivers the frame of this number.
fn is_delivered(events: &[Event], number: usize) -> bool {
    events.iter().any(|event| delivered(event) == Some(number))
}

/// Whether one of these events is a call of `stop`.
fn is_told_to_stop(events: &[Event]) -> bool {
    events
        .iter()
        .any(|event| matches!(event, Event::Calls(Call::Stop)))
}

/// How many of the frames to the port or the manager none of the events delivers.
fn lost(frames: &[SentFrame], events: &[Event]) -> u64 {
    let mut count = 0;
    for (number, frame) in frames.iter().enumerate() {
        if !frame.way.is(Way::ToOthers) && !is_delivered(events, number) {
            one_more(&mut count);
        }
    }
    count
}

/// Counts the last of the events, which the lab took in this phase.
fn count(tally: &mut Tally, events: &[Event], from: &Phase, lab: &Lab) {
    let [before @ .., event] = events else {
        return;
    };
    tally.event(event);
    let to = lab.phase();
    if *from != to {
        tally.phase(from, &to);
    }
    if let (Phase::Undone, Phase::Undone) = (from, &to) {
        one_more(&mut tally.after_undone);
    }
    let Some(number) = delivered(event) else {
        return;
    };
    if is_delivered(before, number) {
        one_more(&mut tally.repeated);
    }
    if number.wrapping_add(4) < lab.frames().len() {
        one_more(&mut tally.late);
    }
    if let Some(frame) = lab.frames().get(number) {
        if frame.mark.on == Bus::Smbus {
            one_more(&mut tally.on_smbus);
        }
    }
}

/// After how many steps the records may be those of the board, in this phase: the least number of steps and the most, or none where the phase
/// may never come.
fn steps_done(phase: &Phase, steps: usize) -> Option<(usize, usize)> {
    match phase {
        Phase::Fresh | Phase::Undone => Some((0, 0)),
        Phase::Getting(step) | Phase::Halted(step, _) => Some((*step, *step)),
        Phase::Setting(step) | Phase::Unsettled(step) | Phase::Undoing(step) => {
            Some((*step, step.wrapping_add(1)))
        }
        Phase::Done => Some((steps, steps)),
        Phase::UndoRefused(..) => None,
    }
}

/// Whether the records are those after so many steps of the course.
fn are_after_steps(
    records: &Records,
    start: &[(Key, StartValue)],
    course: &Course,
    steps: usize,
) -> bool {
    match course.changes.as_slice().get(..steps) {
        Some(changes) => are_after(records, start, changes),
        None => false,
    }
}

/// Whether a plan whose course this is may be in this phase, where it was told to stop or not: it ends where its course ends, and halts where
/// and why that does, or where it was told to stop.
fn is_caused(phase: &Phase, course: &Course, told_to_stop: bool) -> bool {
    let reached = course.changes.len();
    match phase {
        Phase::Done => course.halts.is_none(),
        Phase::Halted(_, Why::Stop) => told_to_stop,
        Phase::Halted(step, why) => *step == reached && course.halts == Some(*why),
        _ => true,
    }
}

/// Whether a plan that was in the first phase and is in the second got the reply to the last request of a Set: that of this step.
fn step_set(from: &Phase, to: &Phase) -> Option<usize> {
    match (from, to) {
        (Phase::Setting(step), Phase::Getting(_) | Phase::Done | Phase::Halted(_, Why::Stop)) => {
            Some(*step)
        }
        _ => None,
    }
}

/// The same of what undoes a step.
fn step_undone(from: &Phase, to: &Phase) -> Option<usize> {
    match (from, to) {
        (Phase::Undoing(step), Phase::Undone) => Some(*step),
        (Phase::Undoing(step), Phase::Undoing(next)) if next < step => Some(*step),
        _ => None,
    }
}

/// Counts what was acknowledged in parts as the plan went from a phase into another.
fn count_parts(
    tally: &mut Tally,
    start: &[(Key, StartValue)],
    course: &Course,
    from: &Phase,
    to: &Phase,
) {
    if let Some(step) = step_set(from, to) {
        if let Some((_, value)) = course.changes.as_slice().get(step) {
            if goes_in_parts(value.as_slice()) {
                one_more(&mut tally.sets_in_parts);
            }
        }
    }
    if let Some(step) = step_undone(from, to) {
        if let Some(old) = found_by(start, course, step) {
            if goes_in_parts(old) {
                one_more(&mut tally.undos_in_parts);
            }
        }
    }
}

/// A schedule that is being made: the events that were taken, and the lab in which they happened.
#[derive(Drop)]
struct Made {
    events: Vec<Event>,
    /// The places of the events behind which the manager was made again.
    restarts: Vec<usize>,
    /// The records that the board began with.
    start: Vec<(Key, StartValue)>,
    lab: Box<Lab>,
    /// How many events were offered since the plan was undone.
    later: u64,
    /// How many events it took until the plan first was done or halted, and where it stood then.
    rest: Option<(usize, Phase)>,
    /// What waits at the controller.
    waiting: Waiting,
    /// What went wrong, if anything did.
    wrong: Option<&'static str>,
}

impl Made {
    /// What doesn't stand on these records in this phase, if anything doesn't.
    fn fallen(
        &self,
        scene: &Scene,
        course: &Course,
        phase: &Phase,
        records: &Records,
    ) -> Option<&'static str> {
        // Where a packet joined one that waited too long, nothing is promised.
        if self.waiting.is_broken {
            return None;
        }
        let Some((least, most)) = steps_done(phase, scene.steps.len()) else {
            return Some("an undo was refused");
        };
        let start = self.start.as_slice();
        if !are_after_steps(records, start, course, least)
            && !are_after_steps(records, start, course, most)
        {
            return Some("the records are not those of the phase");
        }
        let may_stop = is_told_to_stop(self.events.as_slice()) || !self.restarts.is_empty();
        if !is_caused(phase, course, may_stop) {
            return Some("the plan does not end so");
        }
        None
    }

    /// The lab took the last event that was offered, in this phase.
    fn take(&mut self, course: &Course, from: &Phase, before: usize, tally: &mut Tally) {
        let phase = self.lab.phase();
        if !self.waiting.is_broken {
            count_parts(tally, self.start.as_slice(), course, from, &phase);
        }
        if let Some(event) = self.events.as_slice().last() {
            self.waiting.take(event, &self.lab, before);
        }
        count(tally, self.events.as_slice(), from, &self.lab);
        if let (None, Phase::Done | Phase::Halted(..)) = (&self.rest, &phase) {
            self.rest = Some((self.events.len(), phase));
        }
    }

    /// Counts an event that was offered once the plan was undone. Undone is for good.
    fn go_on(&mut self) {
        if let Phase::Undone = self.lab.phase() {
            self.later = self.later.wrapping_add(1);
        } else if self.later != 0 && !self.waiting.is_broken {
            self.wrong = Some("the plan is no longer undone");
        }
    }
}

/// A schedule as it begins.
fn begun(alloc: Global, scene: &Scene) -> Result<Made, Fail> {
    Ok(Made {
        events: Vec::new(alloc),
        restarts: Vec::new(alloc),
        start: board_of(alloc, scene)?.records(alloc)?,
        lab: Lab::open(alloc, board_of(alloc, scene)?, plan_of(alloc, scene)?)?,
        later: 0,
        rest: None,
        waiting: Waiting::NOTHING,
        wrong: None,
    })
}

/// The lab didn't take the last event that was offered: a play ends there too, with a fault that such an event may have.
fn refuse(alloc: Global, scene: &Scene, made: &mut Made, tally: &mut Tally) -> Result<(), Fail> {
    made.wrong = match play_in(alloc, scene, made.events.as_slice(), made.restarts.as_slice())? {
        Ok(_) => Some("a play takes an event that the lab doesn't"),
        Err(LabFault::Memory) => Some("memory was refused"),
        Err(LabFault::Event { place, .. }) if place != made.events.len() => Some(
            "a play ends at another event",
        ),
        Err(LabFault::Event { fault, .. }) if !may_be_offered(&fault) => Some(
            "no event that is offered has this fault",
        ),
        Err(LabFault::Event { .. }) => None,
    };
    let _ = made.events.pop();
    one_more(&mut tally.refused);
    Ok(())
}

/// Offers an event: the lab takes it, or it has a fault and changes nothing.
fn offer(
    alloc: Global,
    scene: &Scene,
    course: &Course,
    made: &mut Made,
    event: Event,
    tally: &mut Tally,
) -> Result<(), Fail> {
    let from = made.lab.phase();
    let before = made.lab.frames().len();
    let taken = made.lab.step(&event);
    made.events.push(event)?;
    match taken {
        Ok(()) => made.take(course, &from, before, tally),
        Err(_) => refuse(alloc, scene, made, tally)?,
    }
    made.go_on();
    Ok(())
}

/// Ends the manager's process behind the last event that was taken, and makes the manager again.
fn restart(alloc: Global, made: &mut Made, tally: &mut Tally) -> Result<(), Fail> {
    let place = made.events.len();
    if place == 0 || made.restarts.as_slice().last() == Some(&place) {
        return Ok(());
    }
    made.lab.restart(alloc)?;
    made.restarts.push(place)?;
    one_more(&mut tally.restarts);
    Ok(())
}

/// Offers events until enough were offered, or something is wrong after one. Where restarts are drawn by a dice of theirs, the manager is made again
/// behind some.
fn offer_events(
    alloc: Global,
    dice: &mut Dice,
    restarts: &mut Option<Dice>,
    scene: &Scene,
    course: &Course,
    made: &mut Made,
    tally: &mut Tally,
) -> Result<(), Fail> {
    for _ in 0..MOST_EVENTS {
        if made.later <= MOST_LATER && made.wrong.is_none() {
            let event = any_event(alloc, dice, scene, &made.lab, made.events.as_slice())?;
            offer(alloc, scene, course, made, event, tally)?;
            if restarts.as_mut().is_some_and(|dice| dice.happens(5)) {
                restart(alloc, made, tally)?;
            }
            if made.wrong.is_none() {
                made.wrong = made.fallen(scene, course, &made.lab.phase(), made.lab.store());
            }
        }
    }
    Ok(())
}

/// Offers the events of a schedule that is drawn, until something is wrong after one. The lab takes each, and the plan ends undone.
fn offer_drawn(
    alloc: Global,
    dice: &mut Dice,
    scene: &Scene,
    course: &Course,
    made: &mut Made,
    tally: &mut Tally,
) -> Result<(), Fail> {
    let wanted = any_wanted(dice);
    let file = board_of(alloc, scene)?;
    for event in make_schedule(alloc, file, plan_of(alloc, scene)?, wanted)? {
        if made.wrong.is_none() {
            let before = made.events.len();
            offer(alloc, scene, course, made, event, tally)?;
            if made.wrong.is_none() {
                made.wrong = made.fallen(scene, course, &made.lab.phase(), made.lab.store());
            }
            if made.events.len() == before {
                made.wrong = Some("the lab doesn't take an event that is drawn");
            }
        }
    }
    let is_undone = matches!(made.lab.phase(), Phase::Undone);
    if made.wrong.is_none() && !made.waiting.is_broken && !is_undone {
        made.wrong = Some("a schedule that is drawn doesn't end undone");
    }
    tally.drawn_end(made.waiting.joined);
    Ok(())
}

/// What a play of all events tells otherwise than they happened, if it does.
fn told_otherwise(
    alloc: Global,
    scene: &Scene,
    course: &Course,
    made: &Made,
) -> Result<Option<&'static str>, Fail> {
    let (events, restarts) = (made.events.as_slice(), made.restarts.as_slice());
    let Ok(played) = play_in(alloc, scene, events, restarts)? else {
        return Ok(Some("a play doesn't take an event that the lab takes"));
    };
    let phase = played.phase();
    if phase != made.lab.phase() || played.frames().len() != made.lab.frames().len() {
        return Ok(Some("a play ends otherwise"));
    }
    if made.waiting.is_broken {
        return Ok(None);
    }
    if let (Phase::Undone | Phase::Fresh, 1..) = (&phase, played.changed()) {
        return Ok(Some("a record is not what it was"));
    }
    Ok(made.fallen(scene, course, &phase, played.records()))
}

/// A schedule that was made, the scene in which it was, and its plan's course.
#[derive(Drop)]
struct Whole {
    scene: Scene,
    course: Course,
    made: Made,
}

/// The dice that draws the restarts in the schedule of this seed: in one of two that aren't drawn by the lab.
fn dice_of_restarts(seed: u64) -> Option<Dice> {
    if seed % 2 == 0 {
        return None;
    }
    Some(Dice::new(!seed))
}

/// The schedule of this seed is made, up to where something is wrong, with restarts or without.
fn made_of(
    alloc: Global,
    seed: u64,
    mut restarts: Option<Dice>,
    tally: &mut Tally,
) -> Result<Whole, Fail> {
    let mut dice = Dice::new(seed);
    let scene = any_scene(alloc, &mut dice)?;
    let mut made = begun(alloc, &scene)?;
    let course = course_of(alloc, made.start.as_slice(), scene.steps.as_slice())?;
    if is_drawn(seed) {
        offer_drawn(alloc, &mut dice, &scene, &course, &mut made, tally)?;
    } else {
        offer_events(
            alloc,
            &mut dice,
            &mut restarts,
            &scene,
            &course,
            &mut made,
            tally,
        )?;
    }
    if made.wrong.is_none() {
        made.wrong = told_otherwise(alloc, &scene, &course, &made)?;
    }
    Ok(Whole {
        scene,
        course,
        made,
    })
}

/// The schedule of this seed is made, and the phase stands on the records after each of its events.
pub(super) fn expect_schedule(
    rt: &impl Abort,
    alloc: Global,
    seed: u64,
    tally: &mut Tally,
) -> Result<(), Fail> {
    let whole = made_of(alloc, seed, dice_of_restarts(seed), tally)?;
    if let Some(wrong) = whole.made.wrong {
        let mut text = told(alloc, seed, &whole)?;
        for place in whole.made.restarts.iter() {
            writeln!(text, "# The manager is made again behind event {place}.")?;
        }
        let event = whole.made.events.len();
        assert!(rt; false, "seed {seed}, event {event}: {wrong}\n{text}");
    }
    one_more(&mut tally.schedules);
    let lost = lost(whole.made.lab.frames(), whole.made.events.as_slice());
    tally.lost = tally.lost.wrapping_add(lost);
    tally.joined = tally.joined.wrapping_add(whole.made.waiting.joined);
    if whole.made.waiting.is_broken {
        one_more(&mut tally.broken);
    }
    Ok(())
}

/// What is written where the plan rests in this phase: the phase, the records by the plan's course, and that the premise on packets was kept. Where
/// it was broken, nothing is said of the records.
fn push_end(text: &mut String, whole: &Whole, phase: &Phase) -> Result<(), Fail> {
    write!(text, "premises -> 0 out: phase {phase} / ..")?;
    if whole.made.waiting.is_broken {
        text.push_str("\n")?;
        return Ok(());
    }
    let steps = match phase {
        Phase::Fresh | Phase::Undone => 0,
        Phase::Done => whole.scene.steps.len(),
        Phase::Halted(step, _) => *step,
        _ => {
            text.push_str(" / premises kept\n")?;
            return Ok(());
        }
    };
    let changes = whole.course.changes.as_slice().get(..steps).ok_or("steps")?;
    match changed_by(whole.made.start.as_slice(), changes) {
        0 => text.push_str(" / records same / premises kept\n")?,
        many => writeln!(text, " / records changed {many} / premises kept")?,
    }
    Ok(())
}

/// The scene of a story: its board and its plan.
fn push_scene(text: &mut String, seed: u64, scene: &Scene) -> Result<(), Fail> {
    writeln!(text, "story schedule {seed}")?;
    text.push_str(if scene.has_more {
        "board sample effecters lan\nswap most = 200 => most = 1000\n"
    } else {
        "board sample\n"
    })?;
    writeln!(text, "plan\n  retries = {}", scene.retries.number())?;
    for step in scene.steps.iter() {
        push_step(text, step)?;
    }
    Ok(())
}

/// The story of a schedule: up to where its plan first was done or halted, and to its end.
fn told(alloc: Global, seed: u64, whole: &Whole) -> Result<String, Fail> {
    let mut text = String::new(alloc);
    push_scene(&mut text, seed, &whole.scene)?;
    let events = whole.made.events.as_slice();
    text.push_str("schedule\n")?;
    let (first, phase) = whole
        .made
        .rest
        .unwrap_or((events.len(), whole.made.lab.phase()));
    let (before, behind) = events.split_at_checked(first).ok_or("events")?;
    push_events_of(alloc, &mut text, before)?;
    push_end(&mut text, whole, &phase)?;
    if !behind.is_empty() {
        text.push_str("then\n")?;
        push_events_of(alloc, &mut text, behind)?;
        push_end(&mut text, whole, &whole.made.lab.phase())?;
    }
    Ok(text)
}

/// The story of the schedule of this seed, without restarts.
pub(super) fn tell(alloc: Global, seed: u64) -> Result<String, Fail> {
    let mut tally = Tally::NOTHING;
    let whole = made_of(alloc, seed, None, &mut tally)?;
    told(alloc, seed, &whole)
}
