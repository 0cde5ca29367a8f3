//! Random plans, and the boards on which they run.
use super::dice::Dice;
use super::lan::lans;
use super::long_asset::{ASSET, MOST_TEXT, put_long_asset};
use super::settings::{STATES, Setting, any_setting};
use cfg_records::{BoardFile, Distinct, Key, Op, Items, Value, sample_board};
use record_base::{
    EventChange, EventMasks, NumericBytes, NumericEffecter, NumericRange, NumericSize,
    SetBiosAttribute, SetEventEnable, SetHysteresis, SetNumericEffecter, SetThresholds,
    StateEffecter, StateField,
};
use std::alloc::Global;
use std::test::Fail;

/// The handle of the sample board's number.
pub(super) const DELAY: u16 = 2;

/// The types of a string and of an integer (DSP0247).
const STRING_TYPE: u8 = 0x01;
const INTEGER_TYPE: u8 = 0x03;

/// The greatest length of the sample board's text, that of any text of a plan, and that of one whose Set goes in three parts.
const SAMPLE_TEXT: u64 = 200;
const PLAN_TEXT: u64 = 1024;
const FEW_PARTS_TEXT: u64 = 571;

/// A text of one letter, so often.
#[derive(Clone, Copy)]
pub(super) struct Repeated {
    pub letter: u8,
    pub length: u16,
}

impl Repeated {
    /// The value of the attribute that has this text: its length in two bytes, and the text.
    pub fn value(&self) -> Value {
        let mut value = Value::from_slice(&self.length.to_le_bytes());
        for _ in 0..self.length {
            value.extend_from_slice(&[self.letter]);
        }
        value
    }
}

/// A step of a plan.
#[derive(Clone, Copy)]
pub(super) enum Step {
    Text(Repeated),
    Delay(u16),
    Setting(Setting),
    Thresholds(SetThresholds),
    Hysteresis(SetHysteresis),
    Events(SetEventEnable),
    Numeric(SetNumericEffecter),
}

impl Repeated {
    /// Whether the text is longer than an attribute of the board with more can have.
    pub fn is_too_long(&self) -> bool {
        self.length > MOST_TEXT
    }
}

impl Step {
    /// The step as plans have it. The value that it gives to an attribute lies in the room.
    pub fn op<'v>(&self, room: &'v mut Value) -> Op<'v> {
        match self {
            Step::Thresholds(set) => Op::Thresholds(*set),
            Step::Hysteresis(set) => Op::Hysteresis(*set),
            Step::Events(set) => Op::EventEnable(*set),
            Step::Numeric(set) => Op::NumericEffecter(*set),
            Step::Setting(setting) => setting.op(room),
            Step::Text(text) => {
                room.replace(text.value().as_slice());
                Op::BiosAttribute(SetBiosAttribute::of(ASSET, STRING_TYPE, room.as_slice()))
            }
            Step::Delay(number) => {
                room.replace(&u64::from(*number).to_le_bytes());
                Op::BiosAttribute(SetBiosAttribute::of(DELAY, INTEGER_TYPE, room.as_slice()))
            }
        }
    }

    /// The record that it changes.
    pub fn key(&self) -> Key {
        match self {
            Step::Thresholds(set) => Key::Thresholds(set.sensor),
            Step::Hysteresis(set) => Key::Hysteresis(set.sensor),
            Step::Events(set) => Key::EventEnable(set.sensor),
            Step::Numeric(set) => Key::NumericEffecter(set.effecter),
            Step::Setting(setting) => setting.key(),
            Step::Text(_) => Key::BiosAttribute(ASSET),
            Step::Delay(_) => Key::BiosAttribute(DELAY),
        }
    }
}

/// A state effecter of two fields, both in state 1.
fn states(alloc: Global) -> Result<StateEffecter, Fail> {
    let mut fields = Vec::new(alloc);
    for most in [2, 3] {
        let mut allowed = Vec::new(alloc);
        for state in 0..most {
            allowed.push(state + 1)?;
        }
        fields.push(StateField::new(Items::new(allowed), 1).ok_or("a field")?)?;
    }
    Ok(StateEffecter::new(STATES, true, fields).ok_or("states")?)
}

/// The sample board, with a longer text, LAN parameters of channel 1, a state effecter, 9 of two fields, and four numeric effecters: 4 of u16 from 0 to 1000, 5
/// of s8 from -2 to 1, 6 of u32, which is disabled, and 261 of s32 from -70,000 to -1.
pub(super) fn board_with_more(alloc: Global) -> Result<BoardFile, Fail> {
    let mut effecters = Vec::new(alloc);
    for (id, enabled, size, lower, upper, current) in [
        (4, true, NumericSize::U16, 0, 1000, 500),
        (5, true, NumericSize::S8, 0xFE, 1, 0),
        (6, false, NumericSize::U32, 0, 9, 9),
        (
            261,
            true,
            NumericSize::S32,
            0xFFFE_EE90,
            0xFFFF_FFFF,
            0xFFFF_FFFF,
        ),
    ] {
        let range = NumericRange::new(size, lower, upper).ok_or("range")?;
        let effecter = NumericEffecter::new(id, enabled, range, current).ok_or("effecter")?;
        effecters.push(effecter)?;
    }
    let mut state_effecters = Vec::new(alloc);
    state_effecters.push(states(alloc)?)?;
    let mut file = sample_board(alloc)?;
    file.state_effecters = Distinct::new(state_effecters).ok_or("state effecters")?;
    file.numeric_effecters = Distinct::new(effecters).ok_or("effecters")?;
    file.lans = lans(alloc)?;
    put_long_asset(alloc, &mut file.attributes)?;
    Ok(file)
}

/// A sensor: the temperature, the fan, or seldom one that isn't there.
fn any_sensor(dice: &mut Dice) -> u8 {
    match dice.below(100) {
        0..=52 => 5,
        53..=95 => 7,
        _ => 9,
    }
}

/// A threshold between this one and seven above it, or seldom any.
fn any_threshold(dice: &mut Dice, least: u8) -> u8 {
    if dice.happens(2) {
        return dice.byte();
    }
    least.wrapping_add(dice.byte() % 8)
}

/// Thresholds that are mostly in order and mostly can be brought back.
fn any_thresholds(dice: &mut Dice) -> Step {
    let sensor = any_sensor(dice);
    let (usual, [unc, uc, unr]) = if sensor == 7 {
        (0x18, [0x90, 0xA0, 0xB0])
    } else {
        (0x3F, [0x50, 0x60, 0x70])
    };
    let mask = if dice.happens(15) {
        dice.byte()
    } else {
        dice.byte() & usual
    };
    let values = [
        any_threshold(dice, 0x14),
        any_threshold(dice, 0x0A),
        any_threshold(dice, 0x00),
        any_threshold(dice, unc),
        any_threshold(dice, uc),
        any_threshold(dice, unr),
    ];
    Step::Thresholds(SetThresholds {
        sensor,
        mask,
        values,
    })
}

/// Any hysteresis.
fn any_hysteresis(dice: &mut Dice) -> Step {
    Step::Hysteresis(SetHysteresis {
        sensor: any_sensor(dice),
        positive: dice.byte(),
        negative: dice.byte(),
    })
}

/// Events that are mostly supported.
fn any_events(dice: &mut Dice) -> Step {
    let sensor = any_sensor(dice);
    let supported = match sensor {
        _ if dice.happens(2) => 0xFFFF,
        7 => 0x0FC0,
        _ => 0x0FFF,
    };
    let masks = EventMasks {
        assertions: dice.word() & supported,
        deassertions: dice.word() & supported,
    };
    let change = match dice.below(100) {
        0..=24 => EventChange::Leave,
        25..=61 => EventChange::Enable(masks),
        62..=98 => EventChange::Disable(masks),
        _ => EventChange::Reserved,
    };
    Step::Events(SetEventEnable {
        sensor,
        messages: dice.happens(50),
        scanning: dice.happens(50),
        change,
    })
}

/// A value of a numeric effecter: another size, another length, above and below the bounds, a disabled one, and one that isn't there.
fn strange_numeric(dice: &mut Dice) -> SetNumericEffecter {
    let (effecter, size, value) = match dice.below(8) {
        0 => (4, 3, NumericBytes::Two(1, 0)),
        1 => (4, 2, NumericBytes::One(5)),
        2 => (4, 2, NumericBytes::Two(0xE9, 0x03)),
        3 => (5, 1, NumericBytes::One(0xFD)),
        4 => (5, 1, NumericBytes::One(0x02)),
        5 => (6, 4, NumericBytes::Four(1, 0, 0, 0)),
        6 => (261, 5, NumericBytes::Four(0, 0, 0, 0)),
        _ => (9, 0, NumericBytes::One(1)),
    };
    SetNumericEffecter {
        effecter,
        size,
        value,
    }
}

/// A value of a numeric effecter that is mostly within its bounds.
fn any_numeric(dice: &mut Dice) -> Step {
    if dice.happens(8) {
        return Step::Numeric(strange_numeric(dice));
    }
    let (effecter, size, value) = match dice.below(3) {
        0 => {
            let [low, high] = (dice.word() % 1001).to_le_bytes();
            (4, 2, NumericBytes::Two(low, high))
        }
        1 => (5, 1, NumericBytes::One((dice.byte() % 4).wrapping_sub(2))),
        _ => {
            // From -65,536 to -1.
            let [low, high] = dice.word().to_le_bytes();
            (261, 5, NumericBytes::Four(low, high, 0xFF, 0xFF))
        }
    };
    Step::Numeric(SetNumericEffecter {
        effecter,
        size,
        value,
    })
}

/// A text whose Set is of so many packets at least, where that is 1 to 4: 11 bytes of the message stand before the text.
pub(super) fn text_of_packets(dice: &mut Dice, packets: u64) -> Step {
    let least = (64 * packets.saturating_sub(1)).saturating_sub(10);
    let length = least + dice.below(1 + SAMPLE_TEXT.saturating_sub(least));
    Step::Text(Repeated {
        letter: 0x61 + dice.byte() % 26,
        length: length.min(SAMPLE_TEXT) as u16,
    })
}

/// A text whose Set goes in parts, of at most so many bytes.
fn text_up_to(dice: &mut Dice, most: u64) -> Step {
    let more = most - SAMPLE_TEXT;
    Step::Text(Repeated {
        letter: 0x61 + dice.byte() % 26,
        length: (SAMPLE_TEXT + 1 + dice.below(more)) as u16,
    })
}

/// A text whose Set goes in two to six requests, or seldom a too long one.
fn text_in_parts(dice: &mut Dice) -> Step {
    text_up_to(dice, PLAN_TEXT)
}

/// A text whose Set goes in two or three requests.
pub(super) fn text_in_few_parts(dice: &mut Dice) -> Step {
    text_up_to(dice, FEW_PARTS_TEXT)
}

/// A number of the delay, which goes by tens up to 300: mostly such a one.
fn any_delay(dice: &mut Dice) -> Step {
    if dice.happens(8) {
        return Step::Delay(dice.word() % 400);
    }
    Step::Delay(10 * (dice.word() % 31))
}

/// Any step.
pub(super) fn any_step(dice: &mut Dice, has_more: bool) -> Step {
    match dice.below(15) {
        0 | 1 => any_thresholds(dice),
        2 => any_hysteresis(dice),
        3 | 4 => any_events(dice),
        5 | 6 => any_numeric(dice),
        7 => any_delay(dice),
        8..=12 => Step::Setting(any_setting(dice)),
        _ if has_more && dice.happens(50) => text_in_parts(dice),
        _ => {
            let packets = 1 + dice.below(4);
            text_of_packets(dice, packets)
        }
    }
}
