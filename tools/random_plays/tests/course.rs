//! What a plan's steps change, by the tables of commands and of records.
use super::steps::Step;
use bmc_board::Records;
use cfg_records::{Key, StartValue, Store, Value, byte_at};
use record_base::{
    EventChange, EventMasks, NumericBytes, SetEventEnable, SetNumericEffecter, SetThresholds,
};
use std::alloc::Global;
use std::test::Fail;
use two_wire::code;
use undo_core::Why;

/// A plan's course where each of its requests is answered: what its steps change, up to its end or to where it halts.
#[derive(Drop)]
pub(super) struct Course {
    pub changes: Vec<(Key, Value)>,
    pub halts: Option<Why>,
}

/// The thresholds of the sample board's sensors that can be read, and those that can be set.
fn threshold_masks(sensor: u8) -> (u8, u8) {
    match sensor {
        7 => (0x18, 0x38),
        _ => (0x3F, 0x3F),
    }
}

/// The places of thresholds from the least to the greatest, lower non-recoverable first, each with its bit of a mask.
const IN_ORDER: [(usize, u8); 6] = [
    (2, 0x04),
    (1, 0x02),
    (0, 0x01),
    (3, 0x08),
    (4, 0x10),
    (5, 0x20),
];

/// Whether the thresholds of this mask are in order.
fn are_in_order(values: &[u8], mask: u8) -> bool {
    let mut least = 0;
    for (place, bit) in IN_ORDER {
        let value = byte_at(values, place);
        if mask & bit != 0 {
            if value < least {
                return false;
            }
            least = value;
        }
    }
    true
}

/// A threshold: the new one where the mask has its bit, else the old one.
fn threshold(set: &SetThresholds, old: &[u8], place: usize, bit: u8) -> u8 {
    if set.mask & bit != 0 {
        byte_at(&set.values, place)
    } else {
        byte_at(old, place)
    }
}

/// What comes of thresholds.
fn of_thresholds(set: &SetThresholds, old: &[u8]) -> Result<Value, Why> {
    let (readable, settable) = threshold_masks(set.sensor);
    if set.mask & !readable != 0 {
        return Err(Why::NotRestorable);
    }
    let new = [
        threshold(set, old, 0, 0x01),
        threshold(set, old, 1, 0x02),
        threshold(set, old, 2, 0x04),
        threshold(set, old, 3, 0x08),
        threshold(set, old, 4, 0x10),
        threshold(set, old, 5, 0x20),
    ];
    if set.mask & !settable != 0 || !are_in_order(&new, readable | settable) {
        return Err(Why::Refused(code::INVALID_DATA_FIELD));
    }
    Ok(Value::from_slice(&new))
}

/// The events that are enabled after a change, where the board takes it.
fn events_after(change: &EventChange, old: &EventMasks, supported: u16) -> Option<EventMasks> {
    match change {
        EventChange::Leave => Some(*old),
        EventChange::Enable(more) if (more.assertions | more.deassertions) & !supported == 0 => {
            Some(EventMasks {
                assertions: old.assertions | more.assertions,
                deassertions: old.deassertions | more.deassertions,
            })
        }
        EventChange::Disable(less) if (less.assertions | less.deassertions) & !supported == 0 => {
            Some(EventMasks {
                assertions: old.assertions & !less.assertions,
                deassertions: old.deassertions & !less.deassertions,
            })
        }
        _ => None,
    }
}

/// What comes of enabled events.
fn of_events(set: &SetEventEnable, old: &[u8]) -> Result<Value, Why> {
    let supported = if set.sensor == 7 { 0x0FC0 } else { 0x0FFF };
    let enabled = EventMasks {
        assertions: u16::from_le_bytes([byte_at(old, 1), byte_at(old, 2)]),
        deassertions: u16::from_le_bytes([byte_at(old, 3), byte_at(old, 4)]),
    };
    let Some(enabled) = events_after(&set.change, &enabled, supported) else {
        return Err(Why::Refused(code::INVALID_DATA_FIELD));
    };
    let messages = if set.messages { 0x80 } else { 0 };
    let scanning = if set.scanning { 0x40 } else { 0 };
    let [low, high] = enabled.assertions.to_le_bytes();
    let [low_off, high_off] = enabled.deassertions.to_le_bytes();
    Ok(Value::from_slice(&[messages | scanning, low, high, low_off, high_off]))
}

/// The bytes of a numeric effecter's value, as a request has them.
fn bytes_of(value: &NumericBytes) -> Value {
    match value {
        NumericBytes::One(a) => Value::from_slice(&[*a]),
        NumericBytes::Two(a, b) => Value::from_slice(&[*a, *b]),
        NumericBytes::Four(a, b, c, d) => Value::from_slice(&[*a, *b, *c, *d]),
        NumericBytes::Other => Value::new(),
    }
}

/// Whether the effecter can have the value, where it is of the effecter's size: 4 has 0 to 1000, 5 has -2 to 1, and 261 has -70,000 to -1.
fn is_within(effecter: u16, bytes: &[u8]) -> bool {
    let (a, b) = (byte_at(bytes, 0), byte_at(bytes, 1));
    let (c, d) = (byte_at(bytes, 2), byte_at(bytes, 3));
    match effecter {
        4 => u16::from_le_bytes([a, b]) <= 1000,
        5 => matches!(a, 0xFE | 0xFF | 0x00 | 0x01),
        _ => u32::from_le_bytes([a, b, c, d]) >= 0xFFFE_EE90,
    }
}

/// What comes of a numeric effecter's value.
fn of_numeric(set: &SetNumericEffecter) -> Result<Value, Why> {
    let (size, width) = match set.effecter {
        4 => (2, 2),
        5 => (1, 1),
        // It is disabled.
        6 => return Err(Why::NotRestorable),
        _ => (5, 4),
    };
    let value = bytes_of(&set.value);
    if set.size != size {
        return Err(Why::Refused(code::PLDM_INVALID_DATA));
    }
    if value.len() != width {
        return Err(Why::Refused(code::PLDM_INVALID_LENGTH));
    }
    if !is_within(set.effecter, value.as_slice()) {
        return Err(Why::Refused(code::PLDM_INVALID_DATA));
    }
    Ok(value)
}

/// What comes of the delay: it goes by tens up to 300.
fn of_delay(number: u16) -> Result<Value, Why> {
    if number > 300 || number % 10 != 0 {
        return Err(Why::Refused(code::PLDM_INVALID_DATA));
    }
    Ok(Value::from_slice(&u64::from(number).to_le_bytes()))
}

/// What comes of a step where its record has this value, or isn't there: a new value, or why the plan halts.
fn outcome(step: &Step, old: Option<&[u8]>) -> Result<Value, Why> {
    let Some(old) = old else {
        return Err(Why::GetRefused(match step {
            Step::Numeric(_) => code::PLDM_INVALID_EFFECTER,
            Step::Setting(setting) => setting.absent(),
            _ => code::NOT_PRESENT,
        }));
    };
    match step {
        Step::Thresholds(set) => of_thresholds(set, old),
        Step::Hysteresis(set) => Ok(Value::from_slice(&[set.positive, set.negative])),
        Step::Events(set) => of_events(set, old),
        Step::Numeric(set) => of_numeric(set),
        Step::Setting(setting) => setting.outcome(old),
        Step::Text(text) if text.is_too_long() => Err(Why::Refused(code::PLDM_INVALID_DATA)),
        Step::Text(text) => Ok(text.value()),
        Step::Delay(number) => of_delay(*number),
    }
}

/// The last value of this key in a list of changes.
fn last_value<'a>(changes: &'a [(Key, Value)], key: &Key) -> Option<&'a [u8]> {
    let mut found = None;
    for (at, value) in changes {
        if at == key {
            found = Some(value.as_slice());
        }
    }
    found
}

/// The value that this record begins with.
fn first_value<'a>(start: &'a [(Key, StartValue)], key: &Key) -> Option<&'a [u8]> {
    let (_, value) = start.iter().find(|(at, _)| at == key)?;
    Some(value.as_slice())
}

/// The value of this key after changes of what there was at the start.
fn value_after<'a>(
    start: &'a [(Key, StartValue)],
    changes: &'a [(Key, Value)],
    key: &Key,
) -> Option<&'a [u8]> {
    match last_value(changes, key) {
        Some(value) => Some(value),
        None => first_value(start, key),
    }
}

/// The value that the step of this place finds in its record, in this course.
pub(super) fn found_by<'a>(
    start: &'a [(Key, StartValue)],
    course: &'a Course,
    place: usize,
) -> Option<&'a [u8]> {
    let (key, _) = course.changes.as_slice().get(place)?;
    value_after(start, course.changes.as_slice().get(..place)?, key)
}

/// How long a value goes whole at most: an entry has three bytes before it, and one of over 205 bytes goes in parts. No other record has so many.
const MOST_WHOLE: usize = 202;

/// Whether requests that set this value go in parts.
pub(super) fn goes_in_parts(value: &[u8]) -> bool {
    value.len() > MOST_WHOLE
}

/// Whether the records are those of the start after these changes.
pub(super) fn are_after(
    records: &Records,
    start: &[(Key, StartValue)],
    changes: &[(Key, Value)],
) -> bool {
    for (key, _) in start {
        match (records.get(key), value_after(start, changes, key)) {
            (Some(value), Some(wanted)) if value == wanted => {}
            _ => return false,
        }
    }
    true
}

/// How many records have another value than at the start after these changes.
pub(super) fn changed_by(start: &[(Key, StartValue)], changes: &[(Key, Value)]) -> usize {
    start
        .iter()
        .filter(|(key, value)| value_after(start, changes, key) != Some(value.as_slice()))
        .count()
}

/// The course of a plan on a board with these records.
pub(super) fn course_of(
    alloc: Global,
    start: &[(Key, StartValue)],
    steps: &[Step],
) -> Result<Course, Fail> {
    let mut changes = Vec::new(alloc);
    for step in steps {
        let key = step.key();
        let old = value_after(start, changes.as_slice(), &key);
        match outcome(step, old) {
            Ok(value) => changes.push((key, value))?,
            Err(why) => {
                return Ok(Course {
                    changes,
                    halts: Some(why),
                });
            }
        }
    }
    Ok(Course {
        changes,
        halts: None,
    })
}
