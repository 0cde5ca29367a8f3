//! Plans and schedules as texts, in the language of the stories of plays.
use super::settings::push_setting;
use super::steps::Step;
use cfg_records::byte_at;
use model_undo::Call;
use record_base::{
    EventChange, EventMasks, NumericBytes, SetEventEnable, SetNumericEffecter, SetThresholds,
};
use text_lines::{BenchEvent, Event, OtherRequest};
use std::alloc::Global;
use std::test::Fail;

/// The names of thresholds, each with its place and its bit of a mask.
const THRESHOLDS: [(&str, usize, u8); 6] = [
    ("lnc", 0, 0x01),
    ("lc", 1, 0x02),
    ("lnr", 2, 0x04),
    ("unc", 3, 0x08),
    ("uc", 4, 0x10),
    ("unr", 5, 0x20),
];

/// Thresholds, of which a plan's file has six.
fn push_thresholds(text: &mut String, set: &SetThresholds) -> Result<(), Fail> {
    write!(text, "kind = \"thresholds\" / sensor = {}", set.sensor)?;
    for (name, place, bit) in THRESHOLDS {
        if set.mask & bit != 0 {
            write!(text, " / {name} = {}", byte_at(&set.values, place))?;
        }
    }
    if set.mask >= 0x40 {
        text.push_str(" / # no file has this mask")?;
    }
    Ok(())
}

/// The offsets of a mask, behind the name of their list.
fn push_offsets(text: &mut String, name: &str, mask: u16) -> Result<(), Fail> {
    write!(text, " / {name} = [")?;
    let mut comma = "";
    for place in 0..16 {
        if (mask >> place) & 1 == 1 {
            write!(text, "{comma}{place}")?;
            comma = ", ";
        }
    }
    text.push_str("]")?;
    Ok(())
}

/// Both lists of a selection.
fn push_masks(text: &mut String, select: &str, masks: &EventMasks) -> Result<(), Fail> {
    write!(text, "\n  select = \"{select}\"")?;
    push_offsets(text, "assert", masks.assertions)?;
    push_offsets(text, "deassert", masks.deassertions)
}

/// Events that are enabled.
fn push_events(text: &mut String, set: &SetEventEnable) -> Result<(), Fail> {
    write!(
        text,
        "kind = \"event-enable\" / sensor = {} / messages = {} / scanning = {}",
        set.sensor, set.messages, set.scanning
    )?;
    match &set.change {
        EventChange::Leave => text.push_str("\n  select = \"leave\"")?,
        EventChange::Enable(masks) => push_masks(text, "enable", masks)?,
        EventChange::Disable(masks) => push_masks(text, "disable", masks)?,
        EventChange::Reserved => text.push_str(" / # no file has a reserved selection")?,
    }
    Ok(())
}

/// A numeric effecter's value: bytes of another length than its size's are none of a file.
fn push_numeric(text: &mut String, set: &SetNumericEffecter) -> Result<(), Fail> {
    let is_signed = set.size % 2 == 1;
    let number = match &set.value {
        NumericBytes::One(a) if is_signed => i64::from(i8::from_le_bytes([*a])),
        NumericBytes::One(a) => i64::from(*a),
        NumericBytes::Two(a, b) if is_signed => i64::from(i16::from_le_bytes([*a, *b])),
        NumericBytes::Two(a, b) => i64::from(u16::from_le_bytes([*a, *b])),
        NumericBytes::Four(a, b, c, d) if is_signed => i64::from(i32::from_le_bytes([
            *a, *b, *c, *d,
        ])),
        NumericBytes::Four(a, b, c, d) => i64::from(u32::from_le_bytes([*a, *b, *c, *d])),
        NumericBytes::Other => 0,
    };
    write!(
        text,
        "kind = \"numeric-effecter\" / effecter = {} / size = {} / value = {number}",
        set.effecter, set.size
    )?;
    Ok(())
}

/// The line of a step.
pub(super) fn push_step(text: &mut String, step: &Step) -> Result<(), Fail> {
    text.push_str("  [[step]] / ")?;
    match step {
        Step::Thresholds(set) => push_thresholds(text, set)?,
        Step::Hysteresis(set) => write!(
            text,
            "kind = \"hysteresis\" / sensor = {} / positive = {} / negative = {}",
            set.sensor, set.positive, set.negative
        )?,
        Step::Events(set) => push_events(text, set)?,
        Step::Numeric(set) => push_numeric(text, set)?,
        Step::Setting(setting) => push_setting(text, setting)?,
        Step::Text(it) => write!(
            text,
            "kind = \"bios-attribute\" / handle = 1 / text = \"{{{}*{}}}\"",
            it.length,
            char::from(it.letter)
        )?,
        Step::Delay(number) => write!(
            text,
            "kind = \"bios-attribute\" / handle = 2 / number = {number}"
        )?,
    }
    text.push_str("\n")?;
    Ok(())
}

/// What a call is called.
fn call_name(call: &Call) -> &'static str {
    match call {
        Call::Start => "start",
        Call::Quiet => "quiet",
        Call::Stop => "stop",
        Call::Again => "again",
        Call::Undo => "undo",
    }
}

/// The bytes in hexadecimal.
fn push_bytes(text: &mut String, bytes: &[u8]) -> Result<(), Fail> {
    for byte in bytes {
        write!(text, "{byte:02X}")?;
    }
    Ok(())
}

/// Somebody else's request on IPMB.
fn push_request(text: &mut String, other: &OtherRequest) -> Result<(), Fail> {
    let net_fn = other.net_fn.number() * 4 + other.responder.number();
    let sequence = other.sequence.number() * 4 + other.requester.lun.number();
    write!(text, "other ipmb {:02X} ", other.requester.address.byte())?;
    push_bytes(text, &[net_fn, sequence, other.command])?;
    push_bytes(text, other.body.as_slice())
}

/// An event as a line of a schedule says it, without the line's end.
pub(super) fn push_event(text: &mut String, event: &Event) -> Result<(), Fail> {
    match event {
        Event::Calls(call) => text.push_str(call_name(call))?,
        Event::ToBmc(number) => write!(text, "to-bmc {number}")?,
        Event::ToMgr(number) => write!(text, "to-mgr {number}")?,
        Event::OtherIpmb(other) => push_request(text, other)?,
        Event::OtherSmbus(other) => {
            write!(text, "other smbus {:02X} ", other.from)?;
            push_bytes(text, other.body.as_slice())?;
        }
        Event::Noise(bus, heard) => {
            write!(text, "noise {} ", bus.name())?;
            push_bytes(text, heard.as_slice())?;
        }
        Event::Idle(bus, from) => write!(text, "idle {} {from:02X}", bus.name())?,
        Event::OnBench(BenchEvent::Scan { sensor, reading }) => write!(text, "scan {sensor:02X} {reading:02X}")?,
        Event::OnBench(BenchEvent::Tick) => text.push_str("tick")?,
    }
    Ok(())
}

/// The events, several in a line where they are short.
pub(super) fn push_events_of(
    alloc: Global,
    text: &mut String,
    events: &[Event],
) -> Result<(), Fail> {
    let mut line = String::new(alloc);
    for event in events {
        let mut said = String::new(alloc);
        push_event(&mut said, event)?;
        if !line.is_empty() && line.len().wrapping_add(said.len()) > 130 {
            writeln!(text, "  {line}")?;
            line.clear();
        }
        if !line.is_empty() {
            line.push_str(" / ")?;
        }
        line.push_str(said.as_str())?;
    }
    if !line.is_empty() {
        writeln!(text, "  {line}")?;
    }
    Ok(())
}
