//! Steps on users, channels, the watchdog, the power policy, boot parameters, LAN parameters, global enables, an enumeration and states,
//! and what comes of them by the tables of commands.
use super::dice::Dice;
use super::lan::{any_lan, lan_key, of_lan, push_lan};
use cfg_records::{Key, Op, Value, byte_at};
use record_base::{
    AccessStore, BootChange, BootFlags, BootParameter, ChannelChange, ChannelNumber, FieldChange,
    FieldChanges, MaskedBits, SetBiosAttribute, SetBootParam, SetChannelAccess, SetGlobalEnables,
    SetPowerPolicy, SetStateEffecter, SetUserAccess, SetUserName, SetWatchdog, SixBits,
    StoredAccess, UserNumber, UserOnChannel,
};
use record_base::SetLanParam;
use std::test::Fail;
use two_wire::{Code, code};
use undo_core::Why;

/// The handle of the sample board's enumeration, of two possible values.
const QUIET: u16 = 0;

/// The type of an enumeration (DSP0247).
const ENUMERATION_TYPE: u8 = 0x00;

/// The state effecter, of two fields: the first may have the states 1 and 2, the second 1 to 3.
pub(super) const STATES: u16 = 9;
const GREATEST: [u8; 2] = [2, 3];

/// The channel with sessions, and with LAN parameters where the board has any.
pub(super) const CHANNEL: u8 = 1;

/// A step.
#[derive(Clone, Copy)]
pub(super) enum Setting {
    Policy(u8),
    Enables(u8),
    Name(SetUserName),
    User(SetUserAccess),
    Channel(SetChannelAccess),
    Boot(SetBootParam),
    Lan(SetLanParam),
    Watchdog(SetWatchdog),
    Quiet(u8),
    /// For each field its new state, or 0 where it's left.
    States([u8; 2]),
}

/// The operation that gives fields these states.
fn states_op(states: [u8; 2]) -> Op<'static> {
    let mut changes = FieldChanges::new();
    for state in states {
        let choice = if state == 0 { 0 } else { 1 };
        changes.push(FieldChange { choice, state });
    }
    Op::StateEffecter(SetStateEffecter {
        effecter: STATES,
        changes,
    })
}

/// The parameter that a change of a boot parameter is of.
fn parameter(change: &BootChange) -> BootParameter {
    match change {
        BootChange::MarkAlone(parameter) => *parameter,
        BootChange::ValidBitClearing(_) => BootParameter::ValidBitClearing,
        BootChange::InfoAcknowledge(_) => BootParameter::InfoAcknowledge,
        BootChange::Flags(_) => BootParameter::Flags,
    }
}

impl Setting {
    /// The step as plans have it. The value that it gives to an attribute lies in the room.
    pub fn op<'v>(&self, room: &'v mut Value) -> Op<'v> {
        match self {
            Setting::Policy(policy) => Op::PowerPolicy(SetPowerPolicy { policy: *policy }),
            Setting::Enables(byte) => Op::GlobalEnables(SetGlobalEnables { byte: *byte }),
            Setting::Name(set) => Op::UserName(*set),
            Setting::User(set) => Op::UserAccess(*set),
            Setting::Channel(set) => Op::ChannelAccess(*set),
            Setting::Boot(set) => Op::BootParam(*set),
            Setting::Lan(set) => Op::LanParam(*set),
            Setting::Watchdog(set) => Op::Watchdog(*set),
            Setting::Quiet(index) => {
                room.replace(&[1, *index]);
                Op::BiosAttribute(SetBiosAttribute::of(QUIET, ENUMERATION_TYPE, room.as_slice()))
            }
            Setting::States(states) => states_op(*states),
        }
    }

    /// The record that it changes.
    pub fn key(&self) -> Key {
        match self {
            Setting::Policy(_) => Key::PowerPolicy,
            Setting::Enables(_) => Key::GlobalEnables,
            Setting::Name(set) => Key::UserName(UserNumber::of(set.user)),
            Setting::User(set) => Key::UserAccess(UserOnChannel::of(set.first, set.user)),
            Setting::Channel(set) => Key::ChannelAccess(StoredAccess {
                channel: set.channel,
                store: set.store,
            }),
            Setting::Boot(set) => Key::BootParam(parameter(&set.change)),
            Setting::Lan(set) => lan_key(set),
            Setting::Watchdog(_) => Key::Watchdog,
            Setting::Quiet(_) => Key::BiosAttribute(QUIET),
            Setting::States(_) => Key::StateEffecter(STATES),
        }
    }

    /// The code with which a Get is refused where there is no such record.
    pub fn absent(&self) -> Code {
        match self {
            Setting::States(_) => code::PLDM_INVALID_EFFECTER,
            _ => code::INVALID_DATA_FIELD,
        }
    }

    /// What comes of it where its record has this value.
    pub fn outcome(&self, old: &[u8]) -> Result<Value, Why> {
        match self {
            Setting::Policy(3) => Ok(Value::from_slice(old)),
            Setting::Policy(policy) => Ok(Value::from_slice(&[*policy])),
            Setting::Enables(byte) if byte & 0x10 != 0 => refused(),
            Setting::Enables(byte) => Ok(Value::from_slice(&[*byte])),
            Setting::Name(set) => Ok(Value::from_slice(&set.name)),
            Setting::User(set) => of_user(set, byte_at(old, 0)),
            Setting::Channel(set) => of_channel(&set.change, old),
            Setting::Boot(set) => Ok(of_boot(set, old)),
            Setting::Lan(set) => of_lan(&set.change),
            // It was never set.
            Setting::Watchdog(_) => Err(Why::NotRestorable),
            Setting::Quiet(index) if *index > 1 => {
                Err(Why::Refused(code::PLDM_INVALID_DATA))
            }
            Setting::Quiet(index) => Ok(Value::from_slice(&[1, *index])),
            Setting::States(states) => of_states(*states, old),
        }
    }
}

/// The controller refuses a field of the request.
pub(super) fn refused() -> Result<Value, Why> {
    Err(Why::Refused(code::INVALID_DATA_FIELD))
}

/// What comes of a user's access.
fn of_user(set: &SetUserAccess, old: u8) -> Result<Value, Why> {
    if !matches!(set.limit, 1..=5 | 15) {
        return refused();
    }
    let bits = if set.first & 0x80 != 0 { set.first } else { old };
    Ok(Value::from_slice(&[bits & 0x70 | set.limit]))
}

/// What comes of a channel's access.
fn of_channel(change: &ChannelChange, old: &[u8]) -> Result<Value, Why> {
    let (access, limit) = match change {
        ChannelChange::Access(access) => (access.number, byte_at(old, 1)),
        ChannelChange::Limit(limit) => (byte_at(old, 0), limit.number),
        ChannelChange::Both(access, limit) => (access.number, limit.number),
    };
    if access & 0x07 > 3 || limit == 0 || limit > 5 {
        return refused();
    }
    Ok(Value::from_slice(&[access, limit]))
}

/// What comes of a boot parameter.
fn of_boot(set: &SetBootParam, old: &[u8]) -> Value {
    let mark = if set.invalid { 1 } else { 0 };
    match &set.change {
        BootChange::MarkAlone(_) => {
            let mut value = Value::from_slice(&[mark]);
            value.extend_from_slice(old.get(1..).unwrap_or(&[]));
            value
        }
        BootChange::ValidBitClearing(byte) => Value::from_slice(&[mark, byte & 0x1F]),
        BootChange::InfoAcknowledge(set) => {
            Value::from_slice(&[mark, byte_at(old, 1) & !set.mask | set.bits & set.mask])
        }
        BootChange::Flags(flags) => Value::from_slice(&[
            mark,
            flags.validity,
            flags.device,
            flags.console,
            flags.overrides,
            flags.instance,
        ]),
    }
}

/// What comes of states.
fn of_states(states: [u8; 2], old: &[u8]) -> Result<Value, Why> {
    let mut value = Value::new();
    for place in 0..2 {
        let state = states[place];
        if state > GREATEST[place] {
            return Err(Why::Refused(code::PLDM_INVALID_STATE));
        }
        value.extend_from_slice(&[if state == 0 { byte_at(old, place) } else { state }]);
    }
    Ok(value)
}

/// A user's access: mostly that of the second user.
fn any_user(dice: &mut Dice) -> Setting {
    let user = if dice.happens(8) { dice.byte() % 16 } else { 2 };
    let bits = if dice.happens(50) { 0x80 | dice.byte() & 0x70 } else { 0 };
    let limit = if dice.happens(8) { dice.byte() % 16 } else { 1 + dice.byte() % 5 };
    Setting::User(SetUserAccess {
        first: bits | CHANNEL,
        user,
        limit,
        session_limit: None,
    })
}

/// A channel's access in one of its stores.
fn any_channel(dice: &mut Dice) -> Setting {
    let mode = if dice.happens(5) { 0x07 } else { 0x03 };
    let access = SixBits::of(dice.byte() & (0x38 | mode));
    let limit = SixBits::of(1 + dice.byte() % 5);
    let change = match dice.below(3) {
        0 => ChannelChange::Access(access),
        1 => ChannelChange::Limit(limit),
        _ => ChannelChange::Both(access, limit),
    };
    let store = if dice.happens(50) {
        AccessStore::NonVolatile
    } else {
        AccessStore::Volatile
    };
    Setting::Channel(SetChannelAccess {
        channel: ChannelNumber::of(CHANNEL),
        store,
        change,
    })
}

/// A boot parameter.
fn any_boot(dice: &mut Dice) -> Setting {
    let change = match dice.below(4) {
        0 => BootChange::MarkAlone(BootParameter::Flags),
        1 => BootChange::ValidBitClearing(dice.byte() % 32),
        2 => BootChange::InfoAcknowledge(MaskedBits {
            mask: dice.byte(),
            bits: dice.byte(),
        }),
        _ => BootChange::Flags(BootFlags {
            validity: dice.byte(),
            device: dice.byte(),
            console: dice.byte(),
            overrides: dice.byte(),
            instance: dice.byte(),
        }),
    };
    Setting::Boot(SetBootParam {
        invalid: dice.happens(50),
        change,
    })
}

/// A user's name, of 16 letters: that of the second user.
fn any_name(dice: &mut Dice) -> Setting {
    let mut name = [0; 16];
    for place in 0..16 {
        name[place] = 0x61 + dice.byte() % 26;
    }
    Setting::Name(SetUserName { user: 2, name })
}

/// Settings of the watchdog, which was never set.
fn any_watchdog(dice: &mut Dice) -> Setting {
    Setting::Watchdog(SetWatchdog {
        timer_use: 1 + dice.byte() % 5,
        actions: dice.byte() & 0x33,
        pre_timeout: dice.byte(),
        flags_to_clear: 0,
        initial: dice.word(),
    })
}

/// Any of these steps; seldom one on the watchdog.
pub(super) fn any_setting(dice: &mut Dice) -> Setting {
    match dice.below(28) {
        0..=2 => Setting::Policy(dice.byte() % 4),
        3..=5 => {
            let reserved = if dice.happens(5) { 0x10 } else { 0 };
            Setting::Enables(dice.byte() & 0xEF | reserved)
        }
        6..=8 => any_name(dice),
        9..=11 => any_user(dice),
        12..=14 => any_channel(dice),
        15..=17 => any_boot(dice),
        18..=20 => {
            let seldom = if dice.happens(5) { 1 } else { 0 };
            Setting::Quiet(dice.byte() % 2 + seldom)
        }
        21..=23 => {
            let seldom = if dice.happens(5) { 1 } else { 0 };
            Setting::States([dice.byte() % 3 + seldom, dice.byte() % 4 + seldom])
        }
        24..=26 => Setting::Lan(any_lan(dice)),
        _ => any_watchdog(dice),
    }
}

/// The number of a boot parameter, and the data of its change as a plan's file has them.
fn push_boot(text: &mut String, set: &SetBootParam) -> Result<(), Fail> {
    let number = match parameter(&set.change) {
        BootParameter::ValidBitClearing => 3,
        BootParameter::InfoAcknowledge => 4,
        BootParameter::Flags => 5,
    };
    write!(text, "kind = \"boot-param\" / param = {number} / invalid = {}", set.invalid)?;
    match &set.change {
        BootChange::MarkAlone(_) => {}
        BootChange::ValidBitClearing(byte) => write!(text, " / data = [{byte}]")?,
        BootChange::InfoAcknowledge(it) => write!(text, " / data = [{}, {}]", it.mask, it.bits)?,
        BootChange::Flags(it) => write!(
            text,
            " / data = [{}, {}, {}, {}, {}]",
            it.validity, it.device, it.console, it.overrides, it.instance
        )?,
    }
    Ok(())
}

/// A user's access, whose bits are three booleans.
fn push_user(text: &mut String, set: &SetUserAccess) -> Result<(), Fail> {
    write!(
        text,
        "kind = \"user-access\" / channel = {CHANNEL} / user = {} / limit = {}",
        set.user, set.limit
    )?;
    if set.first & 0x80 != 0 {
        write!(
            text,
            " / callback = {} / link = {} / messaging = {}",
            set.first & 0x40 != 0,
            set.first & 0x20 != 0,
            set.first & 0x10 != 0
        )?;
    }
    Ok(())
}

/// A channel's access.
fn push_channel(text: &mut String, set: &SetChannelAccess) -> Result<(), Fail> {
    let store = match set.store {
        AccessStore::NonVolatile => "non-volatile",
        _ => "volatile",
    };
    write!(text, "kind = \"channel-access\" / channel = {CHANNEL} / store = \"{store}\"")?;
    match &set.change {
        ChannelChange::Access(access) => write!(text, " / access = {}", access.number)?,
        ChannelChange::Limit(limit) => write!(text, " / limit = {}", limit.number)?,
        ChannelChange::Both(access, limit) => {
            write!(text, " / access = {} / limit = {}", access.number, limit.number)?
        }
    }
    Ok(())
}

/// A state as a plan's file has it: -1 where it's left.
fn state_in_file(state: u8) -> i16 {
    if state == 0 { -1 } else { i16::from(state) }
}

/// The line of a step, behind its table's name.
pub(super) fn push_setting(text: &mut String, setting: &Setting) -> Result<(), Fail> {
    match setting {
        Setting::Policy(policy) => write!(text, "kind = \"power-policy\" / policy = {policy}")?,
        Setting::Enables(byte) => write!(text, "kind = \"global-enables\" / value = {byte}")?,
        Setting::Name(set) => {
            write!(text, "kind = \"user-name\" / user = {} / name = \"", set.user)?;
            for letter in set.name {
                write!(text, "{}", char::from(letter))?;
            }
            text.push_str("\"")?;
        }
        Setting::User(set) => push_user(text, set)?,
        Setting::Channel(set) => push_channel(text, set)?,
        Setting::Boot(set) => push_boot(text, set)?,
        Setting::Lan(set) => push_lan(text, set)?,
        Setting::Watchdog(set) => write!(
            text,
            "kind = \"watchdog\" / use = {} / no_log = false / action = {} / interrupt = {} / pre = {} / initial = {}",
            set.timer_use,
            set.actions & 0x07,
            set.actions >> 4,
            set.pre_timeout,
            set.initial
        )?,
        Setting::Quiet(index) => write!(
            text,
            "kind = \"bios-attribute\" / handle = {QUIET} / indexes = [{index}]"
        )?,
        Setting::States([first, second]) => write!(
            text,
            "kind = \"state-effecter\" / effecter = {STATES} / states = [{}, {}]",
            state_in_file(*first),
            state_in_file(*second)
        )?,
    }
    Ok(())
}
