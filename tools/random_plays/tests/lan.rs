//! Steps on LAN parameters, and what comes of them by the table of commands.
use super::dice::Dice;
use super::settings::{CHANNEL, refused};
use record_base::{
    ChannelNumber, Ipv4Address, Key, Lan, LanAddress, LanChange, Lans, ParameterOnChannel, SetLanParam,
    Value, VlanBytes,
};
use std::alloc::Global;
use std::test::Fail;
use undo_core::Why;

/// A channel that the board hasn't got.
const NO_CHANNEL: u8 = 2;

/// The address of these bytes.
fn address(first: u8, second: u8, third: u8, fourth: u8) -> Ipv4Address {
    Ipv4Address {
        first,
        second,
        third,
        fourth,
    }
}

/// The LAN parameters of channel 1.
pub(super) fn lans(alloc: Global) -> Result<Lans, Fail> {
    let lan = Lan::new(
        ChannelNumber::of(CHANNEL),
        address(192, 0, 2, 1),
        1,
        address(255, 255, 255, 0),
        address(192, 0, 2, 254),
        VlanBytes { low: 0, high: 0 },
    );
    let mut items = Vec::new(alloc);
    items.push(lan.ok_or("LAN parameters")?)?;
    Ok(Lans::new(items).ok_or("LAN parameters")?)
}

/// The record that a step changes.
pub(super) fn lan_key(set: &SetLanParam) -> Key {
    Key::LanParam(ParameterOnChannel {
        channel: set.channel,
        parameter: set.change.parameter(),
    })
}

/// What comes of a LAN parameter.
pub(super) fn of_lan(change: &LanChange) -> Result<Value, Why> {
    match change {
        LanChange::Address(_, it) => {
            Ok(Value::from_slice(&[it.first, it.second, it.third, it.fourth]))
        }
        LanChange::AddressSource(byte) if byte & 0x0F > 4 => refused(),
        LanChange::AddressSource(byte) => Ok(Value::from_slice(&[byte & 0x0F])),
        LanChange::Vlan(vlan) => Ok(Value::from_slice(&[vlan.low, vlan.high & 0x8F])),
    }
}

/// Any address.
fn any_address(dice: &mut Dice, which: LanAddress) -> LanChange {
    let (first, second) = (dice.byte(), dice.byte());
    let (third, fourth) = (dice.byte(), dice.byte());
    LanChange::Address(which, address(first, second, third, fourth))
}

/// Any LAN parameter: mostly of the channel that has them, with a source that there is.
pub(super) fn any_lan(dice: &mut Dice) -> SetLanParam {
    let channel = if dice.happens(5) { NO_CHANNEL } else { CHANNEL };
    let change = match dice.below(5) {
        0 => any_address(dice, LanAddress::Ip),
        1 => {
            let seldom = if dice.happens(5) { 5 } else { 0 };
            LanChange::AddressSource(dice.byte() % 5 + seldom)
        }
        2 => any_address(dice, LanAddress::SubnetMask),
        3 => any_address(dice, LanAddress::DefaultGateway),
        _ => LanChange::Vlan(VlanBytes {
            low: dice.byte(),
            high: dice.byte() & 0x8F,
        }),
    };
    SetLanParam {
        channel: ChannelNumber::of(channel),
        change,
    }
}

/// The line of a step, behind its table's name.
pub(super) fn push_lan(text: &mut String, set: &SetLanParam) -> Result<(), Fail> {
    write!(
        text,
        "kind = \"lan-param\" / channel = {} / param = {} / data = ",
        set.channel.number,
        set.change.parameter().selector()
    )?;
    match &set.change {
        LanChange::Address(_, it) => {
            write!(text, "[{}, {}, {}, {}]", it.first, it.second, it.third, it.fourth)?
        }
        LanChange::AddressSource(byte) => write!(text, "[{byte}]")?,
        LanChange::Vlan(vlan) => write!(text, "[{}, {}]", vlan.low, vlan.high)?,
    }
    if of_lan(&set.change).is_err() {
        text.push_str(" / # no file has this source")?;
    }
    Ok(())
}
