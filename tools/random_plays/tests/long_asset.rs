//! The sample board's text, where it may be longer: its Gets and Sets go in parts.
use record_base::{
    Attribute, AttributeKind, Attributes, Items, StringAttribute, Text, TextLengths,
};
use std::alloc::{AllocError, Global};
use std::mem::replace;

/// The handle of the sample board's text, and how many bytes it has here at most.
pub(super) const ASSET: u16 = 1;
pub(super) const MOST_TEXT: u16 = 1000;

/// The text, with room for so many bytes.
fn asset(alloc: Global) -> Result<Attribute, AllocError> {
    let lengths = TextLengths::new(0, MOST_TEXT).unwrap();
    let current = Vec::from_slice(alloc, &[0x72, 0x61, 0x63, 0x6B, 0x2D, 0x31])?;
    let kind = StringAttribute::new(1, lengths, Vec::new(alloc), current);
    Ok(Attribute {
        handle: ASSET,
        name: Text::from_slice(&[0x41, 0x73, 0x73, 0x65, 0x74]),
        read_only: false,
        kind: AttributeKind::Text(kind.unwrap()),
    })
}

/// Puts that text in its place among these attributes.
pub(super) fn put_long_asset(
    alloc: Global,
    attributes: &mut Attributes,
) -> Result<(), AllocError> {
    let mut items = Vec::new(alloc);
    let before = replace(&mut attributes.items, Items::new(Vec::new(alloc)));
    for attribute in before.into_vec() {
        if attribute.handle == ASSET {
            items.push(asset(alloc)?)?;
        } else {
            items.push(attribute)?;
        }
    }
    *attributes = Attributes::new(items).unwrap();
    Ok(())
}
