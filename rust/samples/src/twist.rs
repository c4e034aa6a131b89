//! Changes that turn a message which the tables should accept into one that they may refuse.

use crate::flow::{shares, symbol};
use crate::{random_text, spoil, Flow, Layout, Random, MAXIMUM_PRICE};

/// Changes one or two fields, and sometimes puts a fault of the reading in as well.
pub fn twist(message: &mut Vec<u8>, flow: &Flow, random: &mut Random) {
    let layout = Layout::of(message[0]).expect("one of the 23");
    for _ in 0..1 + random.below(2) {
        match random.below(6) {
            0 => set(layout, message, "Stock Locate", locate(flow, random)),
            1 => set(layout, message, "Stock", stock(flow, random)),
            2 => twist_references(layout, message, flow, random),
            3 => twist_shares(layout, message, flow, random),
            4 => twist_price(layout, message, random),
            _ => {
                let place = 1 + random.place(message.len() - 1);
                message[place] = random.byte();
            }
        }
    }
    if random.below(6) == 0 {
        let number = *random.one_of(&[2, 3, 4, 5, 6, 1]);
        spoil(layout, number, message, random);
    }
}

/// Any bytes of any small length.
pub fn random_bytes(random: &mut Random) -> Vec<u8> {
    (0..random.below(64)).map(|_| random.byte()).collect()
}

/// Sets the field if the type has it.
fn set(layout: &Layout, message: &mut [u8], name: &str, number: u64) {
    if let Some(field) = layout.field(name) {
        field.set(message, number);
    }
}

/// At both ends of the directory and beyond, and of other stocks and orders.
fn locate(flow: &Flow, random: &mut Random) -> u64 {
    let end = flow.directory as u64;
    match random.below(8) {
        0 => 0,
        1 => *random.one_of(&[end - 1, end, end + 1]),
        2 => *random.one_of(&[1, 2, 0x1000, 0x1FFF, 0x2000, 0x2001, 0x8000, 0xFFFF]),
        3 => random.below(0x1_0000),
        4 if !flow.orders.is_empty() => random.one_of(&flow.orders).locate.into(),
        _ if !flow.stocks.is_empty() => random.one_of(&flow.stocks).0.into(),
        _ => random.below(end),
    }
}

fn stock(flow: &Flow, random: &mut Random) -> u64 {
    match random.below(3) {
        0 if !flow.stocks.is_empty() => random.one_of(&flow.stocks).1,
        1 => random_text(8, random),
        _ => symbol(random),
    }
}

/// Another order's, one that is gone, 0, one near a live one, or any.
fn reference(flow: &Flow, random: &mut Random) -> u64 {
    match random.below(6) {
        0 => 0,
        1 => flow.gone,
        2 => random.number(),
        3 if !flow.orders.is_empty() => {
            random.one_of(&flow.orders).reference ^ 1 << random.below(64)
        }
        _ if !flow.orders.is_empty() => random.one_of(&flow.orders).reference,
        _ => u64::MAX,
    }
}

fn twist_references(layout: &Layout, message: &mut [u8], flow: &Flow, random: &mut Random) {
    let (original, new) = (
        layout.field("Original Order Reference Number"),
        layout.field("New Order Reference Number"),
    );
    if let (Some(original), Some(new)) = (original, new) {
        match random.below(3) {
            0 => original.set(message, reference(flow, random)),
            1 => new.set(message, reference(flow, random)),
            _ => new.set(message, original.get(message)),
        }
    }
    let number = reference(flow, random);
    set(layout, message, "Order Reference Number", number);
}

/// Next to what remains of the order named, or any.
fn twist_shares(layout: &Layout, message: &mut [u8], flow: &Flow, random: &mut Random) {
    let named = layout.field("Order Reference Number");
    let named = named.map(|field| field.get(message));
    let order = flow
        .orders
        .iter()
        .find(|order| Some(order.reference) == named);
    let remaining = order.map_or(1, |order| u64::from(order.remaining));
    let number = match random.below(6) {
        0 => remaining,
        1 | 2 => remaining + 1,
        3 => remaining.wrapping_sub(1),
        4 => 0xFFFF_FFFF,
        _ => shares(random),
    };
    for name in ["Shares", "Executed Shares", "Cancelled Shares"] {
        set(layout, message, name, number);
    }
}

fn twist_price(layout: &Layout, message: &mut [u8], random: &mut Random) {
    let edges = [
        0,
        MAXIMUM_PRICE,
        MAXIMUM_PRICE + 1,
        0x8000_0000,
        0xFFFF_FFFF,
    ];
    let number = *random.one_of(&edges);
    for name in ["Price", "Execution Price"] {
        set(layout, message, name, number);
    }
}
