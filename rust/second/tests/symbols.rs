//! A message's symbol.

mod common;

use common::*;
use samples::{faults_of, sample, sample_with, Layout, LAYOUTS};
use second::symbol;

/// The layouts with a Stock field, and where document 000 prints it.
fn with_stock() -> impl Iterator<Item = (&'static Layout, usize)> {
    let place = |layout: &'static Layout| Some((layout, layout.field("Stock")?.offset));
    LAYOUTS.iter().filter_map(place)
}

#[test]
fn full_and_short_symbols_of_every_type_with_a_stock_field() {
    let mut types = vec![];
    for (layout, place) in with_stock() {
        types.push(layout.message_type);
        for letters in 1..=8 {
            let mut text = *b"        ";
            text[..letters].copy_from_slice(&b"!ZVzt.~A"[..letters]);
            let stock = u64::from_be_bytes(text);
            for locate in [1, 2] {
                let sets = [("Stock Locate", locate), ("Stock", stock)];
                let message = sample_with(layout.message_type, &sets);
                let mut directory = [7; 3];
                directory[locate as usize] = stock;
                assert_eq!(symbol(&directory, &message), place..place + letters);
                assert_eq!(&message[symbol(&directory, &message)], &text[..letters]);
            }
        }
    }
    types.sort_unstable();
    assert_eq!(types, b"AFHIJKLNOPQRYh");
}

#[test]
fn the_directory_must_have_the_symbol_at_the_locate() {
    for (layout, place) in with_stock() {
        let at = |locate| sample_with(layout.message_type, &[("Stock Locate", locate)]);
        let directory = [ZVZZT, ZVZZT, ZXZZT, 0, ZVZZT];
        assert_eq!(symbol(&directory, &at(1)), place..place + 5);
        assert_eq!(symbol(&directory, &at(4)), place..place + 5);
        // 0 is K's usual locate, and no locate of the directory.
        for locate in [0, 2, 3, 5, 6, 0x0101, 0xFFFF] {
            assert_eq!(symbol(&directory, &at(locate)), 0..0);
        }
    }
}

#[test]
fn k_at_locate_0_has_no_symbol_and_at_its_own_it_has() {
    let directory = [ZVZZT, ZVZZT];
    let at = |locate| sample_with(b'K', &[("Stock Locate", locate)]);
    assert_eq!(symbol(&directory, &at(0)), 0..0);
    assert_eq!(symbol(&directory, &at(1)), 11..16);
}

#[test]
fn types_without_a_stock_field() {
    for layout in LAYOUTS.iter().filter(|l| l.field("Stock").is_none()) {
        let mut message = sample_with(layout.message_type, &[("Stock Locate", 1)]);
        for place in 11..layout.length.saturating_sub(8) {
            message[place..place + 8].copy_from_slice(b"ZVZZT   ");
            assert_eq!(symbol(&[0, ZVZZT], &message), 0..0);
        }
    }
}

#[test]
fn lengths_of_the_directory() {
    let message = sample_with(b'R', &[("Stock Locate", 1)]);
    for length in 0..8_200 {
        let expected = if (2..=8_192).contains(&length) {
            11..16
        } else {
            0..0
        };
        assert_eq!(symbol(&vec![ZVZZT; length], &message), expected);
    }
}

#[test]
fn ill_formed_messages_have_no_symbol() {
    for (layout, place) in with_stock() {
        for fault in faults_of(layout) {
            let mut message = sample_with(layout.message_type, &[("Stock Locate", 1)]);
            fault.put(&mut message);
            let mut stock = [0; 8];
            stock.copy_from_slice(&message[place..place + 8]);
            let directory = [0, u64::from_be_bytes(stock)];
            assert_eq!(symbol(&directory, &message), 0..0, "{fault:?}");
        }
    }
    assert_eq!(symbol(&[ZVZZT; 2], b""), 0..0);
    assert_eq!(symbol(&[ZVZZT; 2], b"R"), 0..0);
}

#[test]
fn tables_answer_as_their_directory_does() {
    let tables = tables(&book_with(&[]));
    let at = |locate| sample_with(b'Q', &[("Stock Locate", locate)]);
    assert_eq!(tables.symbol(&at(1)), 19..24);
    assert_eq!(tables.symbol(&at(2)), 0..0);
    assert_eq!(tables.symbol(&sample(&LAYOUTS[0])), 0..0);
}
