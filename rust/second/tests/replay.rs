//! The replay: the paper's whole case, where streams may end, how large all may be, and the order of the records.

mod common;

use common::replayed::*;
use common::*;
use samples::{orders, stream_of};
use second::replay::replay;
use second::{CONFLICT, FULL, LENGTH, STOCK, TYPE};
use std::cell::RefCell;
use std::io::{self, Read, Write};

#[test]
fn the_whole_case() {
    let messages = [
        register(1, ZVZZT),
        add(5),
        execute(1, 5, 100),
        execute(1, 5, 400),
    ];
    let expected = b"\x72\0\0\0\0\0\0\0\x04\x0B\
        \x62\0\x01\0\x01\x86\xA0\0\0\0\0\0\0\0\xC8\0\0\0\x01\
        \x7A\0\0\0\0\0\0\0\x04\0\0\0\0\0\0\0\x01";
    assert_eq!(expected.len(), 46);
    assert_eq!(records(&stream_of(&messages)), expected);
}

#[test]
fn nothing_at_all() {
    assert_eq!(records(b""), counts(0, 0));
}

#[test]
fn a_block_of_no_bytes_is_refused_and_reading_goes_on() {
    let messages = [vec![], register(1, ZVZZT), vec![], add(5), vec![]];
    let expected = [
        refusal(1, LENGTH),
        refusal(3, LENGTH),
        refusal(5, LENGTH),
        level(b'b', 1, 100_000, 300, 1),
        counts(5, 3),
    ];
    assert_eq!(records(&stream_of(&messages)), expected.concat());
}

/// The whole stream and then what is cut: one message more, refused with 1.
fn cut(last: &[u8]) {
    let begun = stream_of(&[register(1, ZVZZT), add(5)]);
    let expected = [
        refusal(3, LENGTH),
        level(b'b', 1, 100_000, 300, 1),
        counts(3, 1),
    ];
    let stream = [&begun, last].concat();
    assert_eq!(records(&stream), expected.concat(), "{last:X?}");
    let alone = [refusal(1, LENGTH), counts(1, 1)].concat();
    assert_eq!(records(last), alone, "{last:X?} alone");
}

#[test]
fn a_cut_block_is_one_message_refused_with_1() {
    let whole = stream_of(&[add(6)]);
    for length in 1..whole.len() {
        cut(&whole[..length]);
    }
}

#[test]
fn half_a_length_and_a_length_with_no_body() {
    for first in [0, 1, b'Z', 0xFF] {
        cut(&[first]);
    }
    for length in [1, 36, 256, u16::MAX] {
        cut(&length.to_be_bytes());
    }
}

#[test]
fn a_cut_block_is_not_applied_though_its_bytes_are_a_whole_message() {
    let other = register(2, ZXZZT);
    assert_eq!(other.len(), 39);
    cut(&[&[0, 40], &other[..]].concat());
    cut(&[&[0, 20], &delete(1, 5)[..]].concat());
    cut(&[&[0xFF, 0xFF], &add(6)[..]].concat());
}

#[test]
fn a_cut_block_of_no_type_is_refused_with_1() {
    cut(b"\0\x02Z");
    cut(b"\xFF\xFFZZZZ");
}

#[test]
fn a_length_of_0_at_the_end_is_a_block_of_no_bytes_once() {
    cut(&[0, 0]);
}

#[test]
fn the_longest_blocks() {
    let mut longest = add(6);
    longest.resize(65_535, b' ');
    let messages = [
        register(1, ZVZZT),
        longest.clone(),
        vec![b'Z'; 65_535],
        add(5),
        longest,
        vec![b'Z'; 65_534],
    ];
    let expected = [
        refusal(2, LENGTH),
        refusal(3, TYPE),
        refusal(5, LENGTH),
        refusal(6, TYPE),
        level(b'b', 1, 100_000, 300, 1),
        counts(6, 4),
    ];
    let stream = stream_of(&messages);
    assert_eq!(records(&stream), expected.concat());
    let short = stream.len() - 1;
    let mut expected = expected;
    expected[3] = refusal(6, LENGTH);
    assert_eq!(records(&stream[..short]), expected.concat());
}

#[test]
fn a_full_book() {
    let mut messages = vec![register(1, ZVZZT)];
    messages.extend((1..=1_024).map(add));
    messages.extend([
        add(1_025),
        add(7),
        replace(1, 7, 2_000),
        add(7),
        delete(1, 8),
        add(7),
        add(8),
    ]);
    let expected = [
        refusal(1_026, FULL),
        refusal(1_027, second::DUPLICATE),
        refusal(1_029, FULL),
        refusal(1_032, FULL),
        level(b'b', 1, 100_000, 300 * 1_023, 1_023),
        level(b'b', 1, 99_900, 70, 1),
        counts(1_032, 4),
    ];
    assert_eq!(records(&stream_of(&messages)), expected.concat());
}

#[test]
fn locates_from_1_to_2_047() {
    let at = |locate, reference| {
        let (side, price) = (b'S', 0);
        orders::add(
            b'A',
            Order {
                locate,
                side,
                price,
                ..order(reference)
            },
        )
    };
    let messages = [
        register(2_047, ZVZZT),
        register(2_048, ZVZZT),
        register(0, ZVZZT),
        register(65_535, ZVZZT),
        at(2_047, 1),
        at(2_048, 2),
        at(2_046, 3),
        register(2_047, ZXZZT),
        execute(2_048, 1, 3),
        execute(2_047, 1, 3),
    ];
    let expected = [
        refusal(2, STOCK),
        refusal(3, STOCK),
        refusal(4, STOCK),
        refusal(6, STOCK),
        refusal(7, STOCK),
        refusal(8, CONFLICT),
        refusal(9, CONFLICT),
        level(b's', 2_047, 0, 297, 1),
        counts(10, 7),
    ];
    assert_eq!(records(&stream_of(&messages)), expected.concat());
}

#[test]
fn by_rising_locate_buys_then_sells_best_first() {
    let mut messages = vec![register(300, ZXZZT), register(2, ZVZZT), register(1, ZVZZT)];
    let prices = [100_100, 0, 99_900, 2_000_000_000, 100_000, 99_900];
    let mut reference = 0;
    for (locate, stock) in [(300, ZXZZT), (1, ZVZZT), (2, ZVZZT)] {
        for price in prices {
            for side in *b"SB" {
                reference += 1;
                let shares = 4_294_967_295;
                let order = Order {
                    locate,
                    stock,
                    reference,
                    side,
                    shares,
                    price,
                };
                messages.push(orders::add(b'A', order));
            }
        }
    }
    let mut expected = vec![];
    let rising = [0, 99_900, 100_000, 100_100, 2_000_000_000];
    let most = 4_294_967_295_u64;
    for locate in [1, 2, 300] {
        let mut side = |kind, price| {
            let orders = 1 + u32::from(price == 99_900);
            expected.extend(level(kind, locate, price, most * u64::from(orders), orders));
        };
        rising.iter().rev().for_each(|price| side(b'b', *price));
        rising.iter().for_each(|price| side(b's', *price));
    }
    expected.extend(counts(39, 0));
    assert_eq!(records(&stream_of(&messages)), expected);
}

/// What was written, for others to look at.
struct Shared<'a>(&'a RefCell<Vec<u8>>);

impl Write for Shared<'_> {
    fn write(&mut self, bytes: &[u8]) -> io::Result<usize> {
        self.0.borrow_mut().write(bytes)
    }

    fn flush(&mut self) -> io::Result<()> {
        Ok(())
    }
}

/// A block of no bytes at each of three readings, and all of them must be told before the next one.
struct Watching<'a> {
    written: &'a RefCell<Vec<u8>>,
    readings: usize,
}

impl Read for Watching<'_> {
    fn read(&mut self, buffer: &mut [u8]) -> io::Result<usize> {
        assert_eq!(self.written.borrow().len(), 10 * self.readings);
        if self.readings == 3 {
            return Ok(0);
        }
        self.readings += 1;
        buffer[..2].fill(0);
        Ok(2)
    }
}

#[test]
fn a_refusal_is_told_before_more_is_read() {
    let written = RefCell::new(vec![]);
    let (input, output) = (
        Watching {
            written: &written,
            readings: 0,
        },
        Shared(&written),
    );
    replay(input, output).unwrap();
    let expected = [1, 2, 3].map(|message| refusal(message, LENGTH));
    assert_eq!(
        *written.borrow(),
        [expected.concat(), counts(3, 3)].concat()
    );
}
