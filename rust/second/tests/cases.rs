//! The paper's cases 1 to 3.

use samples::{sample, Layout, Rule, LAYOUTS};
use second::{read, Answer, Message, LENGTH, PRICE, TIME, TYPE};

fn refused(bytes: &[u8]) -> Option<u8> {
    match read(bytes) {
        Answer::Refused(number) => Some(number),
        Answer::Good(_) => None,
    }
}

/// The sample of a layout with one number stored in every field of a rule.
fn with(layout: &Layout, rule: Rule, number: u64) -> Vec<u8> {
    let mut message = sample(layout);
    for field in layout.fields().filter(|field| field.rule == rule) {
        field.set(&mut message, number);
    }
    message
}

#[test]
fn case_1_no_bytes_and_one_byte() {
    assert_eq!(refused(b""), Some(LENGTH));
    assert_eq!(refused(b"A"), Some(LENGTH));
    assert_eq!(refused(b"Z"), Some(TYPE));
}

#[test]
fn case_2_the_last_nanosecond_of_the_day() {
    for layout in &LAYOUTS {
        let last = with(layout, Rule::Time, 86_399_999_999_999);
        assert_eq!(refused(&last), None);
        let next = with(layout, Rule::Time, 86_400_000_000_000);
        assert_eq!(refused(&next), Some(TIME));
    }
}

#[test]
fn case_3_the_largest_price() {
    for layout in &LAYOUTS {
        let has_price = layout.fields().any(|field| field.rule == Rule::Price);
        let largest = with(layout, Rule::Price, 2_000_000_000);
        assert_eq!(refused(&largest), None);
        let above = with(layout, Rule::Price, 2_000_000_001);
        assert_eq!(refused(&above), has_price.then_some(PRICE));
    }
}

#[test]
fn an_add_order_written_out_by_hand() {
    let bytes = b"A\x00\x01\x00\x02\x1F\x1A\xCE\xC2\xB0\x00\
        \x00\x00\x00\x00\x00\x00\x00\x05B\x00\x00\x01\x2CZVZZT   \x00\x01\x86\xA0";
    let Answer::Good(Message::AddOrder(order)) = read(bytes) else {
        panic!("it is well formed");
    };
    assert_eq!((order.stock_locate, order.tracking_number), (1, 2));
    assert_eq!(order.timestamp.0, 0x1F1A_CEC2_B000);
    assert_eq!(order.order_reference_number, 5);
    assert_eq!(order.buy_sell_indicator, second::Side::Buy);
    assert_eq!((order.shares.0, order.price.0), (300, 100_000));
    assert_eq!(&order.stock.0, b"ZVZZT   ");
    let mut out = [0; 18];
    out[..9].copy_from_slice(&[
        0x41,
        1,
        2,
        0x1F1A_CEC2_B000,
        5,
        0x42,
        300,
        0x5A56_5A5A_5420_2020,
        100_000,
    ]);
    assert_eq!(second::numbers(&read(bytes)), (0, out));
}
