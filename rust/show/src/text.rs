//! The text for a person.

use crate::records::{Level, Records, Refusal, Side};
use crate::stream::{Block, Stream};

/// The paper's names of the refusals, from 1 on.
const NAMES: [&str; 14] = [
    "LENGTH",
    "TYPE",
    "TIME",
    "FIELD",
    "PRICE",
    "SHARES",
    "STOCK",
    "CONFLICT",
    "DUPLICATE",
    "NO ORDER",
    "OVER",
    "FULL",
    "BOOK",
    "SHAPE",
];

/// Ladders, refusals and counts; or why the records are none of this stream.
pub fn text(records: &Records, stream: &Stream) -> Result<String, String> {
    let (told, there) = (records.messages, stream.messages());
    if told != there {
        return Err(format!(
            "records of {told} messages, but the stream has {there}"
        ));
    }
    let mut text = String::new();
    let stocks = records
        .levels
        .chunk_by(|one, other| one.locate == other.locate);
    for levels in stocks {
        text += &ladder(levels, stream);
        text += "\n";
    }
    for refusal in &records.refusals {
        text += &line(refusal, stream)?;
    }
    text += &format!("{told} messages, {} refused\n", records.refused);
    Ok(text)
}

/// The levels of one stock, the best of both sides in the first line.
fn ladder(levels: &[Level], stream: &Stream) -> String {
    let locate = levels[0].locate;
    let symbol = stream.symbol(locate);
    let mut text = symbol.unwrap_or_else(|| format!("locate {locate}")) + "\n";
    text += &format!("{:>8} {:>14} {:>12} |", "orders", "shares", "bid");
    text += &format!("{:>13} {:>14} {:>8}\n", "offer", "shares", "orders");
    let of = |side| levels.iter().filter(move |level| level.side == side);
    let (mut bids, mut offers) = (of(Side::Bid), of(Side::Offer));
    loop {
        let row = (bids.next(), offers.next());
        if row == (None, None) {
            return text;
        }
        text += &bid(row.0);
        text += &offer(row.1);
    }
}

fn bid(level: Option<&Level>) -> String {
    match level {
        None => format!("{:36} |", ""),
        Some(level) => {
            let (orders, total, price) = (level.orders, level.total, price(level.price));
            format!("{orders:>8} {total:>14} {price:>12} |")
        }
    }
}

fn offer(level: Option<&Level>) -> String {
    match level {
        None => "\n".into(),
        Some(level) => {
            let (orders, total, price) = (level.orders, level.total, price(level.price));
            format!("{price:>13} {total:>14} {orders:>8}\n")
        }
    }
}

/// As a decimal with the four places that are implied.
fn price(price: u32) -> String {
    format!("{}.{:04}", price / 10_000, price % 10_000)
}

/// The message's number, its type, and why it was refused.
fn line(refusal: &Refusal, stream: &Stream) -> Result<String, String> {
    let (message, number) = (refusal.message, refusal.number);
    let Some(block) = stream.block(message) else {
        return Err(format!("message {message} is not in the stream"));
    };
    let name = usize::from(number).checked_sub(1);
    let Some(name) = name.and_then(|place| NAMES.get(place)) else {
        return Err(format!("{number} is no refusal"));
    };
    let kind = kind(block);
    Ok(format!(
        "message {message:>6}  {kind:<10}  refused {number:>2} {name}\n"
    ))
}

fn kind(block: Block) -> String {
    match block {
        Block::Whole([]) => "no bytes".into(),
        Block::Whole([first, ..]) => letter(*first),
        Block::Cut([]) => "cut".into(),
        Block::Cut([first, ..]) => letter(*first) + ", cut",
    }
}

fn letter(byte: u8) -> String {
    match byte {
        b'!'..=b'~' => char::from(byte).into(),
        _ => format!("hex {byte:02X}"),
    }
}

#[cfg(test)]
mod tests {
    use super::*;
    use samples::{day, sample_with, stream_of};
    use second::replay::replay;

    fn records(stream: &[u8]) -> Records {
        let mut records = vec![];
        replay(stream, &mut records).unwrap();
        Records::read(&records).unwrap()
    }

    fn shown(stream: &[u8]) -> String {
        text(&records(stream), &Stream::of(stream)).unwrap()
    }

    #[test]
    fn the_day_has_two_sided_ladders_and_refusals_of_eleven_names() {
        let records = records(&day());
        assert!((250..=400).contains(&records.messages));
        for locate in 1..=5 {
            for side in [Side::Bid, Side::Offer] {
                let levels = records.levels.iter();
                let levels = levels.filter(|level| (level.locate, level.side) == (locate, side));
                let orders: Vec<u32> = levels.map(|level| level.orders).collect();
                assert!(orders.len() >= 4, "{orders:?}");
                assert!(orders.iter().any(|&orders| orders >= 2), "{orders:?}");
            }
        }
        for number in 1..=11 {
            assert!(records.refusals.iter().any(|it| it.number == number));
        }
    }

    #[test]
    fn a_ladder_and_every_way_to_show_a_refused_message() {
        let order = |reference, side: u8, price| {
            let sets = [
                ("Stock Locate", 2),
                ("Order Reference Number", reference),
                ("Buy/Sell Indicator", side.into()),
                ("Shares", 4_294_967_295),
                ("Price", price),
            ];
            sample_with(b'A', &sets)
        };
        let mut stream = stream_of(&[
            sample_with(b'R', &[("Stock Locate", 2)]),
            order(1, b'B', 99_900),
            order(2, b'B', 99_900),
            order(3, b'S', 2_000_000_000),
            order(4, b'S', 100_001),
            order(4, b'S', 5),
            vec![],
            vec![0xFF],
        ]);
        let expected = "ZVZZT
  orders         shares          bid |        offer         shares   orders
       2     8589934590       9.9900 |      10.0001     4294967295        1
                                     |  200000.0000     4294967295        1

message      6  A           refused  9 DUPLICATE
message      7  no bytes    refused  1 LENGTH
message      8  hex FF      refused  2 TYPE
";
        assert_eq!(shown(&stream), format!("{expected}8 messages, 3 refused\n"));
        for (end, kind) in [
            (&b"\0"[..], "cut"),
            (b"\0\x01", "cut"),
            (b"\0\x02Z", "Z, cut"),
        ] {
            stream.extend(end);
            let line = format!("message      9  {kind:<10}  refused  1 LENGTH\n");
            let counts = "9 messages, 4 refused\n";
            assert_eq!(shown(&stream), format!("{expected}{line}{counts}"));
            stream.truncate(stream.len() - end.len());
        }
    }

    #[test]
    fn one_side_alone_and_a_stock_without_a_symbol() {
        let level = |side, price| Level {
            side,
            locate: 17,
            price,
            total: 1,
            orders: 1,
        };
        let mut records = Records::default();
        records.levels.push(level(Side::Bid, 0));
        let expected = "locate 17
  orders         shares          bid |        offer         shares   orders
       1              1       0.0000 |

0 messages, 0 refused
";
        assert_eq!(text(&records, &Stream::of(b"")).unwrap(), expected);
    }

    #[test]
    fn records_of_another_stream() {
        let stream = day();
        let refusal = |message, number| Records {
            refusals: vec![Refusal { message, number }],
            messages: 329,
            ..Records::default()
        };
        let error = |records| text(&records, &Stream::of(&stream)).unwrap_err();
        assert_eq!(error(refusal(0, 1)), "message 0 is not in the stream");
        assert_eq!(error(refusal(330, 1)), "message 330 is not in the stream");
        assert_eq!(error(refusal(329, 0)), "0 is no refusal");
        assert_eq!(error(refusal(329, 15)), "15 is no refusal");
        let none = error(Records::default());
        assert_eq!(none, "records of 0 messages, but the stream has 329");
    }
}
