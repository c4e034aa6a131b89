//! Document 000's tables, sections 1.1 to 1.8, with the offsets printed there.

use crate::{Field, Layout, Rule};

const fn row(name: &'static str, offset: usize, width: usize, rule: Rule) -> Field {
    Field {
        name,
        offset,
        width,
        rule,
    }
}

const fn free(name: &'static str, offset: usize, width: usize) -> Field {
    row(name, offset, width, Rule::Free)
}

const fn text(name: &'static str, offset: usize, width: usize) -> Field {
    row(name, offset, width, Rule::Text)
}

const fn price(name: &'static str, offset: usize) -> Field {
    row(name, offset, 4, Rule::Price)
}

const fn shares(name: &'static str, offset: usize) -> Field {
    row(name, offset, 4, Rule::Shares)
}

const fn side(offset: usize) -> Field {
    row("Buy/Sell Indicator", offset, 1, Rule::Side)
}

/// The fields that every message begins with, after its type.
pub static HEAD: [Field; 3] = [
    free("Stock Locate", 1, 2),
    free("Tracking Number", 3, 2),
    row("Timestamp", 5, 6, Rule::Time),
];

static S: [Field; 1] = [free("Event Code", 11, 1)];

static R: [Field; 14] = [
    text("Stock", 11, 8),
    free("Market Category", 19, 1),
    free("Financial Status Indicator", 20, 1),
    free("Round Lot Size", 21, 4),
    free("Round Lots Only", 25, 1),
    free("Issue Classification", 26, 1),
    free("Issue Sub Type", 27, 2),
    free("Authenticity", 29, 1),
    free("Short Sale Threshold Indicator", 30, 1),
    free("IPO Flag", 31, 1),
    free("LULD Reference Price Tier", 32, 1),
    free("ETP Flag", 33, 1),
    free("ETP Leverage Factor", 34, 4),
    free("Inverse Indicator", 38, 1),
];

static H: [Field; 4] = [
    text("Stock", 11, 8),
    free("Trading State", 19, 1),
    free("Reserved", 20, 1),
    free("Reason", 21, 4),
];

static Y: [Field; 2] = [text("Stock", 11, 8), free("Reg SHO Action", 19, 1)];

static L: [Field; 5] = [
    text("MPID", 11, 4),
    text("Stock", 15, 8),
    free("Primary Market Maker", 23, 1),
    free("Market Maker Mode", 24, 1),
    free("Market Participant State", 25, 1),
];

static V: [Field; 3] = [
    free("Level 1", 11, 8),
    free("Level 2", 19, 8),
    free("Level 3", 27, 8),
];

static W: [Field; 1] = [free("Breached Level", 11, 1)];

static K: [Field; 4] = [
    text("Stock", 11, 8),
    free("IPO Quotation Release Time", 19, 4),
    free("IPO Quotation Release Qualifier", 23, 1),
    price("IPO Price", 24),
];

static J: [Field; 5] = [
    text("Stock", 11, 8),
    price("Auction Collar Reference Price", 19),
    price("Upper Auction Collar Price", 23),
    price("Lower Auction Collar Price", 27),
    free("Auction Collar Extension", 31, 4),
];

static SMALL_H: [Field; 3] = [
    text("Stock", 11, 8),
    free("Market Code", 19, 1),
    free("Operational Halt Action", 20, 1),
];

static A: [Field; 5] = [
    free("Order Reference Number", 11, 8),
    side(19),
    shares("Shares", 20),
    text("Stock", 24, 8),
    price("Price", 32),
];

static F: [Field; 6] = [
    free("Order Reference Number", 11, 8),
    side(19),
    shares("Shares", 20),
    text("Stock", 24, 8),
    price("Price", 32),
    text("Attribution", 36, 4),
];

static E: [Field; 3] = [
    free("Order Reference Number", 11, 8),
    shares("Executed Shares", 19),
    free("Match Number", 23, 8),
];

static C: [Field; 5] = [
    free("Order Reference Number", 11, 8),
    shares("Executed Shares", 19),
    free("Match Number", 23, 8),
    row("Printable", 31, 1, Rule::Printable),
    price("Execution Price", 32),
];

static X: [Field; 2] = [
    free("Order Reference Number", 11, 8),
    shares("Cancelled Shares", 19),
];

static D: [Field; 1] = [free("Order Reference Number", 11, 8)];

static U: [Field; 4] = [
    free("Original Order Reference Number", 11, 8),
    free("New Order Reference Number", 19, 8),
    shares("Shares", 27),
    price("Price", 31),
];

static P: [Field; 6] = [
    free("Order Reference Number", 11, 8),
    side(19),
    free("Shares", 20, 4),
    text("Stock", 24, 8),
    price("Price", 32),
    free("Match Number", 36, 8),
];

static Q: [Field; 5] = [
    free("Shares", 11, 8),
    text("Stock", 19, 8),
    price("Cross Price", 27),
    free("Match Number", 31, 8),
    free("Cross Type", 39, 1),
];

static B: [Field; 1] = [free("Match Number", 11, 8)];

static I: [Field; 9] = [
    free("Paired Shares", 11, 8),
    free("Imbalance Shares", 19, 8),
    free("Imbalance Direction", 27, 1),
    text("Stock", 28, 8),
    price("Far Price", 36),
    price("Near Price", 40),
    price("Current Reference Price", 44),
    free("Cross Type", 48, 1),
    free("Price Variation Indicator", 49, 1),
];

static N: [Field; 2] = [text("Stock", 11, 8), free("Interest Flag", 19, 1)];

static O: [Field; 8] = [
    text("Stock", 11, 8),
    free("Open Eligibility Status", 19, 1),
    price("Minimum Allowable Price", 20),
    price("Maximum Allowable Price", 24),
    price("Near Execution Price", 28),
    free("Near Execution Time", 32, 8),
    price("Lower Price Range Collar", 40),
    price("Upper Price Range Collar", 44),
];

const fn layout(message_type: u8, length: usize, own: &'static [Field]) -> Layout {
    Layout {
        message_type,
        length,
        own,
    }
}

/// The 23 messages with the paper's lengths, in document 000's order.
pub static LAYOUTS: [Layout; 23] = [
    layout(b'S', 12, &S),
    layout(b'R', 39, &R),
    layout(b'H', 25, &H),
    layout(b'Y', 20, &Y),
    layout(b'L', 26, &L),
    layout(b'V', 35, &V),
    layout(b'W', 12, &W),
    layout(b'K', 28, &K),
    layout(b'J', 35, &J),
    layout(b'h', 21, &SMALL_H),
    layout(b'A', 36, &A),
    layout(b'F', 40, &F),
    layout(b'E', 31, &E),
    layout(b'C', 36, &C),
    layout(b'X', 23, &X),
    layout(b'D', 19, &D),
    layout(b'U', 35, &U),
    layout(b'P', 44, &P),
    layout(b'Q', 40, &Q),
    layout(b'B', 19, &B),
    layout(b'I', 50, &I),
    layout(b'N', 20, &N),
    layout(b'O', 48, &O),
];

#[cfg(test)]
mod tests {
    use super::LAYOUTS;

    #[test]
    fn each_field_starts_where_the_last_one_ended() {
        for layout in &LAYOUTS {
            let mut end = 1;
            for field in layout.fields() {
                assert_eq!(field.offset, end, "{}", field.name);
                end += field.width;
            }
            assert_eq!(end, layout.length);
        }
    }
}
