//! The last table: how often each number was met, part by part.

/// The paper's names for the numbers.
const NAMES: [&str; 15] = [
    "done",
    "LENGTH",
    "TYPE",
    "TIME",
    "FIELD",
    "PRICE",
    "SHARES",
    "STOCK",
    "CONFLICT",
    "DUPLICATE",
    "NO ORDER",
    "OVER",
    "FULL",
    "BOOK",
    "SHAPE",
];

/// A part's name, how often it has met each number that it can meet, and its messages.
pub type Column<'a> = (&'static str, &'a [u64], u64);

pub fn print_times_met(columns: &[Column]) {
    let line = |first: String, cells: Vec<String>| {
        let cells = cells.iter().map(|cell| format!("{cell:>11}"));
        println!("  {first:<13}{}", cells.collect::<String>());
    };
    let names = columns.iter().map(|(name, ..)| name.to_string());
    println!("refusal number: times met");
    line("number".into(), names.collect());
    for (number, name) in NAMES.iter().enumerate() {
        let met = columns.iter().map(|(_, met, _)| met.get(number));
        let met = met.map(|count| count.map_or("-".into(), u64::to_string));
        line(format!("{number:>2} {name}"), met.collect());
    }
    let messages = columns.iter().map(|(.., messages)| messages.to_string());
    line("messages".into(), messages.collect());
}
