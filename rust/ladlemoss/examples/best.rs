//! Builds a small book from messages and prints its best bid and offer.

use ladlemoss::{Level, Refusal, Side};

/// Every message here is of locate 1 at time 0.
const HEAD: [u8; 10] = [0, 1, 0, 0, 0, 0, 0, 0, 0, 0];
const STOCK: &[u8] = b"ZVZZT   ";

fn registration() -> Vec<u8> {
    [
        b"R",
        &HEAD[..],
        STOCK,
        b"QN",
        &[0, 0, 0, 100],
        b"NCZ PNN1N",
        &[0; 4],
        b"N",
    ]
    .concat()
}

fn addition(reference: u64, side: &[u8; 1], shares: u32, price: u32) -> Vec<u8> {
    let (reference, shares) = (reference.to_be_bytes(), shares.to_be_bytes());
    [
        b"A",
        &HEAD[..],
        &reference,
        side,
        &shares,
        STOCK,
        &price.to_be_bytes(),
    ]
    .concat()
}

fn execution(reference: u64, shares: u32) -> Vec<u8> {
    let (reference, shares) = (reference.to_be_bytes(), shares.to_be_bytes());
    [b"E", &HEAD[..], &reference, &shares, &[0; 8]].concat()
}

fn deletion(reference: u64) -> Vec<u8> {
    [b"D", &HEAD[..], &reference.to_be_bytes()].concat()
}

fn line(name: &str, level: Option<Level>) -> String {
    match level {
        None => format!("{name} none\n"),
        Some(Level {
            price,
            total,
            count,
        }) => {
            let (whole, part) = (price / 10_000, price % 10_000);
            format!("{name} {whole}.{part:04} total {total} orders {count}\n")
        }
    }
}

/// The two lines that the program prints.
pub fn lines() -> Result<String, Refusal> {
    let mut directory = [0; 16];
    let mut book = [0; ladlemoss::book_length(1)];
    ladlemoss::fresh(&mut directory, &mut book)?;
    let messages = [
        registration(),
        addition(1, b"B", 300, 100_000),
        addition(2, b"B", 200, 100_100),
        addition(3, b"S", 500, 100_200),
        addition(4, b"S", 400, 100_300),
        execution(2, 50),
        deletion(3),
    ];
    for message in &messages {
        ladlemoss::apply(&mut directory, &mut book, message)?;
    }
    let bid = ladlemoss::best(&book, 1, Side::Buy)?;
    let offer = ladlemoss::best(&book, 1, Side::Sell)?;
    Ok(line("bid", bid) + &line("offer", offer))
}

fn main() -> Result<(), Refusal> {
    print!("{}", lines()?);
    Ok(())
}
