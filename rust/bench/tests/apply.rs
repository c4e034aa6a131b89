//! The product's `apply` and the Rust one answer alike and leave the same tables.

use samples::{random_message, Layout, Random, LAYOUTS};

type Apply = fn(&mut [u64], &mut [u64], &[u8], &mut [u64; 18], &mut [u64; 10]) -> u8;

const CALLS: [Apply; 3] = [
    face::apply,
    fast::apply_numbers,
    fast::apply_numbers_by_eights,
];

/// Applies the message by each call to tables of its own; answers the number.
fn agree(tables: &mut [(Vec<u64>, Vec<u64>); 3], message: &[u8]) -> u8 {
    let mut answers = vec![];
    for (apply, (directory, book)) in CALLS.iter().zip(tables.iter_mut()) {
        let (mut out, mut figures) = ([7; 18], [7; 10]);
        let number = apply(directory, book, message, &mut out, &mut figures);
        answers.push((number, out, figures));
    }
    assert!(answers.iter().all(|answer| *answer == answers[0]));
    assert!(tables.iter().all(|each| *each == tables[0]));
    answers[0].0
}

fn three(directory: Vec<u64>, book: Vec<u64>) -> [(Vec<u64>, Vec<u64>); 3] {
    [(); 3].map(|()| (directory.clone(), book.clone()))
}

/// A message on few stocks and references, so that orders are often found.
fn likely(random: &mut Random) -> Vec<u8> {
    let layout = match random.below(8) {
        0 => random.one_of(&LAYOUTS),
        _ => Layout::of(*random.one_of(b"AAAAFECXDUR")).expect("one of the 23"),
    };
    let mut message = random_message(layout, random);
    for field in layout.fields() {
        let number = match field.name {
            "Stock Locate" if random.below(16) != 0 => 1 + random.below(3),
            "Stock" if random.below(16) != 0 => u64::from_be_bytes(*b"ZVZZT   "),
            name if name.contains("Reference Number") => random.below(100),
            name if name.contains("hares") => random.below(8),
            _ => continue,
        };
        field.set(&mut message, number);
    }
    if random.below(32) == 0 {
        let place = random.place(message.len());
        message[place] = random.byte();
    }
    message
}

#[test]
fn from_fresh() {
    let mut random = Random::new(4);
    let mut seen = [0u32; 15];
    for words in [1, 2, 3] {
        for _ in 0..40 {
            let mut tables = three(vec![0; 4], vec![0; 257 * words]);
            for _ in 0..2000 {
                seen[usize::from(agree(&mut tables, &likely(&mut random)))] += 1;
            }
        }
    }
    // Where all is sound and no shape is wrong, 13 and 14 cannot be.
    assert!(seen[..13].iter().all(|&count| count > 0), "{seen:?}");
}

/// Four numbers near a sound slot's.
fn slot(random: &mut Random) -> [u64; 4] {
    let price = *random.one_of(&[0, 100_000, 2_000_000_000, 2_000_000_001]);
    let added = *random.one_of(&[0, 1, 5, 300, 0xFFFF_FFFF]);
    let gone = [(); 2].map(|()| *random.one_of(&[0, 0, 0, 1, 0xFFFF_FFFF]));
    let side = u64::from(*random.one_of(b"BBBSSSA\0"));
    let attribution = *random.one_of(&[0x4E53_4451, 0x4142_4320, 0x2041_4243, 0x4120_4220, 0]);
    let low = random.below(8) / 7;
    [
        random.below(100),
        (price << 32) | added,
        (gone[0] << 32) | gone[1],
        (random.below(4) << 48) | (side << 40) | (attribution << 8) | low,
    ]
}

#[test]
fn on_any_tables() {
    let mut random = Random::new(5);
    let mut seen = [0u32; 15];
    for turn in 0..4000 {
        let words = 1 + random.place(3);
        // From an empty map through sparse ones to a full one.
        let mut book: Vec<u64> = (0..words)
            .map(|_| match turn % 4 {
                0 => random.number() & random.number() & random.number(),
                1 => random.number(),
                2 => random.number() | random.number() | random.number(),
                _ => u64::MAX,
            })
            .collect();
        for _ in 0..64 * words {
            book.extend(slot(&mut random));
        }
        if turn % 64 == 0 {
            book.push(0);
        }
        let symbols = [0, u64::from_be_bytes(*b"ZVZZT   "), 1];
        let directory = (0..4).map(|_| *random.one_of(&symbols)).collect();
        let mut tables = three(directory, book);
        for _ in 0..60 {
            seen[usize::from(agree(&mut tables, &likely(&mut random)))] += 1;
        }
    }
    assert!(seen.iter().all(|&count| count > 0), "{seen:?}");
}

#[test]
fn on_every_length_of_table() {
    let mut random = Random::new(6);
    for directory in [0, 1, 2, 8192, 8193] {
        for book in [0, 1, 256, 257, 258, 514, 16_448, 16_449, 16_705] {
            let mut tables = three(vec![0; directory], vec![0; book]);
            agree(&mut tables, &likely(&mut random));
        }
    }
}
