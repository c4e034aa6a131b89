//! The fast reader answers as the second program's reader does.

use samples::{faults_of, random_message, Random, LAYOUTS};

fn agree(message: &[u8]) {
    let expected = second::numbers(&second::read(message));
    for read in [fast::read_numbers, fast::read_numbers_by_enum] {
        let mut out = [7; 18];
        let number = read(message, &mut out);
        assert_eq!((number, out), expected);
    }
}

#[test]
fn on_every_type_and_length() {
    for byte in 0..=255 {
        for length in 0..=64 {
            agree(&vec![byte; length]);
        }
    }
}

#[test]
fn on_random_and_changed_messages() {
    let mut random = Random::new(2);
    for _ in 0..4000 {
        for layout in &LAYOUTS {
            let mut message = random_message(layout, &mut random);
            agree(&message);
            for _ in 0..3 {
                let place = random.place(message.len());
                message[place] = random.byte();
                agree(&message);
            }
        }
    }
}

#[test]
fn on_one_and_two_faults() {
    let mut random = Random::new(3);
    for layout in &LAYOUTS {
        let faults = faults_of(layout);
        for (place, first) in faults.iter().enumerate() {
            for second in &faults[place..] {
                let mut message = random_message(layout, &mut random);
                first.put(&mut message);
                agree(&message);
                second.put(&mut message);
                agree(&message);
            }
        }
    }
}
