//! Each rule of 'What a well-formed message holds', and the order of checks.

use samples::{faults_of, random_message, sample, Field, Layout, Random, Rule, LAYOUTS};
use second::{numbers, read, FIELD, LENGTH, SHARES, TYPE};

fn number_of(bytes: &[u8]) -> u8 {
    numbers(&read(bytes)).0
}

fn of_rule(rule: Rule) -> impl Iterator<Item = (&'static Layout, &'static Field)> {
    let all = LAYOUTS
        .iter()
        .flat_map(|layout| layout.fields().map(move |field| (layout, field)));
    all.filter(move |(_, field)| field.rule == rule)
}

fn types_of(rule: Rule, name: &str) -> String {
    let named = of_rule(rule).filter(|(_, field)| field.name.contains(name));
    named
        .map(|(layout, _)| char::from(layout.message_type))
        .collect()
}

#[test]
fn the_rules_stand_where_the_paper_has_them() {
    assert_eq!(types_of(Rule::Side, ""), "AFP");
    assert_eq!(types_of(Rule::Printable, ""), "C");
    assert_eq!(types_of(Rule::Shares, ""), "AFECXU");
    assert_eq!(types_of(Rule::Text, "Stock"), "RHYLKJhAFPQINO");
    assert_eq!(types_of(Rule::Text, "MPID"), "L");
    assert_eq!(types_of(Rule::Text, "Attribution"), "F");
    assert_eq!(types_of(Rule::Price, ""), "KJJJAFCUPQIIIOOOOO");
}

#[test]
fn every_length_but_one_is_refused_and_other_bytes_are_no_type() {
    for byte in 0..=255 {
        let layout = Layout::of(byte);
        let mut message = layout.map_or(vec![byte], sample);
        message.resize(100, b' ');
        for length in 1..=100 {
            let expected = match layout {
                None => TYPE,
                Some(layout) if layout.length == length => 0,
                Some(_) => LENGTH,
            };
            assert_eq!(number_of(&message[..length]), expected);
        }
    }
}

#[test]
fn one_letter_fields() {
    for (rule, letters) in [(Rule::Side, b"BS"), (Rule::Printable, b"YN")] {
        for (layout, field) in of_rule(rule) {
            for byte in 0..=255 {
                let mut message = sample(layout);
                field.set(&mut message, u64::from(byte));
                let expected = if letters.contains(&byte) { 0 } else { FIELD };
                assert_eq!(number_of(&message), expected);
            }
        }
    }
}

#[test]
fn text_fields() {
    let cases: [(&[u8; 8], u8); 14] = [
        (b"ZVZZT   ", 0),
        (b"Z       ", 0),
        (b"ABCDEFGH", 0),
        (b"!~a.-^# ", 0),
        (b"~~~~~~~~", 0),
        (b"!       ", 0),
        (b"        ", FIELD),
        (b" ZVZZT  ", FIELD),
        (b"ZV ZT   ", FIELD),
        (b"ZVZZT\0\0\0", FIELD),
        (b"ZVZZT  \0", FIELD),
        (b"ZVZZT\x7F  ", FIELD),
        (b"ZVZZT\xA0  ", FIELD),
        (b"ZVZZT\x1F  ", FIELD),
    ];
    for (layout, field) in of_rule(Rule::Text).filter(|(_, field)| field.width == 8) {
        for (text, expected) in cases {
            let mut message = sample(layout);
            field.set(&mut message, u64::from_be_bytes(*text));
            assert_eq!(number_of(&message), expected, "{text:?}");
        }
    }
}

#[test]
fn zero_shares_are_refused_in_six_types_only() {
    for layout in &LAYOUTS {
        let mut message = sample(layout);
        for field in layout
            .fields()
            .filter(|field| field.name.contains("Shares"))
        {
            field.set(&mut message, 0);
        }
        let expected = if b"AFECXU".contains(&layout.message_type) {
            SHARES
        } else {
            0
        };
        assert_eq!(number_of(&message), expected);
    }
}

#[test]
fn of_two_faults_the_one_checked_first_is_given() {
    let order = |number: u8| [2, 1, 3, 4, 5, 6].iter().position(|&n| n == number);
    for layout in &LAYOUTS {
        let faults = faults_of(layout);
        for (place, first) in faults.iter().enumerate() {
            for second in &faults[place..] {
                let mut message = sample(layout);
                first.put(&mut message);
                second.put(&mut message);
                let both = [first.number(), second.number()];
                let expected = *both.iter().min_by_key(|&&n| order(n)).expect("two");
                let cancels = both == [1, 1] && message.len() == layout.length;
                assert_eq!(number_of(&message), if cancels { 0 } else { expected });
            }
        }
    }
}

#[test]
fn well_formed_messages_give_the_numbers_at_document_000s_offsets() {
    let mut random = Random::new(1);
    for _ in 0..1000 {
        for layout in &LAYOUTS {
            let message = random_message(layout, &mut random);
            assert_eq!(numbers(&read(&message)), (0, layout.values(&message)));
        }
    }
}
