//! The paper's cases 4 to 10 and the messages of its whole case.

mod common;

use common::*;
use samples::FlatBook;
use second::{fresh, Tables, DUPLICATE, FULL, OVER, SHAPE};

/// Fresh tables of 64 slots in which ZVZZT is registered at locate 1, and order 5 is added.
fn begun() -> Tables {
    let mut tables = Tables::from_numbers(&[0; 2], &[0; 257]).expect("good lengths");
    assert_eq!(figures(&mut tables, &register(1, ZVZZT)), [0; 10]);
    assert_eq!(tables.directory_numbers(), [0, 0x5A56_5A5A_5420_2020]);
    let added = [1, 0x42, 100_000, 300, 300, 0, 0, 0, 0, 0];
    assert_eq!(figures(&mut tables, &add(5)), added);
    tables
}

/// Case 4: 100 executed and 50 cancelled.
fn case_4() -> Tables {
    let mut tables = begun();
    let taken = |shares, remains| [1, 0x42, 100_000, shares, remains, 0, 0, 0, 0, 0];
    assert_eq!(figures(&mut tables, &execute(1, 5, 100)), taken(100, 200));
    assert_eq!(figures(&mut tables, &cancel(1, 5, 50)), taken(50, 150));
    tables
}

#[test]
fn case_4_the_account_and_the_numbers_of_the_slot() {
    let tables = case_4();
    let order = tables.book().slots()[0].order;
    let account = (
        order.added,
        order.executed,
        order.cancelled,
        order.remaining(),
    );
    assert_eq!(account, (300, 100, 50, 150));
    let mut book = vec![0; 257];
    book[0] = 1;
    book[1..5].copy_from_slice(&[
        5,
        0x0001_86A0_0000_012C,
        0x0000_0064_0000_0032,
        0x0001_424E_5344_5100,
    ]);
    assert_eq!(tables.book_numbers(), book);
}

#[test]
fn case_5_one_share_too_many_and_exactly_enough() {
    let mut tables = case_4();
    assert_eq!(number(&mut tables, &execute(1, 5, 151)), OVER);
    let last = figures(&mut tables, &execute(1, 5, 150));
    assert_eq!(last, [1, 0x42, 100_000, 150, 0, 0, 0, 0, 0, 0]);
    assert_eq!(tables.book_numbers(), [0; 257]);
}

#[test]
fn case_6_a_replace_by_itself() {
    assert_eq!(number(&mut case_4(), &replace(1, 5, 5)), DUPLICATE);
}

#[test]
fn case_7_a_second_life() {
    let mut tables = case_4();
    let closed = [1, 0x42, 100_000, 150, 0, 0, 0, 0, 0, 0];
    assert_eq!(figures(&mut tables, &delete(1, 5)), closed);
    assert_eq!(tables.book_numbers(), [0; 257]);
    assert_eq!(number(&mut tables, &add(5)), 0);
    assert_eq!(tables, begun());
}

#[test]
fn case_8_two_sells_of_the_most_shares() {
    let mut tables = begun();
    for reference in [6, 7] {
        let sets = [
            ("Stock Locate", 1),
            ("Order Reference Number", reference),
            ("Shares", 0xFFFF_FFFF),
            ("Price", 101_500),
        ];
        let sell = samples::sample_with(b'A', &sets);
        assert_eq!(number(&mut tables, &sell), 0);
    }
    let slots = tables.book().slots().iter();
    let sells: Vec<u64> = slots
        .filter(|slot| slot.live && slot.order.side == b'S')
        .map(|slot| slot.order.remaining().into())
        .collect();
    assert_eq!((sells.iter().sum(), sells.len()), (8_589_934_590_u64, 2));
}

#[test]
fn case_9_a_full_book() {
    let all: Vec<_> = (0..64).map(|i| (i as usize, sound(1_000 + i))).collect();
    let mut tables = tables(&book_with(&all));
    assert_eq!(number(&mut tables, &add(5)), FULL);
    assert_eq!(number(&mut tables, &replace(1, 1_017, 5)), 0);
    assert_eq!(slot(&tables, 17).map(|numbers| numbers[0]), Some(5));
    assert_eq!(number(&mut tables, &delete(1, 1_040)), 0);
    assert_eq!(number(&mut tables, &add(6)), 0);
    assert_eq!(slot(&tables, 40).map(|numbers| numbers[0]), Some(6));
}

#[test]
fn case_10_lengths() {
    let books = [257, 16_448, 0, 256, 258, 16_705];
    let directories = [2, 8_192, 0, 1, 8_193];
    for (i, directory) in directories.into_iter().enumerate() {
        for (j, book) in books.into_iter().enumerate() {
            let expected = if i < 2 && j < 2 { 0 } else { SHAPE };
            let (mut directory, mut book) = (vec![7; directory], vec![7; book]);
            let before = (directory.clone(), book.clone());
            let applied = second::apply(&mut directory, &mut book, b"").numbers().0;
            assert_eq!(applied, if expected == 0 { 1 } else { SHAPE });
            assert_eq!((&directory, &book), (&before.0, &before.1));
            assert_eq!(fresh(&mut directory, &mut book), expected);
            let left = if expected == 0 { 0 } else { 7 };
            assert!(directory.iter().chain(&book).all(|&n| n == left));
        }
    }
}

#[test]
fn all_books_of_1_to_64_groups_pass() {
    let good = |length| Tables::from_numbers(&[0; 2], &vec![0; length]).is_ok();
    let passing: Vec<usize> = (0..20_000).filter(|&length| good(length)).collect();
    let named: Vec<usize> = (1..=64).map(|k| 257 * k).collect();
    assert_eq!(passing, named);
}

#[test]
fn the_whole_case() {
    let mut tables = Tables::from_numbers(&[0; 2_048], &[0; 4_112]).expect("good lengths");
    let messages = [
        register(1, ZVZZT),
        add(5),
        execute(1, 5, 100),
        execute(1, 5, 400),
    ];
    let numbers = messages.map(|message| number(&mut tables, &message));
    assert_eq!(numbers, [0, 0, 0, OVER]);
    let live = tables.book().slots().iter().filter(|slot| slot.live);
    let shown: Vec<_> = live.map(|slot| slot.order.remaining()).collect();
    assert_eq!(shown, [200]);
}

#[test]
fn any_numbers_are_given_back() {
    let mut random = samples::Random::new(3);
    let directory: Vec<u64> = (0..300).map(|_| random.number()).collect();
    let mut book = FlatBook::empty(3);
    book.numbers.fill_with(|| random.number());
    let tables = Tables::from_numbers(&directory, &book.numbers).expect("good lengths");
    assert_eq!(tables.directory_numbers(), directory);
    assert_eq!(tables.book_numbers(), book.numbers);
}
