//! AskCounts the questions and what was answered to them, and prints what differed.

use crate::asking::question::{Question, Reply, QUESTIONS};
use crate::reporting::SHOWN;
use samples::LAYOUTS;

/// The numbers that each kind of question must have met.
const NUMBERS: [&[usize]; 5] = [
    &[0, 10, 13, 14],
    &[0, 4, 13, 14],
    &[0, 4, 13, 14],
    &[0, 4, 13, 14],
    &[0, 14],
];

/// The counts of all questions.
pub struct AskCounts {
    /// Where the questions come from.
    pub source: &'static str,
    /// Answers by the kind of question and their numbers.
    met: [[u64; 15]; 5],
    /// Of the answers 0 of level, best and next, those with a level that stands.
    standing: [u64; 5],
    /// Side bytes that were asked with.
    sides: [[bool; 256]; 5],
    /// Empty symbols and others, by the first byte of the message.
    symbols: [[u64; 2]; 256],
    /// Symbols by how long they are.
    letters: [u64; 9],
    mismatches: u64,
}

impl AskCounts {
    pub fn new() -> Self {
        AskCounts {
            source: "",
            met: [[0; 15]; 5],
            standing: [0; 5],
            sides: [[false; 256]; 5],
            symbols: [[0; 2]; 256],
            letters: [0; 9],
            mismatches: 0,
        }
    }

    pub fn asked(&mut self, question: &Question, (number, numbers): &Reply) {
        let kind = question.kind();
        self.met[kind][usize::from(*number)] += 1;
        // A refusal and a place where nothing stands have only zeros.
        self.standing[kind] += u64::from(numbers.iter().any(|&n| n != 0));
        if let Some(side) = question.side() {
            self.sides[kind][usize::from(side)] = true;
        }
    }

    pub fn asked_symbol(&mut self, bytes: &[u8], letters: usize) {
        let first = bytes.first().copied().unwrap_or(0);
        self.symbols[usize::from(first)][usize::from(letters > 0)] += 1;
        self.letters[letters] += 1;
    }

    pub fn mismatch(&mut self, call: impl Fn() -> String, expected: String, got: String) {
        self.mismatches += 1;
        if self.mismatches > SHOWN {
            return;
        }
        println!("MISMATCH in {}", self.source);
        println!("  {}", call());
        println!("  expected {expected}");
        println!("  product  {got}");
    }

    /// Prints the summary; true if all was met and nothing differed.
    pub fn finish(&self) -> bool {
        println!("questions about books, and how often each number was the answer:");
        for (kind, name) in QUESTIONS.iter().enumerate() {
            let total: u64 = self.met[kind].iter().sum();
            let met = NUMBERS[kind].iter().map(|&n| self.answers(kind, n));
            let met: Vec<String> = met.collect();
            println!("  {total:>9}  {name:<10}  {}", met.join("  "));
        }
        self.print_symbols();
        println!("mismatches in the questions: {}", self.mismatches);
        self.mismatches == 0 && self.all_met() && self.all_symbols_met()
    }

    fn answers(&self, kind: usize, number: usize) -> String {
        let count = self.met[kind][number];
        match (number, kind) {
            (0, 1..=3) => {
                let some = self.standing[kind];
                format!("0: {some} a level, {} none", count - some)
            }
            _ => format!("{number}: {count}"),
        }
    }

    fn print_symbols(&self) {
        let all: [u64; 2] = [0, 1].map(|i| self.symbols.iter().map(|both| both[i]).sum());
        println!("symbols asked for: {} empty, {} some", all[0], all[1]);
        for layouts in LAYOUTS.chunks(6) {
            let line = layouts.iter().map(|layout| {
                let [empty, some] = self.symbols[usize::from(layout.message_type)];
                format!("{}: {empty}, {some}", layout.message_type as char)
            });
            println!("  {}", line.collect::<Vec<_>>().join("  "));
        }
        let letters = self.letters.iter().enumerate().skip(1);
        let letters = letters.map(|(length, count)| format!("{length}: {count}"));
        println!("  by length  {}", letters.collect::<Vec<_>>().join("  "));
    }

    fn all_met(&self) -> bool {
        let numbers = |kind: usize| NUMBERS[kind].iter().all(|&n| self.met[kind][n] > 0);
        let both = |kind: usize| (1..self.met[kind][0]).contains(&self.standing[kind]);
        (0..5).all(numbers)
            && (1..=3).all(both)
            && (1..=3).all(|kind| self.sides[kind].iter().all(|&asked| asked))
    }

    /// An empty symbol of every type, and one of every length and every type with a Stock field.
    fn all_symbols_met(&self) -> bool {
        self.letters.iter().all(|&count| count > 0)
            && LAYOUTS.iter().all(|layout| {
                let [empty, some] = self.symbols[usize::from(layout.message_type)];
                empty > 0 && (some > 0) == layout.field("Stock").is_some()
            })
    }
}
