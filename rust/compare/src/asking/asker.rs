//! Asks both programs a question and compares what they answer, and that nothing else changes.

use crate::asking::counts::AskCounts;
use crate::asking::question::{Question, Reply};
use crate::memory::{table_difference, Edge, Guarded, LentTable, PATTERN};
use crate::messages::LONGEST_MESSAGE;
use crate::reporting::{hex, shown};
use samples::Random;
use second::{Book, Directory};

const SEED: u64 = 0x6173_6B5F_6173_6B21;

/// A book that both programs have.
pub struct BothBooks<'a> {
    /// The second program's, or its refusal of the length.
    pub second: Result<&'a Book, u8>,
    pub lent: &'a mut LentTable,
    /// What it holds, before and after every question.
    pub numbers: &'a [u64],
}

/// The memory that answers and messages are placed in, and the counts.
pub struct Asker {
    out: Guarded,
    input: Guarded,
    /// Chooses edges, and what is asked where not all is.
    pub random: Random,
    pub counts: AskCounts,
}

impl Asker {
    pub fn new() -> Self {
        Asker {
            out: Guarded::new(size_of::<[u64; 8]>()),
            input: Guarded::new(LONGEST_MESSAGE),
            random: Random::new(SEED),
            counts: AskCounts::new(),
        }
    }

    /// Says beforehand what is asked, since a read or write out of bounds ends the program.
    pub fn source(&mut self, name: &'static str) {
        eprintln!("comparing: {name}");
        self.counts.source = name;
    }

    /// Asks about a book; answers what the second program does.
    pub fn ask(&mut self, both: &mut BothBooks, question: Question) -> Reply {
        let expected = question.expected(both.second);
        let edge = Edge::any(&mut self.random);
        let got = question.product(both.lent.numbers(), &mut self.out, edge);
        self.counts.asked(&question, &expected);
        let call = || format!("{question:X?}, book of {}", both.numbers.len());
        if got != expected {
            self.counts.mismatch(call, line(&expected), line(&got));
        }
        self.kept(both.lent, both.numbers, call);
        expected
    }

    /// Asks for a message's symbol by a directory that the second program has or refuses.
    pub fn symbol(&mut self, second: Result<&Directory, u8>, lent: &mut LentTable, bytes: &[u8]) {
        let symbol = second.map_or(0..0, |second| second.symbol(bytes));
        let expected = [symbol.start as u64, symbol.len() as u64];
        let random = &mut self.random;
        let input = self.input.part(bytes.len(), Edge::any(random));
        input.copy_from_slice(bytes);
        let out = self.out.numbers(Edge::any(random));
        out.fill(PATTERN);
        face::symbol(lent.numbers(), input, out);
        self.counts.asked_symbol(bytes, symbol.len());
        let start = &bytes[..bytes.len().min(64)];
        let call = || format!("symbol of {}, directory of {}", hex(start), lent.length);
        if *out != expected {
            self.counts.mismatch(call, shown(&expected), shown(&*out));
        }
        if input != bytes {
            self.counts
                .mismatch(call, "the message as it was".into(), hex(input));
        }
    }

    /// Sees that a table is as it was; if not, it is made so again.
    pub fn kept(&mut self, lent: &mut LentTable, numbers: &[u64], call: impl Fn() -> String) {
        if numbers == lent.numbers() {
            return;
        }
        if let Some(found) = table_difference(numbers.iter().copied(), lent.numbers()) {
            let at = |number| format!("{number:016X} at number {}", found.place);
            self.counts
                .mismatch(call, at(found.expected), at(found.got));
            lent.lay(numbers, lent.edge);
        }
    }

    /// That many of a list, by chance, or all.
    pub fn some<T>(&mut self, mut list: Vec<T>, most: usize) -> Vec<T> {
        for place in 0..list.len().min(most) {
            let other = place + self.random.place(list.len() - place);
            list.swap(place, other);
        }
        list.truncate(most);
        list
    }
}

fn line((number, numbers): &Reply) -> String {
    format!("{number} {}", shown(numbers))
}
