//! The product's tables in guarded memory beside the second program's, both given each message.

use crate::applying::counts::ApplyCounts;
use crate::applying::outcome::{Answer, Outcome};
use crate::applying::second_tables::SecondTables;
use crate::asking::{survey, Asker, BothBooks};
use crate::memory::{Edge, Guarded, LentTable, PATTERN};
use crate::messages::LONGEST_MESSAGE;
use samples::Random;

const SEED: u64 = 0x6564_6765_735F_5F21;

/// Orders and levels asked about at one go, in all slots together: few where the book is large.
const MOST_ASKED: usize = 4_096;
const LEAST_ASKED: usize = 4;

/// Both programs with the same tables.
pub struct BothTables {
    directory: LentTable,
    book: LentTable,
    input: Guarded,
    out: Guarded,
    figures: Guarded,
    second: SecondTables,
    /// Chooses the edges.
    random: Random,
    pub asker: Asker,
}

impl BothTables {
    pub fn new() -> Self {
        BothTables {
            directory: LentTable::new(),
            book: LentTable::new(),
            input: Guarded::new(LONGEST_MESSAGE),
            out: Guarded::new(size_of::<[u64; 18]>()),
            figures: Guarded::new(size_of::<[u64; 10]>()),
            second: SecondTables::new(&[], &[]),
            random: Random::new(SEED),
            asker: Asker::new(),
        }
    }

    /// Gives both programs these tables, the product's each at some edge.
    pub fn lay(&mut self, directory: &[u64], book: &[u64]) {
        self.second = SecondTables::new(directory, book);
        self.directory.lay(directory, Edge::any(&mut self.random));
        self.book.lay(book, Edge::any(&mut self.random));
    }

    /// Both tables as the second program has them.
    pub fn numbers(&self) -> (Vec<u64>, Vec<u64>) {
        self.second.numbers()
    }

    /// Asks both programs about the book as it stands.
    pub fn ask(&mut self, counts: &ApplyCounts) {
        self.asker.counts.source = counts.current();
        let (_, numbers) = self.second.numbers();
        let SecondTables::Tables(tables) = &self.second else {
            return;
        };
        let most = MOST_ASKED / tables.book().slots().len();
        let mut both = BothBooks {
            second: Ok(tables.book()),
            lent: &mut self.book,
            numbers: &numbers,
        };
        survey(&mut self.asker, &mut both, most.max(LEAST_ASKED));
    }

    /// Asks both programs for the symbol of a message by the directory as it stands.
    fn symbol(&mut self, counts: &ApplyCounts, bytes: &[u8]) {
        self.asker.counts.source = counts.current();
        if let SecondTables::Tables(tables) = &self.second {
            let second = Ok(tables.directory());
            self.asker.symbol(second, &mut self.directory, bytes);
        }
    }

    /// Gives both programs a message, compares everything, and answers the second program's number.
    pub fn apply(&mut self, counts: &mut ApplyCounts, bytes: &[u8]) -> u8 {
        self.symbol(counts, bytes);
        let expected = self.second.apply(bytes);
        let random = &mut self.random;
        let input = self.input.part(bytes.len(), Edge::any(random));
        input.copy_from_slice(bytes);
        let out = self.out.numbers(Edge::any(random));
        let figures = self.figures.numbers(Edge::any(random));
        out.fill(PATTERN);
        figures.fill(PATTERN);
        let (directory, book) = (self.directory.numbers(), self.book.numbers());
        let number = face::apply(directory, book, input, out, figures);
        let input_kept = input == bytes;
        let got = (number, *out, *figures);
        let outcome = self.outcome(expected, got, input_kept);
        counts.applied(bytes, &outcome);
        self.settle(&outcome);
        expected.0
    }

    /// Asks both programs for fresh tables and compares everything.
    pub fn fresh(&mut self, counts: &mut ApplyCounts) {
        let (mut second_directory, mut second_book) = self.second.numbers();
        let expected = second::fresh(&mut second_directory, &mut second_book);
        self.second = SecondTables::new(&second_directory, &second_book);
        let number = face::fresh(self.directory.numbers(), self.book.numbers());
        let alone = |number| (number, [0; 18], [0; 10]);
        let outcome = self.outcome(alone(expected), alone(number), true);
        counts.made_fresh(&outcome);
        self.settle(&outcome);
    }

    fn outcome(&mut self, expected: Answer, got: Answer, input_kept: bool) -> Outcome {
        let (directory, book) = (self.directory.numbers(), self.book.numbers());
        let (directory, book) = self.second.differences(directory, book);
        Outcome {
            expected,
            got,
            lengths: (self.directory.length, self.book.length),
            directory,
            book,
            input_kept,
        }
    }

    /// After a difference the product goes on with the second program's tables.
    fn settle(&mut self, outcome: &Outcome) {
        if !outcome.is_same() {
            let (directory, book) = self.second.numbers();
            self.directory.lay(&directory, self.directory.edge);
            self.book.lay(&book, self.book.edge);
        }
    }
}
