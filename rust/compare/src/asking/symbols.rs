//! The symbol question over the messages made for reading, each at several locates of several
//! directories.

use crate::asking::asker::Asker;
use crate::memory::{Edge, LentTable};
use crate::messages::Checker;
use samples::orders::ZVZZT;
use samples::{Layout, Random};
use second::Directory;

const SEED: u64 = 0x7379_6D62_6F6C_7321;

/// Long directories are looked over once in so many questions.
const SELDOM: u64 = 256;

/// What no symbol is.
const NO_TEXTS: [&[u8; 8]; 4] = [b"ZV ZT   ", b"        ", b" ZVZZT  ", b"ZVZZT\0\0\0"];

/// Where some type has its Stock field.
const STOCK_FIELDS: [usize; 5] = [11, 15, 19, 24, 28];

/// A directory that has ZVZZT, the symbol of all samples, at every place.
struct Uniform {
    second: Result<Directory, u8>,
    lent: LentTable,
    numbers: Vec<u64>,
}

impl Uniform {
    fn new(length: usize, edge: Edge) -> Self {
        let numbers = vec![ZVZZT; length];
        let mut lent = LentTable::new();
        lent.lay(&numbers, edge);
        Uniform {
            second: Directory::lent(&numbers),
            lent,
            numbers,
        }
    }

    fn ask(&mut self, asker: &mut Asker, message: &[u8]) {
        let second = self.second.as_ref().map_err(|number| *number);
        asker.symbol(second, &mut self.lent, message);
        // A change would stay, so that it need not be looked for each time.
        if asker.random.below(SELDOM) == 0 {
            asker.kept(&mut self.lent, &self.numbers, changed);
        }
    }
}

fn changed() -> String {
    "the directory after a symbol question".into()
}

/// Asks for the symbol of each message.
pub struct Symbols<'a> {
    asker: &'a mut Asker,
    random: Random,
    few: LentTable,
    longest: Uniform,
    /// One number longer and one shorter than the paper names.
    refused: [Uniform; 2],
}

impl<'a> Symbols<'a> {
    pub fn new(asker: &'a mut Asker) -> Self {
        Symbols {
            asker,
            random: Random::new(SEED),
            few: LentTable::new(),
            longest: Uniform::new(8_192, Edge::Back),
            refused: [
                Uniform::new(8_193, Edge::Back),
                Uniform::new(1, Edge::Front),
            ],
        }
    }

    /// Asks for the symbol of the message with another locate, by that directory.
    fn at(&mut self, message: &[u8], locate: usize, numbers: &[u64]) {
        let message = located(message, locate);
        self.few.lay(numbers, Edge::any(&mut self.random));
        let second = Directory::lent(numbers);
        let second = second.as_ref().map_err(|number| *number);
        self.asker.symbol(second, &mut self.few, &message);
        self.asker.kept(&mut self.few, numbers, changed);
    }

    /// A directory with the symbol where it should be, then one that is amiss.
    fn placed(&mut self, message: &[u8]) {
        let stock = stock_of(message);
        let length = 2 + self.random.place(5);
        let locate = 1 + self.random.place(length - 1);
        let mut directory = vec![ZVZZT ^ 1; length];
        directory[locate] = stock;
        self.at(message, locate, &directory);
        self.amiss(message, directory, locate);
    }

    fn amiss(&mut self, message: &[u8], mut directory: Vec<u64>, locate: usize) {
        let (length, stock) = (directory.len(), directory[locate]);
        let everywhere = vec![stock; length];
        let random = &mut self.random;
        match random.below(12) {
            0 => directory[locate] ^= 1 << random.below(64),
            1 => directory[locate] = 0,
            2 => directory[locate] = u64::from_be_bytes(**random.one_of(&NO_TEXTS)),
            // What stands where other types have their Stock fields.
            3 => directory[locate] = word(message, *random.one_of(&STOCK_FIELDS)),
            4 => {
                directory = everywhere;
                directory[locate] = 0;
            }
            5 => return self.at(message, 0, &everywhere),
            6 => return self.at(message, length, &everywhere),
            7 => return self.at(message, length - 1, &everywhere),
            8 => {
                let beyond = length + random.place(0x1_0000 - length);
                return self.at(message, beyond, &everywhere);
            }
            // The locate's bytes cut or turned.
            9 => return self.at(message, 0x0100 + locate, &everywhere),
            10 => return self.at(message, 0x0100 * locate, &everywhere),
            _ => {
                let cut = random.place(2);
                return self.at(message, locate.min(cut), &everywhere[..cut]);
            }
        }
        self.at(message, locate, &directory);
    }
}

/// The message with another locate.
fn located(message: &[u8], locate: usize) -> Vec<u8> {
    let mut message = message.to_vec();
    message[1..3].copy_from_slice(&(locate as u16).to_be_bytes());
    message
}

/// Eight bytes of the message as a number, as far as it goes.
fn word(message: &[u8], place: usize) -> u64 {
    let bytes = message.iter().skip(place).take(8);
    bytes.fold(0, |word, &byte| word << 8 | u64::from(byte))
}

/// What stands in the Stock field, or in the place of one.
fn stock_of(message: &[u8]) -> u64 {
    let layout = Layout::of(message[0]);
    let field = layout.and_then(|layout| layout.field("Stock"));
    word(message, field.map_or(STOCK_FIELDS[0], |field| field.offset))
}

impl Checker for Symbols<'_> {
    fn source(&mut self, name: &'static str) {
        eprintln!("comparing: the symbol, {name}");
        self.asker.counts.source = name;
    }

    fn check(&mut self, message: &[u8]) {
        self.longest.ask(self.asker, message);
        if message.len() >= 3 {
            self.placed(message);
            // The last locate that any directory has, or the one behind it.
            let last = located(message, 8_191 + self.random.place(2));
            self.longest.ask(self.asker, &last);
        }
        let turn = self.random.place(16);
        if let Some(refused) = self.refused.get_mut(turn) {
            refused.ask(self.asker, message);
        }
    }
}
