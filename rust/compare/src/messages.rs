//! Messages made for the readers, and who they are made for.

mod fields;
mod lengths;
mod random;
mod texts;

/// No message is longer than this.
pub const LONGEST_MESSAGE: usize = 0x1_0100;

/// Holds both programs to each other, one message after the other.
pub trait Checker {
    /// The messages from here on are of this source.
    fn source(&mut self, name: &'static str);
    /// Compares what both programs make of the message.
    fn check(&mut self, message: &[u8]);
}

/// Those that are the same whatever the count.
pub fn fixed_messages(checker: &mut impl Checker) {
    lengths::every_length(checker);
    lengths::far_lengths(checker);
    fields::every_field(checker);
    fields::every_byte(checker);
    fields::faults_together(checker);
}

/// The fixed ones, the text fields, and that many random ones.
pub fn all_messages(checker: &mut impl Checker, count: u64) {
    fixed_messages(checker);
    texts::every_text(checker);
    random::random_messages(checker, count);
}
