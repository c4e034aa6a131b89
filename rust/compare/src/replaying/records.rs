//! The records that a replay writes: their lengths, how many there are, and where two lists differ.

use crate::reporting::hex;

/// The length of a record by its kind.
fn length(kind: u8) -> Option<usize> {
    match kind {
        b'r' => Some(1 + 8 + 1),
        b'b' | b's' => Some(1 + 2 + 4 + 8 + 4),
        b'z' => Some(1 + 8 + 8),
        _ => None,
    }
}

/// The records one after the other; from bytes that begin none on, all that is left.
pub fn records(mut bytes: &[u8]) -> impl Iterator<Item = &[u8]> {
    std::iter::from_fn(move || {
        let kind = *bytes.first()?;
        let length = length(kind).map_or(bytes.len(), |length| length.min(bytes.len()));
        let (record, rest) = bytes.split_at(length);
        bytes = rest;
        Some(record)
    })
}

/// Where a list first differs from the one expected, in words; none where both are the same.
pub fn record_difference(expected: &[u8], got: &[u8]) -> Option<String> {
    if expected == got {
        return None;
    }
    let (mut ours, mut theirs, mut place) = (records(expected), records(got), 1);
    loop {
        let (one, other) = (ours.next(), theirs.next());
        if one != other {
            let (one, other) = (start_of(one), start_of(other));
            return Some(format!("record {place}: expected {one}, got {other}"));
        }
        place += 1;
    }
}

fn start_of(record: Option<&[u8]>) -> String {
    match record {
        None => "the end".into(),
        Some(record) => hex(&record[..record.len().min(32)]),
    }
}

#[cfg(test)]
mod tests {
    use super::{record_difference, records};

    const REFUSED: [u8; 10] = *b"r\0\0\0\0\0\0\0\x04\x0B";
    const LEVEL: [u8; 19] = *b"b\0\x01\0\x01\x86\xA0\0\0\0\0\0\0\0\xC8\0\0\0\x01";
    const END: [u8; 17] = *b"z\0\0\0\0\0\0\0\x04\0\0\0\0\0\0\0\x01";

    #[test]
    fn lists_come_apart_and_differ_where_they_do() {
        let whole = [&REFUSED[..], &LEVEL, &END].concat();
        let parts: Vec<_> = records(&whole).collect();
        assert_eq!(parts, [&REFUSED[..], &LEVEL, &END]);
        assert_eq!(record_difference(&whole, &whole), None);
        for place in 0..whole.len() {
            let mut other = whole.clone();
            other[place] ^= 1;
            let record = [10, 29].iter().filter(|end| **end <= place).count() + 1;
            let words = record_difference(&whole, &other).expect("a difference");
            assert!(words.starts_with(&format!("record {record}: ")), "{words}");
            assert!(record_difference(&whole, &whole[..place]).is_some());
        }
        let longer = [&whole[..], b"?!"].concat();
        let words = record_difference(&whole, &longer).expect("a difference");
        assert_eq!(words, "record 4: expected the end, got 3F21");
    }
}
