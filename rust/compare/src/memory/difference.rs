//! Where two tables differ.

/// The first number in which two tables differ.
#[derive(Clone, Copy)]
pub struct TableDifference {
    pub place: usize,
    pub expected: u64,
    pub got: u64,
}

/// The first difference of a table that must have exactly the numbers expected.
pub fn table_difference(
    mut expected: impl Iterator<Item = u64>,
    got: &[u64],
) -> Option<TableDifference> {
    let end = expected.try_fold(0, |place, expected| match got.get(place) {
        Some(&number) if number == expected => Ok(place + 1),
        Some(&got) => Err(TableDifference {
            place,
            expected,
            got,
        }),
        None => panic!("both tables have the same length"),
    });
    match end {
        Ok(end) => {
            assert_eq!(end, got.len(), "both tables have the same length");
            None
        }
        Err(difference) => Some(difference),
    }
}
