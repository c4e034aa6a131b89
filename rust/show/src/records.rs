//! The records that a replay writes, read strictly.

pub struct Refusal {
    /// From 1.
    pub message: u64,
    pub number: u8,
}

#[derive(Clone, Copy, Debug, PartialEq, Eq)]
pub enum Side {
    Bid,
    Offer,
}

#[derive(Debug, PartialEq, Eq)]
pub struct Level {
    pub side: Side,
    pub locate: u16,
    pub price: u32,
    pub total: u64,
    pub orders: u32,
}

#[derive(Default)]
pub struct Records {
    pub refusals: Vec<Refusal>,
    pub levels: Vec<Level>,
    pub messages: u64,
    pub refused: u64,
}

impl Records {
    /// Refusals, then levels, then the counts and nothing more; or what is wrong with them.
    pub fn read(mut bytes: &[u8]) -> Result<Records, String> {
        let mut records = Records::default();
        let rest = &mut bytes;
        loop {
            if rest.is_empty() {
                return Err("the counts are missing".into());
            }
            let [kind] = take(rest)?;
            match kind {
                b'r' if !records.levels.is_empty() => return Err("a refusal after a level".into()),
                b'r' => records.refusals.push(Refusal {
                    message: u64::from_be_bytes(take(rest)?),
                    number: u8::from_be_bytes(take(rest)?),
                }),
                b'b' => records.levels.push(level(Side::Bid, rest)?),
                b's' => records.levels.push(level(Side::Offer, rest)?),
                b'z' => break,
                _ => return Err(format!("no kind of record: hex {kind:02X}")),
            }
        }
        records.messages = u64::from_be_bytes(take(rest)?);
        records.refused = u64::from_be_bytes(take(rest)?);
        match rest {
            [] => Ok(records),
            _ => Err("something after the counts".into()),
        }
    }
}

fn level(side: Side, rest: &mut &[u8]) -> Result<Level, String> {
    Ok(Level {
        side,
        locate: u16::from_be_bytes(take(rest)?),
        price: u32::from_be_bytes(take(rest)?),
        total: u64::from_be_bytes(take(rest)?),
        orders: u32::from_be_bytes(take(rest)?),
    })
}

/// The next bytes, which a whole record has.
fn take<const N: usize>(rest: &mut &[u8]) -> Result<[u8; N], String> {
    let Some((field, after)) = rest.split_first_chunk() else {
        return Err("the last record is cut".into());
    };
    *rest = after;
    Ok(*field)
}

#[cfg(test)]
mod tests {
    use super::*;

    /// The paper's whole case.
    const WHOLE_CASE: [u8; 46] = *b"r\0\0\0\0\0\0\0\x04\x0B\
        b\0\x01\0\x01\x86\xA0\0\0\0\0\0\0\0\xC8\0\0\0\x01\
        z\0\0\0\0\0\0\0\x04\0\0\0\0\0\0\0\x01";

    fn error(bytes: &[u8]) -> String {
        Records::read(bytes).err().expect("it is not as it must be")
    }

    #[test]
    fn the_whole_case() {
        let records = Records::read(&WHOLE_CASE).unwrap();
        assert_eq!((records.messages, records.refused), (4, 1));
        let refusal = &records.refusals[0];
        assert_eq!((refusal.message, refusal.number), (4, 11));
        let level = &records.levels[0];
        assert_eq!((level.side, level.locate), (Side::Bid, 1));
        assert_eq!((level.price, level.total, level.orders), (100_000, 200, 1));
    }

    #[test]
    fn cut_anywhere() {
        for length in 0..WHOLE_CASE.len() {
            let expected = match length {
                0 | 10 | 29 => "the counts are missing",
                _ => "the last record is cut",
            };
            assert_eq!(error(&WHOLE_CASE[..length]), expected, "{length}");
        }
    }

    #[test]
    fn other_kinds_and_another_order() {
        assert_eq!(error(b"q"), "no kind of record: hex 71");
        assert_eq!(
            error(&[&WHOLE_CASE[..10], b"\0"].concat()),
            "no kind of record: hex 00"
        );
        let swapped = [&WHOLE_CASE[10..29], &WHOLE_CASE].concat();
        assert_eq!(error(&swapped), "a refusal after a level");
        let more = [&WHOLE_CASE[..], b"z"].concat();
        assert_eq!(error(&more), "something after the counts");
    }
}
