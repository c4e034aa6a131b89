//! A number of an answer as the type of its field, and back.

/// The side of an order.
#[derive(Clone, Copy, Debug, PartialEq, Eq, Hash)]
pub enum Side {
    /// B.
    Buy,
    /// S.
    Sell,
}

impl Side {
    /// B or S, as the messages and the tables write it.
    pub const fn byte(self) -> u8 {
        match self {
            Side::Buy => b'B',
            Side::Sell => b'S',
        }
    }

    /// The side of a byte, if it is B or S.
    pub const fn of_byte(byte: u8) -> Option<Side> {
        match byte {
            b'B' => Some(Side::Buy),
            b'S' => Some(Side::Sell),
            _ => None,
        }
    }
}

/// A kind of field. Each number of an answer is proved to fit its field, so that nothing is cut off.
pub(crate) trait Field: Copy {
    fn of(number: u64) -> Self;
    fn number(self) -> u64;
}

macro_rules! integers {
    ($($integer:ty)*) => {
        $(impl Field for $integer {
            #[inline]
            fn of(number: u64) -> Self {
                number as $integer
            }
            #[inline]
            fn number(self) -> u64 {
                self as u64
            }
        })*
    };
}
integers! { u8 u16 u32 u64 }

impl Field for Side {
    #[inline]
    fn of(number: u64) -> Self {
        // An accepted message's side is B or S.
        match number == u64::from(b'B') {
            true => Side::Buy,
            false => Side::Sell,
        }
    }
    #[inline]
    fn number(self) -> u64 {
        self.byte().into()
    }
}
