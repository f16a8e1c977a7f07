//! Run-time values and their form in lent memory.

use crate::rows::Home;

/// A plain number, or a pair of a home and an offset.
#[derive(Clone, Copy, Debug, PartialEq, Eq)]
pub enum Value {
    Number(u32),
    Pair(Home, u32),
}

impl Value {
    /// The null of a pointer that is not SAFE.
    pub const NULL_PAIR: Value = Value::Pair(Home::NULL, 0);

    /// A memory entry: the low half is the number or offset, the high half 0
    /// for a number and 1 + g for a pair of home g.
    pub fn to_entry(self) -> u64 {
        match self {
            Value::Number(n) => u64::from(n),
            Value::Pair(home, n) => (1 + u64::from(home.0)) << 32 | u64::from(n),
        }
    }

    /// The value of an entry that some value has; other entries hold none.
    pub fn from_entry(entry: u64) -> Option<Value> {
        let low = entry as u32;
        match entry >> 32 {
            0 => Some(Value::Number(low)),
            high => u16::try_from(high - 1)
                .ok()
                .map(|home| Value::Pair(Home(home), low)),
        }
    }
}
