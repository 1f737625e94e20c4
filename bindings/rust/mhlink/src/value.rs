//! Values, and the outcomes of calls.

use mhlink_sys as sys;

/// The most parameters of a site.
const MOST_PARAMETERS: usize = 16;

const NONE: sys::mhlink_value = sys::mhlink_value { kind: 0, number: 0 };

/// A value. A text has at most 65,536 bytes, each from 0x20 to 0x7E.
#[derive(Clone, Debug, PartialEq, Eq)]
pub enum Value {
    Int(i32),
    Long(i64),
    Boolean(bool),
    Text(String),
}

/// The exception that a call threw.
#[derive(Clone, Copy, Debug, PartialEq, Eq)]
pub enum Throw {
    /// A division by zero.
    ArithmeticException,
    /// A text of more than 65,536 bytes.
    TextTooLong,
}

/// What a call returned or threw.
#[derive(Clone, Debug, PartialEq, Eq)]
pub enum Outcome {
    Value(Value),
    Thrown(Throw),
}

/// The outcome of a call, and the number of nodes evaluated.
#[derive(Clone, Debug, PartialEq, Eq)]
pub struct Reply {
    /// The outcome.
    pub outcome: Outcome,
    /// The number of nodes evaluated.
    pub steps: u64,
}

impl From<i32> for Value {
    fn from(number: i32) -> Value {
        Value::Int(number)
    }
}

impl From<i64> for Value {
    fn from(number: i64) -> Value {
        Value::Long(number)
    }
}

impl From<bool> for Value {
    fn from(truth: bool) -> Value {
        Value::Boolean(truth)
    }
}

impl From<&str> for Value {
    fn from(text: &str) -> Value {
        Value::Text(text.to_owned())
    }
}

impl Value {
    /// Returns the value as the library takes it, and appends the bytes of a text to `texts`.
    pub(crate) fn to_raw(&self, texts: &mut Vec<u8>) -> sys::mhlink_value {
        let (kind, number) = match self {
            Value::Int(number) => (sys::MHLINK_INT, i64::from(*number)),
            Value::Long(number) => (sys::MHLINK_LONG, *number),
            Value::Boolean(truth) => (sys::MHLINK_BOOLEAN, i64::from(*truth)),
            Value::Text(text) => {
                texts.extend_from_slice(text.as_bytes());
                (sys::MHLINK_STRING, text.len() as i64)
            }
        };
        sys::mhlink_value { kind, number }
    }
}

/// Passes values as the library takes them, with the bytes of the texts among them. Up to 16 values
/// without a text take no memory.
pub(crate) fn with_raw<R>(
    values: &[Value],
    call: impl FnOnce(&[sys::mhlink_value], &[u8]) -> R,
) -> R {
    let (mut room, mut more, mut texts) = ([NONE; MOST_PARAMETERS], Vec::new(), Vec::new());
    let raw = match room.get_mut(..values.len()) {
        Some(room) => room,
        None => {
            more.resize(values.len(), NONE);
            &mut more[..]
        }
    };
    for (place, value) in raw.iter_mut().zip(values) {
        *place = value.to_raw(&mut texts);
    }
    call(raw, &texts)
}

/// Returns a reply of the library. `text` reads the text that the call returned, if it is one.
pub(crate) fn reply_of<E>(
    raw: sys::mhlink_reply,
    text: impl FnOnce() -> Result<String, E>,
) -> Result<Reply, E> {
    let outcome = match raw.kind {
        sys::MHLINK_INT => Outcome::Value(Value::Int(raw.number as i32)),
        sys::MHLINK_LONG => Outcome::Value(Value::Long(raw.number)),
        sys::MHLINK_BOOLEAN => Outcome::Value(Value::Boolean(raw.number != 0)),
        sys::MHLINK_STRING => Outcome::Value(Value::Text(text()?)),
        _ if raw.number == 1 => Outcome::Thrown(Throw::ArithmeticException),
        _ => Outcome::Thrown(Throw::TextTooLong),
    };
    Ok(Reply {
        outcome,
        steps: raw.steps,
    })
}
