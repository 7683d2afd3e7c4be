//! A place in a line, and the words and values that begin there.

use super::bad::{Bad, Reason};

pub struct Cursor<'a> {
    line: &'a [u8],
    at: usize,
}

/// The types of number fields.
pub trait Number: TryFrom<i128> {
    const SIGNED: bool;
}

macro_rules! numbers {
    ($signed:literal: $($type:ty),*) => {
        $(impl Number for $type {
            const SIGNED: bool = $signed;
        })*
    };
}

numbers!(false: u8, u16, u32, u64);
numbers!(true: i16, i32);

fn is_blank(byte: u8) -> bool {
    byte == b' ' || byte == b'\t'
}

fn hex_digit(byte: u8) -> Option<u8> {
    char::from(byte).to_digit(16).map(|digit| digit as u8)
}

impl<'a> Cursor<'a> {
    pub fn new(line: &'a [u8]) -> Self {
        Cursor { line, at: 0 }
    }

    fn rest(&self) -> &'a [u8] {
        &self.line[self.at..]
    }

    pub fn skip_blanks(&mut self) {
        while self.rest().first().is_some_and(|&b| is_blank(b)) {
            self.at += 1;
        }
    }

    /// Whether no word is left.
    pub fn at_end(&mut self) -> bool {
        self.skip_blanks();
        self.rest().is_empty()
    }

    pub fn end(&mut self) -> Result<(), Bad> {
        if self.at_end() {
            return Ok(());
        }
        Err(Bad::at(self.at, Reason::EndOfLine))
    }

    /// The start of the next word, and the word. It is empty at the end.
    pub fn word(&mut self) -> (usize, &'a [u8]) {
        self.skip_blanks();
        self.value()
    }

    /// From here to the next blank.
    fn value(&mut self) -> (usize, &'a [u8]) {
        self.until(is_blank)
    }

    fn until(&mut self, stop: impl Fn(u8) -> bool) -> (usize, &'a [u8]) {
        let (start, rest) = (self.at, self.rest());
        let length = rest.iter().position(|&b| stop(b)).unwrap_or(rest.len());
        self.at += length;
        (start, &rest[..length])
    }

    /// Whether the next word begins with `NAME=`.
    pub fn next_is(&mut self, name: &str) -> bool {
        self.skip_blanks();
        self.rest()
            .strip_prefix(name.as_bytes())
            .is_some_and(|rest| rest.starts_with(b"="))
    }

    /// Moves past `NAME=` if the next word begins so.
    pub fn named(&mut self, name: &str) -> bool {
        let found = self.next_is(name);
        if found {
            self.at += name.len() + 1;
        }
        found
    }

    fn name(&mut self, name: &'static str) -> Result<(), Bad> {
        if self.named(name) {
            return Ok(());
        }
        Err(Bad::at(self.at, Reason::Expected(name)))
    }

    /// A word that is a number.
    pub fn number<T: Number>(&mut self) -> Result<T, Bad> {
        self.skip_blanks();
        number(self.value())
    }

    pub fn number_field<T: Number>(&mut self, name: &'static str) -> Result<T, Bad> {
        self.name(name)?;
        number(self.value())
    }

    pub fn bool_field(&mut self, name: &'static str) -> Result<bool, Bad> {
        self.name(name)?;
        let (at, value) = self.value();
        match value {
            b"true" => Ok(true),
            b"false" => Ok(false),
            _ => Err(Bad::at(at, Reason::NotABool)),
        }
    }

    pub fn float_field(&mut self, name: &'static str) -> Result<f64, Bad> {
        self.name(name)?;
        let (at, value) = self.value();
        let digits = value.strip_prefix(b"0x").unwrap_or(b"");
        let bits = digits.iter().try_fold(0u64, |bits, &b| {
            Some(bits.wrapping_shl(4) | u64::from(hex_digit(b)?))
        });
        let Some(bits) = bits.filter(|_| digits.len() == 16) else {
            return Err(Bad::at(at, Reason::NotAFloat));
        };
        let float = f64::from_bits(bits);
        if float.is_nan() {
            return Err(Bad::at(at, Reason::NaN));
        }
        Ok(float)
    }

    /// Numbers with commas between them, exactly as many as the array has.
    pub fn numbers_field<const N: usize>(&mut self, name: &'static str) -> Result<[i16; N], Bad> {
        self.name(name)?;
        let start = self.at;
        let mut numbers = [0; N];
        for (i, slot) in numbers.iter_mut().enumerate() {
            *slot = number(self.until(|b| b == b',' || is_blank(b)))?;
            let more = self.rest().starts_with(b",");
            if more != (i + 1 < N) {
                return Err(Bad::at(start, Reason::ParamCount));
            }
            self.at += usize::from(more);
        }
        Ok(numbers)
    }

    /// Exactly two bytes.
    pub fn two_bytes_field(&mut self, name: &'static str) -> Result<[u8; 2], Bad> {
        self.name(name)?;
        let start = self.at;
        let bytes = self.bytes()?;
        bytes
            .try_into()
            .map_err(|_| Bad::at(start, Reason::OutOfRange))
    }

    /// Hexadecimal digits or a text, from here on.
    pub fn bytes(&mut self) -> Result<Vec<u8>, Bad> {
        if self.rest().starts_with(b"\"") {
            return self.text();
        }
        let (start, value) = self.value();
        if let Some(i) = value.iter().position(|&b| hex_digit(b).is_none()) {
            return Err(Bad::at(start + i, Reason::NotAHexDigit));
        }
        if value.len() % 2 == 1 {
            return Err(Bad::at(start, Reason::OddHexDigits));
        }
        Ok(value.chunks(2).filter_map(hex_byte).collect())
    }

    fn text(&mut self) -> Result<Vec<u8>, Bad> {
        let open = self.at;
        self.at += 1;
        let mut bytes = Vec::new();
        loop {
            let (byte, length) = match *self.rest() {
                [] => return Err(Bad::at(open, Reason::NotClosed)),
                [b'"', ..] => break,
                [b'\\', ..] => self.escape()?,
                [b, ..] if b < 0x20 => return Err(Bad::at(self.at, Reason::ControlByte)),
                [b, ..] => (b, 1),
            };
            bytes.push(byte);
            self.at += length;
        }
        self.at += 1;
        if self.rest().first().is_some_and(|&b| !is_blank(b)) {
            return Err(Bad::at(self.at, Reason::EndOfLine));
        }
        Ok(bytes)
    }

    /// The byte that an escape stands for, and the escape's length.
    fn escape(&self) -> Result<(u8, usize), Bad> {
        let hex = match *self.rest() {
            [_, b @ (b'"' | b'\\'), ..] => return Ok((b, 2)),
            [_, b'x', high, low, ..] => hex_byte(&[high, low]),
            _ => None,
        };
        match hex {
            Some(byte) => Ok((byte, 4)),
            None => Err(Bad::at(self.at, Reason::BadEscape)),
        }
    }
}

fn hex_byte(pair: &[u8]) -> Option<u8> {
    Some(hex_digit(pair[0])? << 4 | hex_digit(pair[1])?)
}

fn number<T: Number>((at, word): (usize, &[u8])) -> Result<T, Bad> {
    let minus = if T::SIGNED {
        word.strip_prefix(b"-")
    } else {
        None
    };
    let value = match (minus, word.strip_prefix(b"0x")) {
        (Some(digits), _) => magnitude(digits, 10).map(|n| -n),
        (None, Some(digits)) => magnitude(digits, 16),
        (None, None) => magnitude(word, 10),
    };
    let value = value.ok_or(Bad::at(at, Reason::NotANumber))?;
    T::try_from(value).map_err(|_| Bad::at(at, Reason::OutOfRange))
}

/// The number that the digits write; one too large for any field stays so.
fn magnitude(digits: &[u8], base: u32) -> Option<i128> {
    const LARGE: i128 = 1 << 64;
    if digits.is_empty() {
        return None;
    }
    digits.iter().try_fold(0, |n: i128, &b| {
        let digit = char::from(b).to_digit(base)?;
        Some((n * i128::from(base) + i128::from(digit)).min(LARGE))
    })
}
