//! Ours: the words of a case line. Words are separated by exactly one space. A number is decimal with no leading
//! zero and no plus, and a minus only before a number that is not 0. A float is 16 lower-case hex digits.

use crate::rules;

pub struct Words<'a> {
    line: Option<&'a [u8]>,
}

impl<'a> Words<'a> {
    pub fn new(line: &'a [u8]) -> Self {
        Words { line: Some(line) }
    }

    pub fn word(&mut self) -> Option<&'a [u8]> {
        let line = self.line?;
        let end = line.iter().position(|&byte| byte == b' ');
        self.line = end.map(|end| &line[end + 1..]);
        Some(&line[..end.unwrap_or(line.len())])
    }

    pub fn end(&self) -> Option<()> {
        if self.line.is_none() {
            Some(())
        } else {
            None
        }
    }

    /// Up to 2^64 - 1: more than any number of a case, so that every overflow is seen by its taker.
    fn digits(word: &[u8]) -> Option<u64> {
        if word.is_empty() || (word[0] == b'0' && word.len() > 1) {
            return None;
        }
        let mut number = 0u64;
        for &byte in word {
            let digit = byte.wrapping_sub(b'0');
            if digit > 9 {
                return None;
            }
            number = number.checked_mul(10)?.checked_add(u64::from(digit))?;
        }
        Some(number)
    }

    pub fn u64(&mut self) -> Option<u64> {
        Self::digits(self.word()?)
    }

    pub fn u32(&mut self) -> Option<u32> {
        u32::try_from(self.u64()?).ok()
    }

    pub fn byte(&mut self) -> Option<u8> {
        u8::try_from(self.u64()?).ok()
    }

    pub fn i64(&mut self) -> Option<i64> {
        let word = self.word()?;
        let number = match word.strip_prefix(b"-") {
            Some(rest) => match Self::digits(rest)? {
                0 => return None,
                size => -i128::from(size),
            },
            None => i128::from(Self::digits(word)?),
        };
        i64::try_from(number).ok()
    }

    pub fn bit(&mut self) -> Option<bool> {
        match self.word()? {
            b"0" => Some(false),
            b"1" => Some(true),
            _ => None,
        }
    }

    pub fn f64(&mut self) -> Option<f64> {
        let word = self.word()?;
        if word.len() != 16 {
            return None;
        }
        let mut bits = 0u64;
        for &byte in word {
            let digit = match byte {
                b'0'..=b'9' => byte - b'0',
                b'a'..=b'f' => byte - b'a' + 10,
                _ => return None,
            };
            bits = bits << 4 | u64::from(digit);
        }
        Some(rules::one_nan(f64::from_bits(bits)))
    }

    /// A count, at most `most`, and then as many items.
    pub fn list<T>(&mut self, most: u64, item: impl Fn(&mut Self) -> Option<T>) -> Option<Vec<T>> {
        let count = self.u64()?;
        if count > most {
            return None;
        }
        (0..count).map(|_| item(self)).collect()
    }
}
