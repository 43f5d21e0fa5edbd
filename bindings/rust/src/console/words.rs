//! The words of a question, read one after another.
use crate::{Cell, Point, Segment};
use std::str::Split;

/// The words that are not yet read. Each of the methods reads as many as it needs, and answers
/// nothing where one is missing or cannot be read.
#[derive(Clone)]
pub struct Words<'a>(Split<'a, char>);

impl<'a> Words<'a> {
    pub fn of(line: &'a str) -> Self {
        Words(line.split(' '))
    }

    pub fn next(&mut self) -> Option<&'a str> {
        self.0.find(|word| !word.is_empty())
    }

    /// Something exactly where no word is left.
    pub fn end(&mut self) -> Option<()> {
        self.next().is_none().then_some(())
    }

    /// 16 hexadecimal digits are a float's bits; else it is a decimal number.
    pub fn float(&mut self) -> Option<f64> {
        let word = self.next()?;
        if word.len() == 16 && word.bytes().all(|byte| byte.is_ascii_hexdigit()) {
            return Some(f64::from_bits(u64::from_str_radix(word, 16).ok()?));
        }
        is_decimal(word).then(|| word.parse().ok())?
    }

    pub fn integer(&mut self) -> Option<i64> {
        let word = self.next()?;
        let digits = word.strip_prefix('-').unwrap_or(word);
        are_digits(digits).then(|| word.parse().ok())?
    }

    pub fn cell(&mut self) -> Option<Cell> {
        Some(Cell::new(self.integer()?, self.integer()?))
    }

    pub fn point(&mut self) -> Option<Point> {
        Some(Point::new(self.float()?, self.float()?))
    }

    pub fn segment(&mut self) -> Option<Segment> {
        Some(Segment::new(self.point()?, self.point()?))
    }

    fn entry(&mut self) -> Option<(Cell, bool)> {
        let cell = self.cell()?;
        match self.next()? {
            "0" => Some((cell, false)),
            "1" => Some((cell, true)),
            _ => None,
        }
    }

    /// A count, and so many entries.
    pub fn batch(&mut self) -> Option<Vec<(Cell, bool)>> {
        let count = self.integer().filter(|count| *count >= 0)?;
        (0..count).map(|_| self.entry()).collect()
    }

    /// Two hexadecimal digits a byte; `-` is none.
    pub fn bytes(&mut self) -> Option<Vec<u8>> {
        let word = self.next()?;
        if word == "-" {
            return Some(Vec::new());
        }
        let digit = |byte: &u8| char::from(*byte).to_digit(16);
        let byte = |two: &[u8]| match two {
            [high, low] => Some((16 * digit(high)? + digit(low)?) as u8),
            _ => None,
        };
        word.as_bytes().chunks(2).map(byte).collect()
    }
}

fn are_digits(word: &str) -> bool {
    !word.is_empty() && word.bytes().all(|byte| byte.is_ascii_digit())
}

/// An optional minus, digits, an optional point with digits, an optional exponent.
fn is_decimal(word: &str) -> bool {
    let word = word.strip_prefix('-').unwrap_or(word);
    let (number, exponent) = parted(word, &['e', 'E']);
    let (whole, part) = parted(number, &['.']);
    let unsigned = |exponent: &str| {
        let digits = exponent.strip_prefix(['-', '+']);
        are_digits(digits.unwrap_or(exponent))
    };
    are_digits(whole) && part.is_none_or(are_digits) && exponent.is_none_or(unsigned)
}

/// A word up to the first of these letters, and what follows it.
fn parted<'a>(word: &'a str, letters: &[char]) -> (&'a str, Option<&'a str>) {
    match word.split_once(letters) {
        Some((before, after)) => (before, Some(after)),
        None => (word, None),
    }
}

#[cfg(test)]
mod tests {
    use super::*;

    fn float(word: &str) -> Option<f64> {
        Words::of(word).float()
    }

    #[test]
    fn decimal_numbers() {
        let good: [(&str, f64); 8] = [
            ("256", 256.0),
            ("0.5", 0.5),
            ("-1e3", -1000.0),
            ("-0", -0.0),
            ("2.50E-1", 0.25),
            ("1e+2", 100.0),
            ("123456789012345", 123456789012345.0),
            ("-12345678901234.5", -12345678901234.5),
        ];
        for (word, value) in good {
            assert_eq!(
                float(word).map(f64::to_bits),
                Some(value.to_bits()),
                "{word}"
            );
        }
    }

    #[test]
    fn sixteen_hexadecimal_digits_are_bits() {
        assert_eq!(float("4070000000000000"), Some(256.0));
        assert_eq!(float("3FE0000000000000"), Some(0.5));
        let digits = float("1234567890123456").map(f64::to_bits);
        assert_eq!(digits, Some(0x1234_5678_9012_3456));
        let exponent = float("1e00000000000000").map(f64::to_bits);
        assert_eq!(exponent, Some(0x1e00_0000_0000_0000));
    }

    #[test]
    fn no_floats() {
        let bad = [
            "", "-", "+1", ".5", "1.", "1e", "1e-", "e3", "1.2.3", "1e2e3", "1_0", "inf", "nan",
            "NaN", "0x10", "--1", "1e+-2", "ff", "1,5", "٣",
        ];
        for word in bad {
            assert_eq!(float(word), None, "{word}");
        }
    }

    #[test]
    fn bytes_come_in_twos() {
        let bytes = |word| Words::of(word).bytes();
        assert_eq!(bytes("-"), Some(vec![]));
        assert_eq!(bytes("00ffA1"), Some(vec![0, 255, 0xa1]));
        for bad in ["", "0", "00f", "0g", "0x00", "--", "é"] {
            assert_eq!(bytes(bad), None, "{bad}");
        }
    }
}
