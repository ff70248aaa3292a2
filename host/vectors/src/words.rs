//! The words of a line, one space apart, taken from the left.

use std::str::{FromStr, Split};

/// Digits of a 64-bit number in hexadecimal.
const HEX_DIGITS: usize = 16;

pub struct Words<'a>(std::iter::Peekable<Split<'a, char>>);

impl<'a> Words<'a> {
    pub fn of(line: &'a str) -> Words<'a> {
        Words(line.split(' ').peekable())
    }

    /// The next word, empty where there is none.
    fn next(&mut self) -> &'a str {
        self.0.next().unwrap_or("")
    }

    /// Takes the next word, which is to be this one.
    pub fn word(&mut self, told: &str) -> Result<(), String> {
        match self.next() {
            word if word == told => Ok(()),
            word => Err(format!("`{word}` in the place of `{told}`")),
        }
    }

    /// Takes the next word if it is this one, and says whether it was.
    pub fn take_if(&mut self, told: &str) -> bool {
        self.0.next_if_eq(&told).is_some()
    }

    /// Takes the next word, which is to be a number in plain digits, no more of them than it needs.
    pub fn number<T: FromStr + ToString>(&mut self) -> Result<T, String> {
        let word = self.next();
        match word.parse::<T>() {
            Ok(number) if number.to_string() == word => Ok(number),
            _ => Err(format!("`{word}` in the place of a number")),
        }
    }

    /// Takes the numbers that stand here, up to a word that opens with no digit.
    pub fn numbers<T: FromStr + ToString>(&mut self) -> Result<Vec<T>, String> {
        let mut numbers = Vec::new();
        while self.0.peek().is_some_and(|word| word.starts_with(|c: char| c.is_ascii_digit())) {
            numbers.push(self.number()?);
        }
        Ok(numbers)
    }

    /// Takes a name and a number.
    pub fn number_of<T: FromStr + ToString>(&mut self, name: &str) -> Result<T, String> {
        self.word(name)?;
        self.number()
    }

    /// Takes a name and the numbers that stand behind it.
    pub fn numbers_of<T: FromStr + ToString>(&mut self, name: &str) -> Result<Vec<T>, String> {
        self.word(name)?;
        self.numbers()
    }

    /// Takes a name and the numbers that stand behind it, one at least, or `none` for no number.
    pub fn some_of<T: FromStr + ToString>(&mut self, name: &str) -> Result<Vec<T>, String> {
        self.word(name)?;
        if self.take_if("none") {
            return Ok(Vec::new());
        }
        let first = self.number()?;
        let mut numbers = self.numbers()?;
        numbers.insert(0, first);
        Ok(numbers)
    }

    /// As `numbers_of`, which are to be N.
    pub fn array_of<T: FromStr + ToString, const N: usize>(&mut self, name: &str) -> Result<[T; N], String> {
        let numbers = self.numbers_of(name)?;
        numbers.try_into().map_err(|numbers: Vec<T>| format!("{} numbers behind `{name}`", numbers.len()))
    }

    /// Takes a name and a 64-bit number in hexadecimal, all its digits and the lower-case ones.
    pub fn hex_of(&mut self, name: &str) -> Result<u64, String> {
        self.word(name)?;
        let word = self.next();
        match u64::from_str_radix(word, 16) {
            Ok(number) if format!("{number:0HEX_DIGITS$x}") == word => Ok(number),
            _ => Err(format!("`{word}` in the place of {HEX_DIGITS} hexadecimal digits")),
        }
    }

    /// Takes a name and bytes in hexadecimal, two lower-case digits each, or `-` for none of them.
    pub fn bytes_of(&mut self, name: &str) -> Result<Vec<u8>, String> {
        self.word(name)?;
        match self.next() {
            "-" => Ok(Vec::new()),
            word => bytes(word).ok_or_else(|| format!("`{word}` in the place of bytes")),
        }
    }

    /// Takes all words that are left, as they stand in the line.
    pub fn rest(&mut self) -> String {
        self.0.by_ref().collect::<Vec<&str>>().join(" ")
    }

    /// No word is left.
    pub fn end(&mut self) -> Result<(), String> {
        match self.0.next() {
            None => Ok(()),
            Some(word) => Err(format!("`{word}` behind the end")),
        }
    }
}

/// One byte or more.
fn bytes(word: &str) -> Option<Vec<u8>> {
    let pairs = word.as_bytes().chunks_exact(2);
    if word.is_empty() || !pairs.remainder().is_empty() {
        return None;
    }
    pairs.map(|pair| Some(digit(pair[0])? << 4 | digit(pair[1])?)).collect()
}

fn digit(character: u8) -> Option<u8> {
    match character {
        b'0'..=b'9' => Some(character - b'0'),
        b'a'..=b'f' => Some(character - b'a' + 10),
        _ => None,
    }
}
