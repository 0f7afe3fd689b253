//! The words of a line: bare, or quoted for names of odd bytes; numbers and bytes in hexadecimal.

use crate::file::{padded, well_formed, without_padding, Name};

/// One word of a line.
#[derive(Clone, Debug, PartialEq, Eq)]
pub enum Word {
    Bare(String),
    Quoted(Vec<u8>),
}

/// The words of a line up to its comment.
pub fn split(line: &str) -> Result<Vec<Word>, String> {
    let mut words = Vec::new();
    let mut rest = line.trim_start();
    while !rest.is_empty() && !rest.starts_with('#') {
        let (word, after) = match rest.strip_prefix('"') {
            Some(quoted) => split_quoted(quoted)?,
            None => split_bare(rest),
        };
        words.push(word);
        rest = after.trim_start();
    }
    Ok(words)
}

/// A bare word and what follows it.
fn split_bare(text: &str) -> (Word, &str) {
    let end = text.find(|letter: char| letter.is_whitespace() || letter == '#').unwrap_or(text.len());
    (Word::Bare(text[..end].to_string()), &text[end..])
}

/// The bytes up to the closing quote, and what follows it.
fn split_quoted(text: &str) -> Result<(Word, &str), String> {
    let mut bytes = Vec::new();
    let mut rest = text;
    loop {
        let letter = rest.chars().next().ok_or("a quote isn't closed")?;
        rest = &rest[letter.len_utf8()..];
        match letter {
            '"' => return Ok((Word::Quoted(bytes), rest)),
            '\\' => {
                let digits =
                    rest.strip_prefix('x').and_then(|rest| rest.get(..2)).ok_or("\\ must be followed by xNN")?;
                bytes.extend(from_hex(digits)?);
                rest = &rest[3..];
            }
            ' '..='~' => bytes.push(letter as u8),
            _ => return Err(format!("{letter:?} in quotes: write \\xNN for each byte")),
        }
    }
}

/// Bytes from pairs of hexadecimal digits.
pub fn from_hex(digits: &str) -> Result<Vec<u8>, String> {
    let pair = |pair: &[u8]| std::str::from_utf8(pair).ok().and_then(|pair| u8::from_str_radix(pair, 16).ok());
    let even = digits.len() % 2 == 0 && digits.bytes().all(|digit| digit.is_ascii_hexdigit());
    let bytes = even.then(|| digits.as_bytes().chunks(2).map(pair).collect::<Option<Vec<u8>>>()).flatten();
    bytes.ok_or_else(|| format!("{digits} isn't pairs of hexadecimal digits"))
}

/// Bytes as pairs of hexadecimal digits.
pub fn to_hex(bytes: &[u8]) -> String {
    bytes.iter().map(|byte| format!("{byte:02x}")).collect()
}

/// A whole number: digits parted by `_` as one likes, a minus sign, an exponent.
pub fn number(word: &Word) -> Result<i128, String> {
    let Word::Bare(text) = word else { return Err("a number expected, not a quote".to_string()) };
    let fault = || format!("{text} isn't a whole number");
    let (digits, exponent) = text.split_once('e').unwrap_or((text, "0"));
    let digits: i128 = digits.replace('_', "").parse().map_err(|_| fault())?;
    let power = exponent.parse().ok().and_then(|exponent| 10i128.checked_pow(exponent)).ok_or_else(fault)?;
    digits.checked_mul(power).ok_or_else(fault)
}

/// A number that fits the field it is for.
pub fn fitting<T: TryFrom<i128>>(word: &Word) -> Result<T, String> {
    let number = number(word)?;
    T::try_from(number).map_err(|_| format!("{number} doesn't fit {}", std::any::type_name::<T>()))
}

/// 01 "The case file": a name's twelve bytes. A bare one must be well-formed, a quoted one may be anything.
pub fn name(word: &Word) -> Result<Name, String> {
    match word {
        Word::Quoted(bytes) if bytes.len() <= 12 => Ok(padded(bytes)),
        Word::Quoted(bytes) => Err(format!("a name of {} bytes", bytes.len())),
        Word::Bare(text) if text.len() <= 12 && well_formed(&padded(text.as_bytes())) => Ok(padded(text.as_bytes())),
        Word::Bare(text) => Err(format!("{text} isn't 1 to 12 of A-Z, 0-9 and _ (put any other name in quotes)")),
    }
}

/// A name as a text writes it: bare where it is well-formed, else in quotes.
pub fn shown_name(name: &Name) -> String {
    let bytes = without_padding(name);
    if well_formed(name) {
        return String::from_utf8_lossy(bytes).into_owned();
    }
    let letter = |byte: &u8| match byte {
        b'"' | b'\\' => format!("\\x{byte:02x}"),
        b' '..=b'~' => (*byte as char).to_string(),
        _ => format!("\\x{byte:02x}"),
    };
    format!("\"{}\"", bytes.iter().map(letter).collect::<String>())
}
