//! The words of a line.

use crate::grammar::BYTE_MOST;

pub const COLON: &str = ":";
pub const EQUALS: &str = "=";
pub const COMMA: &str = ",";
pub const DASH: &str = "-";
// Between the first and the last rule of a group.
pub const DOTS: &str = "..";
const MARKS: [&str; 5] = [COLON, EQUALS, COMMA, DASH, DOTS];

#[derive(PartialEq)]
pub enum Token {
    Name(String),
    Character(u8),
    Text(Vec<u8>),
    Mark(&'static str),
}

use Token::{Character, Mark, Name, Text};

pub fn tokens(line: &[u8]) -> Result<Vec<Token>, String> {
    let (mut rest, mut out) = (line.trim_ascii_start(), Vec::new());
    while !rest.is_empty() && rest[0] != b'#' {
        let (token, behind) = first_token(rest)?;
        out.push(token);
        rest = behind.trim_ascii_start();
    }
    Ok(out)
}

fn first_token(text: &[u8]) -> Result<(Token, &[u8]), String> {
    match text[0] {
        b'"' => quoted(text).map(|(inner, rest)| (Text(inner), rest)),
        b'\'' => match quoted(text)? {
            (inner, rest) if inner.len() == 1 => Ok((Character(inner[0]), rest)),
            (inner, _) => Err(format!("{} characters between single quotes, where one belongs", inner.len())),
        },
        c if c.is_ascii_digit() => code(text),
        c if c.is_ascii_alphabetic() || c == b'_' => Ok(name(text)),
        _ => mark(text),
    }
}

fn mark(text: &[u8]) -> Result<(Token, &[u8]), String> {
    match MARKS.iter().find(|mark| text.starts_with(mark.as_bytes())) {
        Some(mark) => Ok((Mark(mark), &text[mark.len()..])),
        None => Err(format!("{} has no meaning outside quotes", character(text[0]))),
    }
}

fn split_word(text: &[u8], belongs: fn(u8) -> bool) -> (String, &[u8]) {
    let end = text.iter().position(|c| !belongs(*c)).unwrap_or(text.len());
    (String::from_utf8_lossy(&text[..end]).into_owned(), &text[end..])
}

fn name(text: &[u8]) -> (Token, &[u8]) {
    let (word, rest) = split_word(text, |c| c.is_ascii_alphanumeric() || c == b'_' || c == b'-');
    (Name(word), rest)
}

fn code(text: &[u8]) -> Result<(Token, &[u8]), String> {
    let (digits, rest) = split_word(text, |c| c.is_ascii_digit());
    match digits.parse() {
        Ok(byte) => Ok((Character(byte), rest)),
        Err(_) => Err(format!("{digits} is no character: codes go from 0 to {BYTE_MOST}")),
    }
}

// What stands between the quote at the start and the next one like it.
fn quoted(text: &[u8]) -> Result<(Vec<u8>, &[u8]), String> {
    let (quote, mut inner, mut at) = (text[0], Vec::new(), 1);
    while at < text.len() && text[at] != quote {
        let escaped = text[at] == b'\\';
        at += escaped as usize;
        inner.push(match text.get(at) {
            Some(c @ (b'\'' | b'"' | b'\\')) if escaped => *c,
            Some(b'n') if escaped => b'\n',
            _ if escaped => return Err("a backslash between quotes stands before ', \", \\ or n".into()),
            Some(c @ b' '..=b'~') => *c,
            _ => return Err("only printable ASCII characters stand between quotes: write others by their codes".into()),
        });
        at += 1;
    }
    if at >= text.len() {
        return Err("a quote is opened and not closed".into());
    }
    Ok((inner, &text[at + 1..]))
}

// A character as the notation has it.
pub fn character(c: u8) -> String {
    match c {
        b'\'' | b'\\' => format!("'\\{}'", c as char),
        b'\n' => "'\\n'".into(),
        b' '..=b'~' => format!("'{}'", c as char),
        _ => c.to_string(),
    }
}
