// Turns a readable list of cases into the input and the expected output of a case program.
//
//     cases CASES STDIN STDOUT
//
// A line of CASES is `EXPECTED: FIELD | FIELD ..`, or `def NAME = ITEMS`, or empty; `#` starts a comment.
// A case that is to print several lines, or none, has no EXPECTED, and those lines follow it, each behind `> `.
// A field is a row of items: a byte in base ten, @N for a number of two bytes, low byte first, "text", a NAME, or N*ITEM and N*( ITEMS ) for N times the same.
// STDIN gets each field as two bytes of length, low byte first, and then its bytes; STDOUT the expected lines.
use std::collections::HashMap;
use std::{env, fs, process};

type Names = HashMap<String, Vec<u8>>;

fn fail(line: usize, what: &str) -> ! {
    eprintln!("cases: line {}: {}", line, what);
    process::exit(1)
}

// The text before a comment; a `#` inside quotes starts none.
fn without_comment(line: &str) -> &str {
    let mut quoted = false;
    for (i, c) in line.char_indices() {
        match c {
            '"' => quoted = !quoted,
            '#' if !quoted => return &line[..i],
            _ => {}
        }
    }
    line
}

fn tokens(text: &str, number: usize) -> Vec<String> {
    let mut out = Vec::new();
    let mut chars = text.chars().peekable();
    while let Some(&c) = chars.peek() {
        if c.is_whitespace() {
            chars.next();
        } else if c == '"' {
            let mut word = String::new();
            word.push(c);
            chars.next();
            loop {
                match chars.next() {
                    Some('"') => break,
                    Some(d) => word.push(d),
                    None => fail(number, "a text without its end"),
                }
            }
            out.push(word);
        } else if "*()|".contains(c) {
            out.push(c.to_string());
            chars.next();
        } else {
            let mut word = String::new();
            while let Some(&d) = chars.peek() {
                if d.is_whitespace() || "*()|\"".contains(d) {
                    break;
                }
                word.push(d);
                chars.next();
            }
            out.push(word);
        }
    }
    out
}

fn items(words: &[String], at: &mut usize, names: &Names, number: usize) -> Vec<u8> {
    let mut out = Vec::new();
    while *at < words.len() && words[*at] != ")" && words[*at] != "|" {
        out.extend(item(words, at, names, number));
    }
    out
}

fn item(words: &[String], at: &mut usize, names: &Names, number: usize) -> Vec<u8> {
    let word = words.get(*at).unwrap_or_else(|| fail(number, "an item is missing")).clone();
    *at += 1;
    if word == "(" {
        let inner = items(words, at, names, number);
        if words.get(*at).map(String::as_str) != Some(")") {
            fail(number, "a bracket without its end");
        }
        *at += 1;
        return inner;
    }
    if let Some(text) = word.strip_prefix('"') {
        return text.bytes().collect();
    }
    if let Some(number_of_two) = word.strip_prefix('@') {
        return number_of_two.parse::<u16>().unwrap_or_else(|_| fail(number, "no number of two bytes")).to_le_bytes().to_vec();
    }
    if let Ok(n) = word.parse::<usize>() {
        if words.get(*at).map(String::as_str) == Some("*") {
            *at += 1;
            return item(words, at, names, number).repeat(n);
        }
        return vec![u8::try_from(n).unwrap_or_else(|_| fail(number, "a byte above 255"))];
    }
    names.get(&word).cloned().unwrap_or_else(|| fail(number, "an unknown name"))
}

fn main() {
    let args: Vec<String> = env::args().collect();
    if args.len() != 4 {
        eprintln!("usage: cases CASES STDIN STDOUT");
        process::exit(2);
    }
    let text = fs::read_to_string(&args[1]).expect("the cases can be read");
    let (mut input, mut output, mut names) = (Vec::new(), String::new(), Names::new());
    for (index, whole) in text.lines().enumerate() {
        let number = index + 1;
        if let Some(expected) = whole.strip_prefix("> ") {
            output.push_str(expected);
            output.push('\n');
            continue;
        }
        let line = without_comment(whole).trim();
        if line.is_empty() {
            continue;
        }
        if let Some(definition) = line.strip_prefix("def ") {
            let (name, body) = definition.split_once('=').unwrap_or_else(|| fail(number, "a definition without ="));
            let bytes = items(&tokens(body, number), &mut 0, &names, number);
            names.insert(name.trim().to_string(), bytes);
            continue;
        }
        let (expected, fields) = line.split_once(':').unwrap_or_else(|| fail(number, "a case without :"));
        if !expected.trim().is_empty() {
            output.push_str(expected.trim());
            output.push('\n');
        }
        let words = tokens(fields, number);
        let mut at = 0;
        loop {
            let field = items(&words, &mut at, &names, number);
            input.extend((field.len() as u16).to_le_bytes());
            input.extend(field);
            if at == words.len() {
                break;
            }
            if words[at] != "|" {
                fail(number, "a bracket too many");
            }
            at += 1;
        }
    }
    fs::write(&args[2], input).expect("the input can be written");
    fs::write(&args[3], output).expect("the output can be written");
}
