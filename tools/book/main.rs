// Turns a grammar written as text into the bytes of a book, and a book back into such text.
//
//     book [--names NAMES] [TEXT [BOOK]]    TEXT to BOOK; NAMES gets the names of the rules, one a line
//     book --show [BOOK]                    BOOK as text, with names of its own making
//     book --explain [BOOK [BYTE]]          what stands at each byte of BOOK, or at one, whether BOOK is accepted or not
//
// A file that is left out, or called -, is standard input or standard output.
//
// The text has a statement on each line; # starts a comment. Three dots stand for more of the same.
//
//     start SORT                     the sort of a whole line
//     sorts SORT ...                 the sorts, in the order of their numbers
//     class NAME CHARACTERS ...      a class: characters, or ranges FIRST-LAST, upwards or downwards; none for the empty class
//     NAME: SORT = ARGUMENT ...      a rule; nothing after = for the empty rule; a rule that no declaration names may do without `NAME:`
//     higher A B, C D, ...           declarations: rule A is higher than rule B, and C than D
//     left A B, C..D, ...            left holds of rules A and B, and of every two rules of the group C..D
//     right ... not-together ...     as for left
//
// A group C..D is all rules from C to D in the order of their lines, C and D included; those between need no name. What is said of it holds of every two of
// them and of each with itself. It is one declaration. If D stands before C, the library refuses it.
//
// A range '9'-'0' has the same characters as '0'-'9'. It is kept as it is written: the bytes differ, and --show prints what they say.
//
// A character is 'c', where \' \" \\ and \n stand for quotes, backslash and line feed, or its code, 0 to 255.
// An argument is a sort, a class, a character, or a "text", which is a row of characters.
//
// Rules, declarations and classes are numbered in the order of their lines. A character in a rule is the first class of that character alone; if no line makes
// one, it is made, behind those of the lines. Without a `sorts` line the sorts are numbered as the rules first name them, and each must be the result of a rule,
// so that a slip of the pen is found; with one, those are the sorts.
//
// Whether the book is accepted is for the library to say: only what no byte could hold is refused here. Of two equal rules, for which the library refuses a book, a
// note gives the names and lines: the library knows no more than a byte. The book is made all the same. Rules are equal when their results are and each argument is the
// same sort or the same set of characters, whatever its name and however its ranges are written.
mod equal;
mod explain;
mod files;
mod grammar;
mod numbers;
mod show;
mod statements;
mod tokens;

use explain::{explain, explain_byte};
use files::{input_name, read_all, write_all};
use grammar::decode;
use show::show;
use statements::{parse, Fault};
use std::{env, process};

fn make(text: &str, book: &str, names: Option<&str>) -> Result<(), String> {
    let bytes = read_all(text)?;
    let in_words = |f: Fault| format!("{}: line {}: {}", input_name(text), f.line, f.what);
    let source = parse(&bytes).map_err(in_words)?;
    let grammar = source.grammar().map_err(in_words)?;
    if let Some(note) = source.equal_rule(&grammar) {
        eprintln!("book: {}", in_words(note));
    }
    write_all(book, &grammar.bytes())?;
    if let Some(path) = names {
        let lines: String = source.productions.iter().map(|p| format!("{}\n", p.label.name)).collect();
        write_all(path, lines.as_bytes())?;
    }
    Ok(())
}

fn show_book(book: &str) -> Result<(), String> {
    let grammar = decode(&read_all(book)?).map_err(|what| format!("{}: {what}", input_name(book)))?;
    write_all("-", show(&grammar).as_bytes())
}

fn explain_book(book: &str, byte: Option<&str>) -> Result<(), String> {
    let bytes = read_all(book)?;
    let lines = match byte {
        None => explain(&bytes),
        Some(word) => word.parse().map_err(|_| format!("`{word}` is no byte of a book: they are counted from 0")).and_then(|place| explain_byte(&bytes, place)),
    };
    write_all("-", lines.map_err(|what| format!("{}: {what}", input_name(book)))?.as_bytes())
}

fn main() {
    let words: Vec<String> = env::args_os().skip(1).map(|word| word.to_string_lossy().into_owned()).collect();
    let words: Vec<&str> = words.iter().map(String::as_str).collect();
    let done = match words[..] {
        ["--show"] => show_book("-"),
        ["--show", book] => show_book(book),
        ["--explain"] => explain_book("-", None),
        ["--explain", book] => explain_book(book, None),
        ["--explain", book, byte] => explain_book(book, Some(byte)),
        ["--names", names] => make("-", "-", Some(names)),
        ["--names", names, text] => make(text, "-", Some(names)),
        ["--names", names, text, book] => make(text, book, Some(names)),
        [] => make("-", "-", None),
        [text] if !text.starts_with("--") => make(text, "-", None),
        [text, book] if !text.starts_with("--") => make(text, book, None),
        _ => Err("usage: book [--names NAMES] [TEXT [BOOK]]  or  book --show [BOOK]  or  book --explain [BOOK [BYTE]]".into()),
    };
    if let Err(what) = done {
        eprintln!("book: {what}");
        process::exit(1);
    }
}
