// Finds what is imported and not used.
//
//     unused DIRECTORY    the directory has crates.txt and crates/
//
// It names, a line each, with file and line: a name that a file imports and nothing else in it refers to; a name that a file imports twice; a crate that
// crates.txt lists for another and no file of that crate refers to. It exits with 1 if there is any.
//
// A file is read word by word and not parsed. A word is no use of an imported name where it is a field (`.name`, or `name =` behind `{` or `;`), or where a
// variable of that name is bound in the same declaration: by `λ name.`, `(name : ..)`, `let name`, or on a clause's left side, where only constructors are
// told from variables, and those by the module that declares them: a name from outside crates/ counts as a constructor. What `ghost use` imports is used in
// contracts only, between the braces of `requires`, of `ensures` and of a ghost field.
use std::collections::{HashMap, HashSet};
use std::path::{Path, PathBuf};
use std::{env, fs, process};

// Which words there are: those of the code, or those of proofs and contracts.
#[derive(Clone, Copy, PartialEq)]
enum Notation {
    Code,
    Ghost,
}

struct Word {
    text: String,
    line: usize,
    // stands right behind the word before it
    joined: bool,
    // starts a line without a space before it
    first: bool,
}

struct Import {
    name: String,
    line: usize,
    // the module that it is from, as `Rattle.layout.specs.Layout`, and what it is called there
    from: String,
    original: String,
    // a whole module, used as `name.`
    module: bool,
    // handed on to other files
    public: bool,
}

// ---- words

fn in_word(c: char, notation: Notation) -> bool {
    match notation {
        Notation::Code => c.is_alphanumeric() || c == '_',
        Notation::Ghost => !c.is_whitespace() && !"(){}[],;.\"".contains(c),
    }
}

// The words of a text; every character that is in no word is one by itself, but `[]` is one, too.
fn words(text: &str, notation: Notation) -> Vec<Word> {
    let mut out: Vec<Word> = Vec::new();
    for (at, row) in text.lines().enumerate() {
        let characters: Vec<char> = row.chars().collect();
        let mut start = 0;
        let mut before_end = usize::MAX;
        while start < characters.len() {
            if characters[start].is_whitespace() {
                start += 1;
                continue;
            }
            let mut end = start;
            while end < characters.len() && in_word(characters[end], notation) {
                end += 1;
            }
            if end == start {
                end += if characters[start..].starts_with(&['[', ']']) { 2 } else { 1 };
            }
            let text = characters[start..end].iter().collect();
            out.push(Word { text, line: at + 1, joined: start == before_end, first: start == 0 });
            before_end = end;
            start = end;
        }
    }
    out
}

// ---- texts, each part that is left out replaced by spaces so that lines and columns stay

fn blank(text: &str) -> String {
    text.chars().map(|c| if c == '\n' { c } else { ' ' }).collect()
}

// The text of a line before its comment.
fn without_comment<'a>(row: &'a str, mark: &str) -> &'a str {
    let starts = |at: &usize| row[..*at].chars().next_back().map_or(true, |c| c.is_whitespace() || "(){};".contains(c));
    match row.match_indices(mark).map(|(at, _)| at).find(starts) {
        Some(at) => &row[..at],
        None => row,
    }
}

fn without_comments(text: &str, mark: &str) -> String {
    text.lines().map(|row| without_comment(row, mark).to_string() + "\n").collect()
}

// The places from which on a keyword stands, and where what it starts has its end.
fn parts(text: &str, keyword: &str, end: impl Fn(&str) -> usize) -> Vec<(usize, usize)> {
    let own = |at: usize| !text[..at].ends_with(|c| in_word(c, Notation::Code)) && !text[at + keyword.len()..].starts_with(|c| in_word(c, Notation::Code));
    text.match_indices(keyword).map(|(at, _)| at).filter(|&at| own(at)).map(|at| (at, at + end(&text[at..]))).collect()
}

fn through_semicolon(text: &str) -> usize {
    text.find(';').map_or(text.len(), |at| at + 1)
}

fn through_braces(text: &str) -> usize {
    let mut depth = 0;
    for (at, c) in text.char_indices() {
        match c {
            '{' => depth += 1,
            '}' if depth == 1 => return at + 1,
            '}' => depth -= 1,
            _ => {}
        }
    }
    text.len()
}

// The text with nothing but these parts, and the text without them.
fn split(text: &str, mut parts: Vec<(usize, usize)>) -> (String, String) {
    parts.sort();
    let (mut only, mut rest, mut at) = (String::new(), String::new(), 0);
    for (from, to) in parts {
        let from = from.max(at);
        let to = to.max(from);
        only += &(blank(&text[at..from]) + &text[from..to]);
        rest += &(text[at..from].to_string() + &blank(&text[from..to]));
        at = to;
    }
    (only + &blank(&text[at..]), rest + &text[at..])
}

// A file of code: its code, and its contracts with what they import.
fn code_and_ghost(text: &str) -> (String, String) {
    let (ghost_imports, code) = split(text, parts(text, "ghost use", through_semicolon));
    let mut contracts = parts(&code, "requires", through_braces);
    contracts.extend(parts(&code, "ensures", through_braces));
    contracts.extend(parts(&code, "ghost", through_braces));
    let (contracts, _) = split(&code, contracts);
    let ghost = ghost_imports.replace("ghost use", "use      ").replace(';', " ");
    (code, ghost.lines().zip(contracts.lines()).map(|(a, b)| if b.trim().is_empty() { format!("{}\n", a.trim()) } else { format!("{}\n", b) }).collect())
}

// ---- imports

// Where the import that starts at a word has its end: behind its semicolon, or with its line or its braces.
fn import_end(words: &[Word], start: usize, notation: Notation) -> usize {
    if notation == Notation::Code {
        return start + words[start..].iter().position(|w| w.text == ";").map_or(words.len() - start, |at| at + 1);
    }
    let line_end = start + words[start..].iter().position(|w| w.line != words[start].line).unwrap_or(words.len() - start);
    match words[start..line_end].iter().position(|w| w.text == "{") {
        Some(at) => start + at + words[start + at..].iter().position(|w| w.text == "}").map_or(words.len() - start - at, |end| end + 1),
        None => line_end,
    }
}

// What an import names: `M.{a, b as c}`, `M as x`, `a::b::C`, `a::{b, c}`.
fn imported(words: &[Word], public: bool, notation: Notation) -> Vec<Import> {
    let entries: Vec<&[Word]> = match words.iter().position(|w| w.text == "{") {
        Some(at) => words[at + 1..].split(|w| w.text == "," || w.text == "}").collect(),
        None => vec![words],
    };
    let from: String = words.iter().map(|w| w.text.as_str()).take_while(|&w| w != "{").collect();
    let module = notation == Notation::Ghost && words.iter().all(|w| w.text != "{");
    let named = entries.iter().filter_map(|entry| Some((entry.first()?, entry.iter().filter(|w| w.text != ";").last()?)));
    let import = |(first, last): (&Word, &Word)| Import {
        name: last.text.clone(),
        line: last.line,
        from: from.trim_end_matches('.').to_string(),
        original: first.text.clone(),
        module,
        public,
    };
    named.map(import).collect()
}

// The imports of a text, and its other words.
fn take_imports(words: Vec<Word>, notation: Notation) -> (Vec<Import>, Vec<Word>) {
    let mut imports = Vec::new();
    let mut kept = vec![true; words.len()];
    for at in 0..words.len() {
        let public = at > 0 && words[at - 1].text == "pub";
        let starts = words[at].text == "use" && (notation == Notation::Code || words[at].first || public);
        if starts && kept[at] {
            let end = import_end(&words, at, notation);
            imports.extend(imported(&words[at + 1..end], public, notation));
            kept[at..end].fill(false);
        }
    }
    let mut keep = kept.iter();
    (imports, words.into_iter().filter(|_| *keep.next().unwrap()).collect())
}

// ---- uses

fn text_at(words: &[Word], at: Option<usize>) -> &str {
    at.and_then(|at| words.get(at)).map_or("", |w| &w.text)
}

fn is_name(word: &str) -> bool {
    word.starts_with(|c: char| c.is_alphabetic() || c == '_') && word != "λ"
}

// A field: of a value, or where a record or an argument is given by name.
fn is_field(words: &[Word], at: usize, notation: Notation) -> bool {
    let before = text_at(words, at.checked_sub(1));
    let before_that = text_at(words, at.checked_sub(2));
    if notation == Notation::Code {
        return (before == "." && before_that != ".") || (before == ":" && before_that == ":");
    }
    let given = (before == "{" || before == ";") && text_at(words, Some(at + 1)) == "=";
    let declared = before == "pub" && text_at(words, Some(at + 1)) == ":";
    (before == "." && words[at].joined) || given || declared
}

// A variable where it is bound: `λ a b.`, `(a b : ..)`, `{a b : ..}`, `let a`.
fn is_bound(words: &[Word], at: usize) -> bool {
    if text_at(words, at.checked_sub(1)) == "let" {
        return true;
    }
    let opening = words[..at].iter().rev().map(|w| w.text.as_str()).find(|w| !is_name(w)).unwrap_or("");
    let closing = words[at..].iter().map(|w| w.text.as_str()).find(|w| !is_name(w)).unwrap_or("");
    matches!((opening, closing), ("λ", ".") | ("(", ":") | ("{", ":"))
}

// A word behind the first on the left side of a clause.
fn is_on_left_side(words: &[Word], at: usize) -> bool {
    let row = |w: &&Word| w.line == words[at].line;
    let left = words[..at].iter().rev().take_while(row).chain(words[at..].iter().take_while(row).take_while(|w| w.text != "="));
    let closed = words[at..].iter().take_while(row).any(|w| w.text == "=");
    let behind = at > 0 && words[at - 1].line == words[at].line;
    let other = ["=", ":", "→", "λ", "let", "in", "↦", "record", "unfolding", "use"];
    behind && closed && left.into_iter().all(|w| !other.contains(&w.text.as_str()))
}

// The words that may use what is imported. A declaration goes from a word at a line's start to the next.
fn uses<'a>(words: &'a [Word], notation: Notation, functions: &HashSet<&str>) -> HashSet<&'a str> {
    let mut out = HashSet::new();
    let mut start = 0;
    while start < words.len() {
        let end = (start + 1..words.len()).find(|&at| words[at].first).unwrap_or(words.len());
        let places = (start..end).filter(|&at| !is_field(words, at, notation));
        let binds = |at: &usize| is_bound(words, *at) || functions.contains(words[*at].text.as_str()) && is_on_left_side(words, *at);
        let bound: HashSet<&str> = places.clone().filter(|at| notation == Notation::Ghost && binds(at)).map(|at| words[at].text.as_str()).collect();
        out.extend(places.map(|at| words[at].text.as_str()).filter(|word| !bound.contains(word)));
        start = end;
    }
    out
}

// Whether a name is a function or a law of the project: its declaration starts a line.
fn is_function(root: &Path, import: &Import) -> bool {
    let Some((owner, module)) = import.from.strip_prefix("Rattle.").and_then(|path| path.split_once('.')) else { return false };
    let path = root.join("crates").join(owner).join(module.replace('.', "/") + ".antt");
    let declares = |row: &str| !row.starts_with(' ') && row.split_once(" : ").is_some_and(|(left, _)| left.split(' ').next_back() == Some(&import.original));
    path.is_file() && read(&path).lines().any(declares)
}

// An operator is used by its parts.
fn is_used(import: &Import, words: &[Word], used: &HashSet<&str>) -> bool {
    if import.module {
        return (1..words.len()).any(|at| words[at].text == "." && words[at].joined && words[at - 1].text == import.name);
    }
    let mut parts = import.name.split('◌').filter(|part| !part.is_empty());
    used.contains(import.name.as_str()) || import.name.contains('◌') && parts.all(|part| used.contains(part))
}

fn check_text(root: &Path, path: &Path, text: &str, notation: Notation) -> Vec<String> {
    let (imports, rest) = take_imports(words(text, notation), notation);
    let functions = imports.iter().filter(|import| is_function(root, import)).map(|import| import.name.as_str()).collect();
    let used = uses(&rest, notation, &functions);
    let mut seen = HashSet::new();
    let mut found = Vec::new();
    for import in &imports {
        let mut say = |what: &str| found.push(format!("{}:{}: `{}` is imported {}", path.display(), import.line, import.name, what));
        if !seen.insert(import.name.as_str()) {
            say("twice");
        }
        if !import.public && !is_used(import, &rest, &used) {
            say("and not used");
        }
    }
    found
}

// ---- crates

// The crates that a file refers to, if they are among those named.
fn referred(text: &str, notation: Notation) -> HashSet<String> {
    let words = words(text, notation);
    let path = |at: usize| text_at(&words, Some(at + 1)) == ":" && text_at(&words, Some(at + 2)) == ":" && !is_field(&words, at, notation);
    match notation {
        Notation::Code => (0..words.len()).filter(|&at| path(at)).map(|at| words[at].text.clone()).collect(),
        Notation::Ghost => (0..words.len()).filter(|&at| words[at].text == "Rattle").map(|at| text_at(&words, Some(at + 2)).to_string()).collect(),
    }
}

// What is wrong with a file; the crates that it refers to are added to those of its crate.
fn check_file(root: &Path, path: &Path, crates: &mut HashSet<String>) -> Vec<String> {
    let text = read(path);
    if path.extension().is_some_and(|e| e == "antt") {
        let text = without_comments(&text, "--");
        crates.extend(referred(&text, Notation::Ghost));
        return check_text(root, path, &text, Notation::Ghost);
    }
    let (code, ghost) = code_and_ghost(&without_comments(&text, "//"));
    crates.extend(referred(&code, Notation::Code));
    crates.extend(referred(&ghost, Notation::Ghost));
    let mut found = check_text(root, path, &code, Notation::Code);
    found.extend(check_text(root, path, &ghost, Notation::Ghost));
    found
}

fn check_list(list: &Path, referred: &HashMap<String, HashSet<String>>) -> Vec<String> {
    let mut found = Vec::new();
    for (at, row) in read(list).lines().enumerate() {
        let Some((head, listed)) = without_comment(row, "#").split_once(':') else { continue };
        let name = head.split(' ').next().unwrap_or(head);
        let unused = listed.split_whitespace().filter(|&other| !referred.get(name).is_some_and(|crates| crates.contains(other)));
        found.extend(unused.map(|other| format!("{}:{}: no file of crate `{}` refers to crate `{}`", list.display(), at + 1, name, other)));
    }
    found
}

// ---- files

fn read(path: &Path) -> String {
    fs::read_to_string(path).unwrap_or_else(|error| {
        eprintln!("unused: {}: {}", path.display(), error);
        process::exit(2)
    })
}

// What a directory holds, in order; nothing if it is none.
fn entries(directory: &Path) -> Vec<PathBuf> {
    let mut paths: Vec<PathBuf> = fs::read_dir(directory).into_iter().flatten().flatten().map(|entry| entry.path()).collect();
    paths.sort();
    paths
}

fn files(directory: &Path) -> Vec<PathBuf> {
    let made = |path: &PathBuf| path.file_name().is_some_and(|name| name == "out");
    let inner = entries(directory).into_iter().filter(|path| !made(path)).flat_map(|path| if path.is_dir() { files(&path) } else { vec![path] });
    inner.filter(|path| path.extension().is_some_and(|e| e == "antt" || e == "rt")).collect()
}

fn main() {
    let Some(root) = env::args().nth(1).map(PathBuf::from) else {
        eprintln!("usage: unused DIRECTORY");
        process::exit(2)
    };
    let mut referred = HashMap::new();
    let mut found = Vec::new();
    for directory in entries(&root.join("crates")) {
        let mut crates = HashSet::new();
        for path in files(&directory) {
            found.extend(check_file(&root, &path, &mut crates));
        }
        referred.insert(directory.file_name().unwrap().to_string_lossy().into_owned(), crates);
    }
    found.extend(check_list(&root.join("crates.txt"), &referred));
    for what in &found {
        println!("{}", what);
    }
    if !found.is_empty() {
        process::exit(1)
    }
    println!("imports: all are used");
}
