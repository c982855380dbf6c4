// Tries each fault of a list: in a copy of the repository the text is changed and the crate is checked. What the prover accepts is built and compared
// with the second parser.
//
//     faults LIST COPY      (run from the root of the repository; COPY is a folder for the copy, which is written anew)
//
// It prints a table, a line to a fault, and ends with 1 if one was neither refused nor caught.
use std::path::Path;
use std::process::{exit, Command, Output};
use std::{env, fs};

const CASES: &str = "20000";

struct Fault {
    name: String,
    file: String,
    old: String,
    new: String,
}

fn fail(what: &str) -> ! {
    eprintln!("faults: {what}");
    exit(2)
}

fn faults(list: &str) -> Vec<Fault> {
    let text = fs::read_to_string(list).unwrap_or_else(|_| fail("the list can't be read"));
    let lines = text.lines().filter(|line| !line.is_empty() && !line.starts_with('#'));
    lines.map(|line| fault(line).unwrap_or_else(|| fail(&format!("no fault: {line}")))).collect()
}

fn fault(line: &str) -> Option<Fault> {
    let mut parts = line.split(" | ");
    let (name, file) = parts.next()?.split_once(' ')?;
    let (old, new) = (parts.next()?, parts.next()?);
    Some(Fault { name: name.to_string(), file: format!("crates/{name}/{file}"), old: old.to_string(), new: new.to_string() })
}

fn run(folder: &str, program: &str, words: &[&str]) -> Output {
    let ran = Command::new(program).args(words).current_dir(folder).output();
    ran.unwrap_or_else(|e| fail(&format!("{program}: {e}")))
}

fn said(output: &Output) -> String {
    String::from_utf8_lossy(&output.stdout).to_string() + &String::from_utf8_lossy(&output.stderr)
}

// The first function that the prover could not prove.
fn refused(log: &str) -> Option<&str> {
    let mut functions = log.lines().filter_map(|line| line.strip_prefix("fn ")?.split_once(": "));
    functions.find(|(_, end)| end.starts_with("not proved") || end.starts_with("no proof")).map(|(name, _)| name)
}

// The library of the changed code against the second parser.
fn caught(copy: &str) -> Option<String> {
    if !run(&format!("{copy}/crates/meadowsink"), "rt", &["lib", "--cpu", "x86-64"]).status.success() {
        return Some("refused in a crate above".to_string());
    }
    let build = ["--edition", "2021", "-O", "-o", "second", "tests/second/main.rs", "-L", "crates/meadowsink/out", "-l", "static=meadowsink"];
    if !run(copy, "rustc", &build).status.success() {
        fail("the second parser can't be built");
    }
    let compared = run(copy, "./second", &[CASES]);
    (!compared.status.success()).then(|| "caught by the second parser".to_string())
}

fn attempt(copy: &str, fault: &Fault) -> Option<String> {
    let path = Path::new(copy).join(&fault.file);
    let source = fs::read_to_string(&path).unwrap_or_else(|_| fail(&fault.file));
    if source.matches(&fault.old).count() != 1 {
        fail(&format!("{}: not once: {}", fault.file, fault.old));
    }
    fs::write(&path, source.replace(&fault.old, &fault.new)).unwrap_or_else(|_| fail(&fault.file));
    let log = said(&run(&format!("{copy}/crates/{}", fault.name), "rt", &["check"]));
    let end = if log.contains("logic=not-proved") { Some(format!("refused: `{}`", refused(&log).unwrap_or("the crate"))) } else { caught(copy) };
    fs::write(&path, source).unwrap_or_else(|_| fail(&fault.file));
    end
}

fn main() {
    let words: Vec<String> = env::args().skip(1).collect();
    let [list, copy] = words.as_slice() else { fail("usage: faults LIST COPY") };
    let _ = fs::remove_dir_all(copy);
    run(".", "cp", &["-r", ".", copy]);
    let mut missed = 0;
    println!("| Crate | Was | Fault | End |\n|---|---|---|---|");
    for fault in faults(list) {
        let end = attempt(copy, &fault);
        missed += end.is_none() as i32;
        println!("| `{}` | `{}` | `{}` | {} |", fault.name, fault.old, fault.new, end.unwrap_or("MISSED".to_string()));
    }
    exit((missed > 0) as i32)
}
