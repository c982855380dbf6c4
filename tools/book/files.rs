//! Files by their names, where - is standard input or standard output.

use std::fs;
use std::io::{self, Read, Write};

pub fn input_name(path: &str) -> &str {
    if path == "-" {
        return "standard input";
    }
    path
}

pub fn read_all(path: &str) -> Result<Vec<u8>, String> {
    let mut bytes = Vec::new();
    let done = match path {
        "-" => io::stdin().read_to_end(&mut bytes).map(|_| ()),
        _ => fs::read(path).map(|all| bytes = all),
    };
    done.map(|_| bytes).map_err(|e| format!("{} can't be read: {e}", input_name(path)))
}

pub fn write_all(path: &str, bytes: &[u8]) -> Result<(), String> {
    match path {
        "-" => io::stdout().write_all(bytes).and_then(|_| io::stdout().flush()).map_err(|e| format!("standard output can't be written: {e}")),
        _ => fs::write(path, bytes).map_err(|e| format!("{path} can't be written: {e}")),
    }
}
