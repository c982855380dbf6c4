// A text of n characters, or of one less, for each book of the benchmark. From 25 characters on each has a parse.

// As many copies of a part as fit between a head and a tail, and behind them one character up to n.
fn repeated(head: &str, part: &str, filler: char, tail: &str, n: usize) -> String {
    let mut text = head.to_string();
    while !part.is_empty() && text.len() + part.len() + tail.len() < n {
        text += part;
    }
    while text.len() + tail.len() < n {
        text.push(filler);
    }
    text + tail
}

// Digits with operators between them, from a to z and round again.
fn operators(n: usize) -> String {
    let at = |k: usize| if k % 2 == 0 { '7' } else { (b'a' + (k / 2 % 26) as u8) as char };
    (0..(n - 1) / 2 * 2 + 1).map(at).collect()
}

// Words of three letters, and as many of four as make the length right.
fn words(n: usize) -> String {
    let long = (n + 1) % 4;
    let short = ((n + 1) / 4).saturating_sub(long);
    [vec!["cam"; short], vec!["dial"; long]].concat().join(" ")
}

fn palindrome(n: usize) -> String {
    (0..n).map(|k| if k.min(n - 1 - k) % 3 == 0 { 'b' } else { 'a' }).collect()
}

pub fn text(book: &str, n: usize) -> Vec<u8> {
    let text = match book {
        "arithmetic" => repeated("", "(12+3)*45-", '7', "7", n),
        "gears" => repeated("", "64:8*(60:12/2)/", '3', "3", n),
        "priorities" => operators(n),
        "lists" => repeated("[", "arbor,[pin,[]],", 'x', "x]", n),
        "loops" => repeated("", "", '7', "!", n),
        "statements" => repeated("{", "if a<2 then x=y+1 else {x=0;y=x*3};", 'z', "z=1}", n),
        "words" => words(n),
        "palindromes" => palindrome(n),
        _ => "a".repeat(n),
    };
    text.into_bytes()
}
