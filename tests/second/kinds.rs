//! Every kind of answer that a long run must meet.

/// Kinds of one call.
type Kinds = (&'static str, Vec<String>);

/// Refusals by these numbers.
fn refusals(numbers: &[u64]) -> Vec<String> {
    numbers.iter().map(|n| format!("refused {n}")).collect()
}

/// Other kinds, by their names.
fn words(list: &[&str]) -> Vec<String> {
    list.iter().map(|w| w.to_string()).collect()
}

/// Kinds of answers, books, texts and trees.
fn of_calls() -> Vec<Kinds> {
    vec![
        ("read", words(&["none", "one", "several"])),
        ("read", refusals(&[1, 2, 3, 4, 5, 7, 8, 9, 10, 20, 22])),
        ("text", words(&["0 bytes", "1 to 12 bytes", "13 to 40 bytes", "41 to 199 bytes", "200 bytes", "over 200 bytes"])),
        ("accepted book", words(&["32 sorts", "64 rules", "64 classes", "255 declarations", "8 arguments", "16 ranges"])),
        ("trees", words(&["none", "one", "one, looped", "none, looped", "several", "at least 0", "at least 1"])),
        ("check", words(&["accepted"])),
        ("check", refusals(&[1, 2, 3, 4, 5, 7, 8, 9])),
        ("conflict", words(&["no", "yes"])),
        ("conflict", refusals(&[1, 2, 3, 4, 5, 7, 8, 9])),
        ("flat", words(&["written"])),
        ("flat", refusals(&[1, 2, 3, 4, 5, 7, 8, 9, 21])),
        ("check_listing", words(&["right", "wrong"])),
        ("check_listing", refusals(&[1, 2, 3, 4, 5, 7, 8, 9, 10, 11])),
        ("page", words(&["written"])),
        ("page", refusals(&[1, 2, 3, 4, 5, 7, 8, 9, 10, 11, 23, 24])),
        ("page with", words(&["an empty text in the middle", "a text over 54 bytes", "a byte as a full stop", "a depth of 100 or more"])),
        ("text_under", words(&["some bytes", "empty", "beyond the listing"])),
        ("text_under", refusals(&[1, 2, 3, 4, 5, 7, 8, 9, 10, 11, 23])),
    ]
}

/// Kinds of groups and ranges.
fn of_books() -> Vec<Kinds> {
    vec![
        ("groups", words(&["kind 5", "kind 6", "kind 7", "one rule", "all rules", "all of 64 rules", "255 groups"])),
        ("groups", words(&["overlapping", "kind 1 on a pair of it", "kinds 2 to 4 on a pair of it", "clashes by groups alone"])),
        ("groups", words(&["refused, kind 5 falling", "refused, kind 6 falling", "refused, kind 7 falling"])),
        ("groups", words(&["refused, kind 0", "refused, kind 8", "refused, first is no rule", "refused, second is no rule"])),
        ("spelled out", words(&["clash yes", "clash no", "flat", "read none", "read one", "read several", "past 255"])),
        ("spelled out", words(&["a right listing"])),
        ("ranges", words(&["books with a downward one", "downward, none upward", "downward and upward"])),
        ("ranges", words(&["255-0", "down to 0", "down from 255", "downward, alone in a class", "downward, among 16"])),
        ("ranges", words(&["one character", "downward, two characters", "downward, more characters"])),
        ("ranges", words(&["touching an upward one", "overlapping an upward one", "one away from an upward one"])),
        ("ranges", words(&["read none", "read one", "read several"])),
        ("ranges", words(&["read one, inside", "read several, inside", "read none, just outside"])),
        ("ranges", refusals(&[5, 7, 8, 9, 10])),
        ("turned", words(&["every range", "some ranges", "none downward any more", "none upward any more"])),
        ("turned", words(&["clash yes", "clash no", "flat", "read none", "read one", "read several", "a right listing"])),
        ("turned", words(&["read refused 20", "read refused 22"])),
        ("turned", refusals(&[5, 7, 8, 9])),
    ]
}

/// Kinds of equal rules, of rules that are nearly equal, and of readings that part.
fn of_equal_rules() -> Vec<Kinds> {
    vec![
        ("equal rules", words(&["by bytes", "by sets alone", "by sets, bytes behind", "two arguments renamed"])),
        ("equal rules", words(&["the last of 64 rules", "the last of 64 classes"])),
        ("equal rules", words(&["beside a circle", "a text over 200 bytes", "refused 7 before"])),
        ("equal sets", words(&["no character", "all characters", "same ranges", "turned round", "another order"])),
        ("equal sets", words(&["other ranges", "overlapping ranges", "in an accepted book"])),
        ("nearly equal", words(&["one character apart", "0 apart", "255 apart", "an edge of 64 apart"])),
        ("nearly equal", words(&["the only one apart", "the lowest apart", "the highest apart", "one between apart"])),
        ("nearly equal", words(&["read none", "read one", "read several"])),
        ("nearly equal", words(&["a sort for a class", "another order", "another result", "an argument more"])),
        ("readings part", words(&["pairs looked at", "at the root", "below the root", "one character apart"])),
    ]
}

/// Kinds of sheets, their lines, and a walker's steps.
fn of_sheets() -> Vec<Kinds> {
    vec![
        ("sheet", words(&["accepted", "line none", "line one", "line several", "line refused 10", "line refused 20"])),
        ("sheet", refusals(&[1, 2, 3, 4, 5, 7, 8, 9, 25, 26])),
        ("sheet with", words(&["no line", "over 255 lines", "a last feed", "no last feed", "an empty line", "a feed in a class"])),
        ("sheet with", words(&["a chart for some lines", "read behind refused", "refused behind read"])),
        ("sheet with", words(&["shorter behind longer", "longer behind shorter", "an exact summary", "a longer summary"])),
        ("sheet_step", words(&["a line, byte 0", "a line, byte 1", "a line, byte 2", "a line, byte 3", "no line left"])),
        ("sheet_step", words(&["a line's start", "inside a line", "on a feed", "an empty line", "at the end", "past the end"])),
        ("sheet_step", refusals(&[1, 2, 3, 4, 5, 7, 8, 9, 25])),
    ]
}

/// Kinds of numerals, and of bytes tested against a class.
fn of_constants() -> Vec<Kinds> {
    vec![
        ("numerals", words(&["flat, one digit", "flat, two digits", "flat, three digits", "flat, 0"])),
        ("numerals", words(&["page, one digit", "page, two digits", "page, three digits", "page, 0"])),
        // Few random trees are deep enough.
        ("fixed numerals", words(&["page, four digits"])),
        ("byte of a class", words(&["passed", "kept out", "passed, downward ones alone"])),
        ("byte of a class", words(&["classes", "no range", "one range", "several ranges", "a downward range"])),
        ("byte of a class", words(&["overlapping ranges"])),
    ]
}

/// Kinds of flat texts, of places in them, and of readings by them.
fn of_flat_texts() -> Vec<Kinds> {
    vec![
        ("check_flat", words(&["accepted"])),
        ("check_flat", refusals(&[27, 28])),
        ("27 at", words(&["cut short", "a 65th line", "a ninth argument", "a first digit", "a later digit", "a backslash"])),
        ("27 at", words(&["a dash", "the end behind a numeral", "a bracket", "a feed", "a space", "another byte"])),
        ("27 at", words(&["places found with tails"])),
        ("28 at", words(&["the next line", "a later line"])),
        ("form with", words(&["one line", "64 lines", "no argument", "8 arguments", "an empty class", "128 ranges"])),
        ("form with", words(&["all characters", "character 0", "character 255", "number 321", "damage that leaves it one"])),
        ("read_flat", words(&["none", "one", "several"])),
        ("read_flat", refusals(&[27, 28, 10, 20, 22])),
        ("read_flat with", words(&["endlessly many readings", "one reading beside a loop", "no line at the root"])),
        ("read_flat with", words(&["every line at the root", "fewer entries than lines", "bytes behind the entries"])),
        ("read_flat with", words(&["an empty class", "no argument", "equal lines", "64 lines", "an empty text"])),
        ("flat order", words(&["27, with 28, 10 and 20", "28 twice, with 10 and 20", "28 by text and root"])),
        ("flat order", words(&["28 by root, with 10 and 20", "28 by root", "10, with 20"])),
        ("flat of a book", words(&["none", "one", "several"])),
        ("flat of a book", refusals(&[10, 20, 22])),
    ]
}

/// Kinds of reasons, of chains, and of what is near a reason and is none.
fn of_reasons() -> Vec<Kinds> {
    vec![
        ("reason", words(&["no", "line 1", "line 2", "line 3", "a bad book and no such rule"])),
        ("reason", refusals(&[1, 2, 3, 4, 5, 7, 8, 9])),
        ("reason, chain", words(&["of 1", "of 2", "of 3", "of 4 to 9", "of 10 to 62", "of 63", "several shortest"])),
        ("reason, chain", words(&["a longer chain too", "a longer chain's link first", "a dead end first"])),
        ("reason, chain", words(&["line 2 too", "line 3 too", "the only argument", "an argument in the middle"])),
        ("reason, chain", words(&["no room", "a byte too little room", "too little room", "just room enough", "more room"])),
        ("reason, covered", words(&["a group, one of two behind", "of two, a group behind", "another line's kind before"])),
        ("reason, covered", words(&["a group, p below q", "a group, p above q", "of two, turned", "a rule with itself"])),
        ("reason, covered", words(&["not together", "a high declaration"])),
        ("reason, none", words(&["barred, but a class", "barred, but another sort", "left at the first", "right at the last"])),
        ("reason, none", words(&["right in the middle", "left of the only argument", "q above p"])),
    ]
}

/// Kinds of comparisons of two readings, of readings that are easily compared wrongly, of refusals that are easily taken in another
/// order, and of laws.
fn of_comparisons() -> Vec<Kinds> {
    vec![
        ("compare", words(&["comparisons", "below", "above", "neither", "equal, the same tree", "equal, different trees"])),
        ("compare", refusals(&[1, 2, 3, 4, 5, 7, 8, 9, 10])),
        ("compare", words(&["refused 11, first", "refused 11, second", "refused 29, first", "refused 29, second"])),
        ("compare by", words(&["what is left", "the highest", "steps"])),
        ("compare with", words(&["a chain of ranks needed", "the printed formula differs", "a higher rule used as often"])),
        ("compare with", words(&["other kinds between them", "neither, as many rules", "neither, not as many rules"])),
        ("compare with", words(&["more rules in the lower one", "nothing more in the lower one", "two rules or more covered"])),
        ("compare with", words(&["the lowest index differs", "the highest index differs", "the last of 64 rules"])),
        ("compare with", words(&["256 or more of a rule", "256 apart", "a tree with a clash"])),
        ("compare order", words(&["a bad book, with 10 and 11", "10, with 11", "11 twice", "11 second, with 29 first"])),
        ("compare order", words(&["11 first, with 29 second", "11, 8,194 bytes", "29 twice", "29, no number"])),
        ("compare order", words(&["29, 8,192 bytes"])),
        ("compare laws", words(&["below, then below", "above, then above", "equal, then equal"])),
        ("compare laws", words(&["equal, then another", "another, then equal"])),
    ]
}

/// All of them, each with its call.
pub fn wanted() -> Vec<(&'static str, String)> {
    let lists =
        [of_calls(), of_books(), of_equal_rules(), of_sheets(), of_constants(), of_flat_texts(), of_reasons(), of_comparisons()];
    lists.into_iter().flatten().flat_map(|(call, kinds)| kinds.into_iter().map(move |k| (call, k))).collect()
}
