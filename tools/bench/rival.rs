// What the library is measured against: an ordinary Rust program, unproved, that fills the same chart. Columns rise and starts fall; for each row and
// column it keeps the starts with one list of trees or more, and those with two or more, as bit masks, so that one step adds all splits at a place.
// It trusts its book.

// Bits for the places 0 to 200 of a text.
type Mask = [u64; 4];
const NOTHING: Mask = [0; 4];

// A row is a rule with a count of its arguments.
pub struct Tables {
    pub rows: usize,
    first_row: Vec<usize>,
    counts: Vec<usize>,
    // for each row the characters that may come next, and the rows that take each rule
    chars: Vec<[u64; 4]>,
    users: Vec<Vec<usize>>,
    starts: Vec<usize>,
}

struct Rule {
    result: u8,
    arguments: Vec<u8>,
}

// What the ranks forbid: for each rule, bits of rules.
struct Ranks {
    higher: Vec<u64>,
    at_first: Vec<u64>,
    at_last: Vec<u64>,
}

// Kinds from 5 on say of a group what the kinds 3 below them say of two rules.
const FIRST_GROUP: u8 = 5;
const GROUP_STEP: u8 = 3;

impl Ranks {
    fn declare(&mut self, kind: u8, rule: usize, others: u64) {
        match kind {
            1 => self.higher[rule] |= others,
            2 => self.at_last[rule] |= others,
            3 => self.at_first[rule] |= others,
            _ => {
                self.at_first[rule] |= others;
                self.at_last[rule] |= others;
            }
        }
    }
}

fn ranks(declarations: &[u8], rules: usize) -> Ranks {
    let mut ranks = Ranks { higher: vec![0; rules], at_first: vec![0; rules], at_last: vec![0; rules] };
    for d in declarations.chunks(3) {
        let (kind, a, b) = (d[0], d[1] as usize, d[2] as usize);
        if kind >= FIRST_GROUP {
            let group = (a..=b).fold(0, |bits, rule| bits | 1 << rule);
            (a..=b).for_each(|rule| ranks.declare(kind - GROUP_STEP, rule, group));
            continue;
        }
        ranks.declare(kind, a, 1 << b);
        if kind != 1 {
            ranks.declare(kind, b, 1 << a);
        }
    }
    for middle in 0..rules {
        for a in 0..rules {
            if ranks.higher[a] >> middle & 1 == 1 {
                ranks.higher[a] |= ranks.higher[middle];
            }
        }
    }
    ranks
}

fn forbidden(ranks: &Ranks, p: usize, i: usize, count: usize) -> u64 {
    let mut bits = ranks.higher[p];
    if count >= 2 && i == 0 {
        bits |= ranks.at_first[p];
    }
    if count >= 2 && i + 1 == count {
        bits |= ranks.at_last[p];
    }
    bits
}

fn rules(book: &[u8], at: &mut usize) -> Vec<Rule> {
    let read = |p: usize| {
        let count = book[6 + p] as usize;
        let rule = Rule { result: book[*at], arguments: book[*at + 1..*at + 1 + count].to_vec() };
        *at += 1 + count;
        rule
    };
    (0..book[1] as usize).map(read).collect()
}

fn classes(book: &[u8], at: &mut usize) -> Vec<[u64; 4]> {
    let mut sets = Vec::new();
    for k in 0..book[2] as usize {
        let mut set = [0u64; 4];
        for _ in 0..book[6 + book[1] as usize + k] {
            for c in book[*at]..=book[*at + 1] {
                set[c as usize / 64] |= 1 << (c % 64);
            }
            *at += 2;
        }
        sets.push(set);
    }
    sets
}

pub fn tables(book: &[u8]) -> Tables {
    let mut at = 6 + book[1] as usize + book[2] as usize;
    let rules = rules(book, &mut at);
    let classes = classes(book, &mut at);
    let ranks = ranks(&book[at..], rules.len());
    let mut t = Tables { rows: 0, first_row: vec![], counts: vec![], chars: vec![], users: vec![vec![]; rules.len()], starts: vec![] };
    for (p, rule) in rules.iter().enumerate() {
        t.first_row.push(t.rows);
        t.counts.push(rule.arguments.len());
        for (i, x) in rule.arguments.iter().enumerate() {
            t.chars.push(if *x >= 64 { classes[*x as usize - 64] } else { [0; 4] });
            let bar = forbidden(&ranks, p, i, rule.arguments.len());
            for (q, other) in rules.iter().enumerate() {
                if other.result == *x && bar >> q & 1 == 0 {
                    t.users[q].push(t.rows + i);
                }
            }
        }
        t.chars.push([0; 4]);
        t.rows += rule.arguments.len() + 1;
        if rule.result == book[4] {
            t.starts.push(p);
        }
    }
    t
}

// ---- one span

// How many lists of trees there are for each row, up to 2, and how many trees may come next there.
struct Span {
    cells: Vec<u8>,
    args: Vec<u8>,
}

fn cap(n: u8) -> u8 {
    n.min(2)
}

// All rules until nothing changes; `cell` says what a row gives for the one after it.
fn settle(t: &Tables, span: &mut Span, cell: impl Fn(&Span, usize) -> u8) {
    let mut changed = true;
    while changed {
        changed = false;
        for q in 0..t.counts.len() {
            let (base, whole) = (t.first_row[q], t.first_row[q] + t.counts[q]);
            let before = span.cells[whole];
            for row in base..whole {
                span.cells[row + 1] = cell(span, row);
            }
            changed |= pass_on(t, span, q, before);
        }
    }
}

// The trees of rule q rose from `before`: so do the arguments of its users.
fn pass_on(t: &Tables, span: &mut Span, q: usize, before: u8) -> bool {
    let now = span.cells[t.first_row[q] + t.counts[q]];
    if now > before {
        for &row in &t.users[q] {
            span.args[row] = cap(span.args[row] + now - before);
        }
    }
    now > before
}

// The lists of the empty span: one without arguments, else the product of what the arguments have.
fn empty_span(t: &Tables) -> Span {
    let mut span = Span { cells: vec![0; t.rows], args: vec![0; t.rows] };
    for q in 0..t.counts.len() {
        span.cells[t.first_row[q]] = 1;
        if t.counts[q] == 0 {
            pass_on(t, &mut span, q, 0);
        }
    }
    settle(t, &mut span, |span, row| cap(span.cells[row] * span.args[row]));
    span
}

// ---- columns

fn bit(mask: &Mask, i: usize) -> u8 {
    (mask[i / 64] >> (i % 64) & 1) as u8
}

// The masks of one column: a pair to a row.
struct Column {
    one: Vec<Mask>,
    two: Vec<Mask>,
}

impl Column {
    fn new(rows: usize) -> Column {
        Column { one: vec![NOTHING; rows + 1], two: vec![NOTHING; rows + 1] }
    }

    fn get(&self, row: usize, i: usize) -> u8 {
        bit(&self.one[row], i) + bit(&self.two[row], i)
    }

    fn put(&mut self, row: usize, i: usize, value: u8) {
        self.one[row][i / 64] |= ((value > 0) as u64) << (i % 64);
        self.two[row][i / 64] |= ((value > 1) as u64) << (i % 64);
    }

    // For every start before m: the lists of a row from there to m, each with `argument` trees behind it.
    fn add(&mut self, row: usize, lists: &Column, m: usize, argument: u8) {
        for word in 0..=m / 64 {
            let keep = if word == m / 64 { (1u64 << (m % 64)) - 1 } else { u64::MAX };
            let one = lists.one[row][word] & keep;
            let two = if argument > 1 { one } else { lists.two[row][word] & keep };
            let before = self.one[row + 1][word];
            self.two[row + 1][word] |= two | (before & one);
            self.one[row + 1][word] = before | one;
        }
    }
}

// The characters of one place as arguments.
fn bare(t: &Tables, character: u8, args: &mut [u8]) -> bool {
    let mut any = false;
    for (arg, set) in args.iter_mut().zip(&t.chars) {
        *arg = (set[character as usize / 64] >> (character % 64) & 1) as u8;
        any |= *arg > 0;
    }
    any
}

fn fill_column(t: &Tables, text: &[u8], empty: &Span, done: &[Column], j: usize) -> Column {
    let mut column = Column::new(t.rows);
    let mut sums = Column::new(t.rows);
    let mut inner = vec![0; t.rows + 1];
    let mut span = Span { cells: vec![0; t.rows], args: vec![0; t.rows] };
    for i in (0..j).rev() {
        span.cells.fill(0);
        span.args.fill(0);
        let mut any = i + 1 == j && bare(t, text[i], &mut span.args);
        for row in 0..t.rows {
            inner[row] = sums.get(row, i);
            any |= inner[row] > 0;
        }
        if !any {
            continue;
        }
        // the splits inside, the split at the start and the split at the end
        settle(t, &mut span, |span, row| cap(inner[row + 1] + empty.cells[row] * span.args[row] + span.cells[row] * empty.args[row]));
        for row in 0..t.rows {
            column.put(row, i, span.cells[row]);
            if span.args[row] > 0 {
                sums.add(row, &done[i], i, span.args[row]);
            }
        }
    }
    for row in 0..t.rows {
        column.put(row, j, empty.cells[row]);
    }
    column
}

pub fn spans(n: usize) -> usize {
    (n + 1) * (n + 2) / 2
}

// Fills the chart and says how many parses there are, up to 2.
pub fn read(book: &[u8], text: &[u8], chart: &mut [u8]) -> u8 {
    let t = tables(book);
    let n = text.len();
    let empty = empty_span(&t);
    let mut columns: Vec<Column> = Vec::new();
    for j in 0..=n {
        let column = fill_column(&t, text, &empty, &columns, j);
        columns.push(column);
    }
    let mut at = 0;
    for row in 0..t.rows {
        for i in 0..=n {
            for column in &columns[i..] {
                chart[at] = column.get(row, i);
                at += 1;
            }
        }
    }
    let whole = &columns[n];
    cap(t.starts.iter().map(|p| whole.get(t.first_row[*p] + t.counts[*p], 0)).fold(0, |a, b| cap(a + b)))
}
