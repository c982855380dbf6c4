//! The ranges of a book as they are written, upwards or downwards (request [3] of 02), and which of them random books have.

use crate::book::class_places;
use crate::cases::Case;
use crate::reading::Study;
use crate::tally::Tally;

/// A range as it stands in a book.
#[derive(Clone, Copy)]
pub struct Written {
    /// The place of the first of its two bytes.
    pub at: usize,
    first: u8,
    second: u8,
}

impl Written {
    pub fn is_downward(&self) -> bool {
        self.first > self.second
    }

    pub fn is_upward(&self) -> bool {
        self.first < self.second
    }

    /// Is the character from the first end to the second, or from the second to the first?
    pub fn has(&self, c: u8) -> bool {
        (self.first <= c && c <= self.second) || (self.second <= c && c <= self.first)
    }

    fn has_as_end(&self, c: u8) -> bool {
        c == self.first || c == self.second
    }

    fn has_inside(&self, c: u8) -> bool {
        self.has(c) && !self.has_as_end(c)
    }

    /// The two bytes as they stand.
    pub fn bytes(&self) -> (u8, u8) {
        (self.first, self.second)
    }

    /// The low end and the high end.
    pub fn ends(&self) -> (i32, i32) {
        (self.first.min(self.second) as i32, self.first.max(self.second) as i32)
    }

    /// How many characters are between this range and another; -1 or less if they overlap.
    pub fn gap(&self, other: &Written) -> i32 {
        let ((low, high), (other_low, other_high)) = (self.ends(), other.ends());
        low.max(other_low) - high.min(other_high) - 1
    }
}

/// The ranges of one class.
pub type Class = Vec<Written>;

/// The ranges of each class, if the counts can be followed; else no class.
pub fn written(bytes: &[u8]) -> Vec<Class> {
    let range = |at: usize| Written { at, first: bytes[at], second: bytes[at + 1] };
    class_places(bytes).into_iter().map(|places| places.step_by(2).map(range).collect()).collect()
}

/// Has some class two ranges, one downward and one upward, with this gap between them?
fn some_gap(classes: &[Class], good: impl Fn(i32) -> bool) -> bool {
    let beside = |class: &Class, r: &Written| class.iter().any(|s| s.is_upward() && good(r.gap(s)));
    classes.iter().any(|class| class.iter().any(|r| r.is_downward() && beside(class, r)))
}

/// Which downward ranges an accepted book has.
fn note_shapes(classes: &[Class], tally: &mut Tally) {
    let all = || classes.iter().flatten();
    let down = |good: fn(&Written) -> bool| all().any(|r| r.is_downward() && good(r));
    let a_class = |length: usize| classes.iter().any(|class| class.len() == length && class.iter().any(Written::is_downward));
    let met = [
        (all().next().is_some(), "books with ranges"),
        (down(|_| true), "books with a downward one"),
        (down(|_| true) && !all().any(Written::is_upward), "downward, none upward"),
        (down(|_| true) && all().any(Written::is_upward), "downward and upward"),
        (down(|r| r.ends() == (0, 255)), "255-0"),
        (down(|r| r.first < 255 && r.second == 0), "down to 0"),
        (down(|r| r.first == 255 && r.second > 0), "down from 255"),
        (down(|r| r.first == r.second + 1), "downward, two characters"),
        (down(|r| r.first > r.second + 1), "downward, more characters"),
        (all().any(|r| r.first == r.second), "one character"),
        (a_class(1), "downward, alone in a class"),
        (a_class(16), "downward, among 16"),
        (some_gap(classes, |gap| gap == 0), "touching an upward one"),
        (some_gap(classes, |gap| gap < 0), "overlapping an upward one"),
        (some_gap(classes, |gap| gap == 1), "one away from an upward one"),
    ];
    for (_, name) in met.iter().filter(|m| m.0) {
        tally.add("ranges", *name);
    }
}

/// Is the character in some class, and in all that have it only between the ends of downward ranges?
fn only_inside(classes: &[Class], c: u8) -> bool {
    let inside = |r: &Written| r.is_downward() && r.has_inside(c);
    let mut having = classes.iter().flatten().filter(|r| r.has(c)).peekable();
    having.peek().is_some() && having.all(inside)
}

/// Is the character next to a downward range, and in no class?
fn just_outside(classes: &[Class], c: u8) -> bool {
    let next_to = |r: &Written| r.is_downward() && [r.ends().0 - 1, r.ends().1 + 1].contains(&(c as i32));
    classes.iter().flatten().any(next_to) && !classes.iter().flatten().any(|r| r.has(c))
}

/// How a book with downward ranges reads its text. A text with a character that is only inside them can't be read without
/// them.
fn note_reading(classes: &[Class], study: &Study, tally: &mut Tally) {
    let name = match study.readings {
        0 => "none",
        1 => "one",
        _ => "several",
    };
    tally.add("ranges", format!("read {name}"));
    if study.text.iter().any(|&c| only_inside(classes, c)) {
        tally.add("ranges", format!("read {name}, inside"));
    }
    if study.text.iter().any(|&c| just_outside(classes, c)) {
        tally.add("ranges", format!("read {name}, just outside"));
    }
}

/// Which downward ranges a book has and how it reads its text, or how it is refused beside one.
pub fn note(case: &Case, study: &Study, tally: &mut Tally) {
    let classes = written(&case.book);
    if study.book.is_ok() {
        note_shapes(&classes, tally);
    }
    if !classes.iter().flatten().any(Written::is_downward) {
        return;
    }
    match &study.book {
        Err(refused) => tally.add("ranges", format!("refused {}", refused.number)),
        Ok(_) if study.text.len() > 200 => tally.add("ranges", "refused 10"),
        Ok(_) => note_reading(&classes, study, tally),
    }
}
