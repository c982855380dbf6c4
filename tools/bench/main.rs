// How long the library takes on the books of a folder, and how long an ordinary Rust program takes (rival.rs).
//
//     bench FOLDER
//
// Both get the same bytes and fill the same chart, which holds garbage before; the charts are compared. Times are the best of several runs.
mod flats;
mod pages;
mod reasons;
mod rival;
mod sheets;
mod texts;

use std::time::{Duration, Instant};
use std::{env, fs, process};

extern "C" {
    fn meadowsink_read(book: *const u8, book_length: usize, text: *const u8, text_length: usize, chart: *mut u8, chart_length: usize, listing: *mut u8, listing_length: usize) -> u64;
}

const LENGTHS: [usize; 5] = [10, 25, 50, 100, 200];
// The goal: this many times the rival's time, from GOAL_FROM characters on.
const GOAL: f64 = 1.2;
const GOAL_FROM: usize = 50;
const BENCHMARK: [&str; 10] = ["arithmetic", "gears", "priorities", "lists", "dense", "loops", "pairs", "statements", "words", "palindromes"];
const WORST: [(&str, usize); 6] = [("dense", 200), ("dense_unique", 200), ("ladder", 200), ("chain", 200), ("power", 0), ("power_loop", 0)];
const GARBAGE: u8 = 0xa5;

struct Buffers {
    chart: Vec<u8>,
    listing: Vec<u8>,
}

impl Buffers {
    fn for_text(book: &[u8], n: usize) -> Buffers {
        Buffers { chart: vec![GARBAGE; rival::tables(book).rows * rival::spans(n)], listing: vec![GARBAGE; 65536] }
    }
}

fn library(book: &[u8], text: &[u8], b: &mut Buffers) -> u64 {
    unsafe {
        meadowsink_read(book.as_ptr(), book.len(), text.as_ptr(), text.len(), b.chart.as_mut_ptr(), b.chart.len(), b.listing.as_mut_ptr(), b.listing.len())
    }
}

// The shortest of several runs, in milliseconds.
fn best(mut run: impl FnMut()) -> f64 {
    let (begun, mut shortest) = (Instant::now(), Duration::MAX);
    for round in 0.. {
        let start = Instant::now();
        run();
        shortest = shortest.min(start.elapsed());
        if round >= 2 && begun.elapsed() > Duration::from_millis(200) {
            break;
        }
    }
    shortest.as_secs_f64() * 1e3
}

fn book(folder: &str, name: &str) -> Vec<u8> {
    let path = format!("{folder}/{name}.book");
    fs::read(&path).unwrap_or_else(|e| {
        eprintln!("bench: {path}: {e}");
        process::exit(2)
    })
}

fn answer(number: u64) -> String {
    match number % 4 {
        0 => "none".to_string(),
        1 => format!("one {}", number / 4),
        2 => "several".to_string(),
        _ => format!("refused {}", number / 4),
    }
}

// One text by both; the two charts must be the same.
fn compare(name: &str, book: &[u8], n: usize) -> (f64, f64, u64) {
    let text = texts::text(name, n);
    let (mut ours, mut theirs) = (Buffers::for_text(book, text.len()), Buffers::for_text(book, text.len()));
    let mut number = 0;
    let mine = best(|| number = library(book, &text, &mut ours));
    let other = best(|| {
        rival::read(book, &text, &mut theirs.chart);
    });
    if ours.chart != theirs.chart {
        eprintln!("bench: {name}, {n} characters: the charts differ");
        process::exit(1);
    }
    (mine, other, number)
}

fn benchmark(folder: &str) -> usize {
    let mut over = 0;
    println!("{:<12} {:>5} {:>12} {:>12} {:>7}  answer", "book", "bytes", "library ms", "rival ms", "ratio");
    for name in BENCHMARK {
        let book = book(folder, name);
        let mut times = Vec::new();
        for n in LENGTHS {
            let (mine, other, number) = compare(name, &book, n);
            let mark = if n >= GOAL_FROM && mine > GOAL * other { " over" } else { "" };
            over += (!mark.is_empty()) as usize;
            println!("{name:<12} {n:>5} {mine:>12.3} {other:>12.3} {:>7.2}  {}{mark}", mine / other, answer(number));
            times.push(mine);
        }
        let growth = (times[4] / times[3]).log2();
        println!("{name:<12} grows like n^{growth:.2} from 100 to 200");
    }
    over
}

fn worst(folder: &str) {
    println!("\nworst cases of the library");
    for (name, n) in WORST {
        let book = book(folder, name);
        let text = texts::text(name, n);
        let mut buffers = Buffers::for_text(&book, n);
        let mut number = 0;
        let time = best(|| number = library(&book, &text, &mut buffers));
        println!("{name:<12} {n:>5} {time:>12.3} ms  {}", answer(number));
    }
}

// Checking the book, closing its ranks, the flat tables and the answer: what an empty text costs.
fn fixed_cost(folder: &str) {
    println!("\nfixed cost: an empty text");
    for name in ["pairs", "arithmetic", "ladder", "words", "dense", "limits", "groups", "names"] {
        let book = book(folder, name);
        let mut buffers = Buffers::for_text(&book, 0);
        let mut number = 0;
        let time = best(|| number = library(&book, &[], &mut buffers));
        println!("{name:<12} {:>3} rules {:>9.1} microseconds  {}", book[1], time * 1e3, answer(number));
    }
}

fn main() {
    let Some(folder) = env::args().nth(1) else {
        eprintln!("usage: bench FOLDER");
        process::exit(2)
    };
    let over = benchmark(&folder);
    worst(&folder);
    fixed_cost(&folder);
    pages::pages(&folder);
    sheets::sheets(&folder);
    flats::flats(&folder);
    reasons::reasons();
    println!("\n{over} of {} above {GOAL} times the rival", BENCHMARK.len() * 3);
}
