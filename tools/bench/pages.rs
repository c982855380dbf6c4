// How long a page takes, and the text under a number, beside checking the same listing.
use crate::{best, book};
use std::process;

extern "C" {
    fn meadowsink_check_listing(book: *const u8, n: usize, text: *const u8, t: usize, listing: *const u8, l: usize) -> u64;
    fn meadowsink_page(book: *const u8, n: usize, text: *const u8, t: usize, listing: *const u8, l: usize, page: *mut u8, p: usize) -> u64;
    fn meadowsink_text_under(book: *const u8, n: usize, text: *const u8, t: usize, listing: *const u8, l: usize, index: usize) -> u64;
}

const LINE_BYTES: usize = 73;
// Most numbers of a page.
const NUMBERS: usize = 4096;
const WRITTEN: u64 = 1;

struct Listed {
    name: &'static str,
    book: Vec<u8>,
    text: &'static [u8],
    listing: Vec<u8>,
}

impl Listed {
    fn new(name: &'static str, book: Vec<u8>, text: &'static [u8], numbers: &[u16]) -> Listed {
        Listed { name, book, text, listing: numbers.iter().flat_map(|n| n.to_le_bytes()).collect() }
    }

    fn check(&self) -> u64 {
        let (b, t, l) = (&self.book, self.text, &self.listing);
        unsafe { meadowsink_check_listing(b.as_ptr(), b.len(), t.as_ptr(), t.len(), l.as_ptr(), l.len()) }
    }

    fn page(&self, page: &mut [u8]) -> u64 {
        let (b, t, l) = (&self.book, self.text, &self.listing);
        unsafe { meadowsink_page(b.as_ptr(), b.len(), t.as_ptr(), t.len(), l.as_ptr(), l.len(), page.as_mut_ptr(), page.len()) }
    }

    fn text_under(&self, index: usize) -> u64 {
        let (b, t, l) = (&self.book, self.text, &self.listing);
        unsafe { meadowsink_text_under(b.as_ptr(), b.len(), t.as_ptr(), t.len(), l.as_ptr(), l.len(), index) }
    }
}

// A rule in itself as often as numbers allow, and a letter lowest: 4,095 below the root.
fn deep() -> Listed {
    let book = [1, 2, 1, 0, 0, 0, 1, 1, 1, 0, 0, 0, 64, b'a', b'a'];
    let numbers = [vec![258; NUMBERS - 2], vec![259, b'a' as u16]].concat();
    Listed::new("depth 4095", book.to_vec(), b"a", &numbers)
}

// Both texts end in one character, which is the last number.
fn measure(listed: &Listed) {
    let (count, length) = (listed.listing.len() / 2, listed.text.len() as u64);
    let mut page = vec![0; LINE_BYTES * count];
    let (mut checked, mut written, mut part) = (0, 0, 0);
    let check = best(|| checked = listed.check());
    let write = best(|| written = listed.page(&mut page));
    let under = best(|| part = listed.text_under(count - 1));
    if (checked, written, part) != (0, 4 * page.len() as u64 + WRITTEN, 256 * (length - 1) + length) {
        eprintln!("bench: {}: no page", listed.name);
        process::exit(1);
    }
    println!("{:<12} {count:>7} {:>10.1} {:>10.1} {:>12.1}", listed.name, check * 1e3, write * 1e3, under * 1e3);
}

pub fn pages(folder: &str) {
    println!("\npages: microseconds to check a listing, to write its page, and to find the text under its last number");
    println!("{:<12} {:>7} {:>10} {:>10} {:>12}", "listing", "numbers", "check", "page", "text under");
    let numbers = [259, 260, 258, 56, 47, 258, 52, 42, 258, 50];
    measure(&Listed::new("T, 8/4*2", book(folder, "T"), b"8/4*2", &numbers));
    measure(&deep());
}
