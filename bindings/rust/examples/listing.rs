//! Prints the listing of a capture, by a table of 256 places without a site: listing CAPTURE [all]. It has the tracks whose position is
//! known, and with the word all every track. `examples/c/capture.c` of the project prints the same.

use addercoil::{blocks, listing_bytes, table_bytes, Shown, Table};
use std::io::{stdout, Write};
use std::process::exit;
use std::{env, fs};

const PLACES: usize = 256;

/// Ends with a status, and says why.
fn fail(status: i32, why: &str) -> ! {
    eprintln!("{}", why);
    exit(status)
}

fn main() {
    let words: Vec<String> = env::args().skip(1).collect();
    let (path, shown) = match words.as_slice() {
        [path] => (path, Shown::Positioned),
        [path, all] if all == "all" => (path, Shown::All),
        _ => fail(2, "usage: listing CAPTURE [all]"),
    };
    let capture = fs::read(path).unwrap_or_else(|why| fail(1, &format!("listing: {}: {}", path, why)));
    let mut bytes = [0; table_bytes(PLACES)];
    let mut table = Table::set_up(&mut bytes).unwrap_or_else(|why| fail(1, &why.to_string()));
    let mut bad = 0;
    for block in blocks(&capture) {
        table.feed(block, &mut bad);
    }
    let (mut order, mut text) = ([0; PLACES], [0; listing_bytes(PLACES)]);
    let listing = table.listing(bad, shown, &mut order, &mut text).unwrap_or_else(|why| fail(1, &why.to_string()));
    if stdout().write_all(listing.as_bytes()).and_then(|()| stdout().flush()).is_err() {
        fail(1, "listing: the output cannot be written");
    }
}
