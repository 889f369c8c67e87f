//! Makes the calls that the lines of its input say, as tests/c/calls.c of the project does, and prints what comes of each.
//!
//! Each call is made over slices, by the functions of `calls`, with guards around what is lent. If the types of the crate can say it, it is
//! made by them too. What comes of that is laid out as the arrays of C are, and a difference ends the program with 1. At its end it says on
//! standard error how many calls of each function the types made.

mod by_slices;
mod by_types;
mod laid_out;

use std::collections::BTreeMap;
use std::io::{self, BufRead, Write};
use std::process::exit;

/// What a result array holds before a call, byte by byte.
const FRESH: u8 = 0xA5;
const FRESH_WORD: u64 = u64::from_le_bytes([FRESH; 8]);

/// An array of a call: bytes, or numbers of 64 bits.
#[derive(Clone, Copy, PartialEq)]
enum Element {
    Nothing,
    Byte,
    Word,
}

/// What a function is lent: a table, or what it reads instead of one; what it reads besides; its result.
struct Shape {
    name: &'static str,
    table: bool,
    given: Element,
    result: Element,
}

const fn shape(name: &'static str, table: bool, given: Element, result: Element) -> Shape {
    Shape { name, table, given, result }
}

use Element::{Byte, Nothing, Word};
const SHAPES: &[Shape] = &[
    shape("version", false, Nothing, Nothing),
    shape("table_bytes", false, Nothing, Nothing),
    shape("set_up", true, Nothing, Nothing),
    shape("set_up_at", true, Nothing, Nothing),
    shape("receive", true, Byte, Nothing),
    shape("receive_stamp", true, Byte, Word),
    shape("clock", true, Nothing, Word),
    shape("site", true, Nothing, Word),
    shape("next", true, Nothing, Word),
    shape("look_up", true, Nothing, Word),
    shape("replay", false, Byte, Word),
    shape("replay_at", false, Byte, Word),
    shape("replay_coarse", false, Byte, Word),
    shape("listing", true, Nothing, Byte),
    shape("header", true, Nothing, Byte),
    shape("line", true, Nothing, Byte),
    shape("feed_block", true, Byte, Word),
    shape("check", true, Byte, Word),
    shape("merge", true, Byte, Byte),
    shape("encode_position", false, Nothing, Word),
    shape("pair", false, Nothing, Word),
    shape("single", false, Nothing, Word),
    shape("encode_position_coarse", false, Nothing, Word),
    shape("pair_coarse", false, Nothing, Word),
    shape("single_coarse", false, Nothing, Word),
    shape("degrees", false, Nothing, Word),
    shape("from_degrees", false, Nothing, Word),
    shape("decode", false, Byte, Word),
    shape("key", false, Byte, Word),
    shape("me", false, Nothing, Word),
    shape("encode", false, Word, Byte),
    shape("nearest", false, Nothing, Word), // of no function of C: Degrees::nearest
];

/// The call of a line.
struct Call {
    shape: &'static Shape,
    table: Vec<u8>,
    given: Vec<u8>,
    given_words: Vec<u64>,
    length: usize,
    order: usize,
    written: usize,
    numbers: Vec<u64>,
}

/// What comes of it: the answer, and each array that was lent to be written.
#[derive(Debug, Default, PartialEq)]
struct Outcome {
    answer: u64,
    bytes: Option<Vec<u8>>,
    words: Option<Vec<u64>>,
    written: Option<Vec<u64>>,
    table: Option<Vec<u8>>,
}

/// Whether a function says in an array how many bytes of text it wrote.
fn has_written(name: &str) -> bool {
    name == "listing" || name == "merge"
}

fn fail(why: &str) -> ! {
    eprintln!("calls: {}", why);
    exit(1)
}

fn bytes_of(word: &str) -> Vec<u8> {
    let digits = if word == "-" { "" } else { word };
    let pairs = digits.as_bytes().chunks(2).map(|pair| std::str::from_utf8(pair).unwrap_or(""));
    pairs.map(|pair| u8::from_str_radix(pair, 16).unwrap_or_else(|_| fail("no hex"))).collect()
}

fn words_of(word: &str) -> Vec<u64> {
    bytes_of(word).chunks_exact(8).map(|part| part.iter().fold(0, |whole, byte| whole << 8 | u64::from(*byte))).collect()
}

impl Call {
    fn of(line: &str) -> Call {
        let mut words = line.split_whitespace();
        let name = words.next().unwrap_or("");
        let shape = SHAPES.iter().find(|one| one.name == name).unwrap_or_else(|| fail(&format!("no function {}", name)));
        let mut next = || words.next().unwrap_or_else(|| fail("a word is missing"));
        let table = if shape.table { bytes_of(next()) } else { Vec::new() };
        let (mut given, mut given_words) = (Vec::new(), Vec::new());
        match shape.given {
            Byte => given = bytes_of(next()),
            Word => given_words = words_of(next()),
            Nothing => {}
        }
        let mut length = |asked: bool| if asked { next().parse().unwrap_or_else(|_| fail("no length")) } else { 0 };
        let lengths = length(shape.result != Nothing);
        let (order, written) = (length(name == "listing"), length(has_written(name)));
        let numbers = words.map(|word| word.parse().unwrap_or_else(|_| fail("no number"))).collect();
        Call { shape, table, given, given_words, length: lengths, order, written, numbers }
    }

    /// The result array before the call, of numbers. The state of stamps is read too: its entries are the last two numbers.
    fn words_before(&self) -> Vec<u64> {
        let mut words = vec![FRESH_WORD; self.length];
        if self.shape.name == "receive_stamp" {
            words.iter_mut().zip(&self.numbers[1..]).for_each(|(word, before)| *word = *before);
        }
        words
    }
}

fn hex_of(bytes: &[u8]) -> String {
    if bytes.is_empty() {
        return "-".to_string();
    }
    let digits = b"0123456789abcdef";
    bytes.iter().flat_map(|byte| [char::from(digits[usize::from(byte >> 4)]), char::from(digits[usize::from(byte & 15)])]).collect()
}

impl Outcome {
    fn line(&self) -> String {
        let hex_of_words = |words: &Vec<u64>| hex_of(&words.iter().flat_map(|word| word.to_be_bytes()).collect::<Vec<_>>());
        let mut said = vec!["=".to_string(), self.answer.to_string()];
        said.extend(self.bytes.as_deref().map(hex_of));
        said.extend(self.words.as_ref().map(hex_of_words));
        said.extend(self.written.as_ref().map(hex_of_words));
        said.extend(self.table.as_deref().map(hex_of));
        said.join(" ")
    }
}

fn main() {
    let (input, mut output) = (io::stdin(), io::BufWriter::new(io::stdout()));
    let mut by_types = BTreeMap::new();
    for line in input.lock().lines() {
        let line = line.unwrap_or_else(|why| fail(&why.to_string()));
        let call = Call::of(&line);
        let outcome = if call.shape.name == "nearest" { by_types::nearest(&call) } else { by_slices::made(&call) };
        if let Some(other) = by_types::made(&call) {
            *by_types.entry(call.shape.name).or_insert(0u64) += 1;
            if other != outcome {
                fail(&format!("by slices and by types:\n{}\n{}\n{}", &line[..line.len().min(300)], outcome.line(), other.line()));
            }
        }
        writeln!(output, "{}", outcome.line()).unwrap_or_else(|why| fail(&why.to_string()));
    }
    output.flush().unwrap_or_else(|why| fail(&why.to_string()));
    for (name, count) in by_types {
        eprintln!("{} {}", name, count);
    }
}
