//! A call by the functions of `calls`, with guards around every slice.

use super::{fail, has_written, Call, Element, Outcome, FRESH};
use addercoil::{calls, Refusal};

/// A slice between guards.
struct Lent<T> {
    memory: Vec<T>,
    guard: T,
    size: usize,
}

const GUARDS: usize = 8;

impl<T: Copy + PartialEq> Lent<T> {
    fn new(content: &[T], guard: T) -> Lent<T> {
        let guards = [guard; GUARDS];
        Lent { memory: [&guards[..], content, &guards[..]].concat(), guard, size: content.len() }
    }

    fn slice(&self) -> &[T] {
        &self.memory[GUARDS..GUARDS + self.size]
    }

    fn slice_mut(&mut self) -> &mut [T] {
        &mut self.memory[GUARDS..GUARDS + self.size]
    }

    /// What it holds after the call, if nothing beside it was written.
    fn now(&self) -> Vec<T> {
        let (before, rest) = self.memory.split_at(GUARDS);
        let (content, behind) = rest.split_at(self.size);
        if before.iter().chain(behind).any(|one| *one != self.guard) {
            fail("what lies beside a lent array was written");
        }
        content.to_vec()
    }
}

/// The numbers of an answer.
pub(super) fn number_of(answer: Result<(), Refusal>) -> u64 {
    answer.map_or_else(|refusal| u64::from(refusal.number()), |()| 0)
}

/// Whether a call writes its table.
fn writes_table(name: &str) -> bool {
    matches!(name, "set_up" | "set_up_at" | "receive" | "receive_stamp" | "feed_block")
}

/// The call, and what comes of it.
pub(super) fn made(call: &Call) -> Outcome {
    match call.shape.name {
        "version" => return Outcome { answer: u64::from(calls::version()), ..Outcome::default() },
        "table_bytes" => return Outcome { answer: calls::table_bytes(call.numbers[0]), ..Outcome::default() },
        "degrees" => return degrees(call),
        _ => {}
    }
    let (mut table, given) = (Lent::new(&call.table, 0x5C), Lent::new(&call.given, 0x5D));
    let mut bytes = Lent::new(&vec![FRESH; call.length], 0x5E);
    let mut words = Lent::new(&call.words_before(), 0x5F5F);
    let mut order = Lent::new(&vec![super::FRESH_WORD; call.order], 0x6060);
    let mut written = Lent::new(&vec![super::FRESH_WORD; call.written], 0x6161);
    let answer = if call.shape.table {
        with_table(call, &mut table, &given, &mut bytes, &mut words, (&mut order, &mut written))
    } else {
        without_table(call, given.slice(), bytes.slice_mut(), words.slice_mut())
    };
    if given.now() != call.given || (answer.is_err() && order.now() != vec![super::FRESH_WORD; call.order]) {
        fail("what was lent to be read, or an order of a call that is refused, was written");
    }
    if !writes_table(call.shape.name) && table.now() != call.table {
        fail("a table that is lent to be read was written");
    }
    Outcome {
        answer: number_of(answer),
        bytes: (call.shape.result == Element::Byte).then(|| bytes.now()),
        words: (call.shape.result == Element::Word).then(|| words.now()),
        written: has_written(call.shape.name).then(|| written.now()),
        table: writes_table(call.shape.name).then(|| table.now()),
    }
}

fn with_table(
    call: &Call,
    table: &mut Lent<u8>,
    given: &Lent<u8>,
    bytes: &mut Lent<u8>,
    words: &mut Lent<u64>,
    (order, written): (&mut Lent<u64>, &mut Lent<u64>),
) -> Result<(), Refusal> {
    let n = |at: usize| call.numbers[at];
    let n32 = |at: usize| call.numbers[at] as u32;
    let (given, bytes, words) = (given.slice(), bytes.slice_mut(), words.slice_mut());
    match call.shape.name {
        "set_up" => calls::set_up(table.slice_mut()),
        "set_up_at" => calls::set_up_at(table.slice_mut(), n(0) as i32, n32(1)),
        "receive" => calls::receive(table.slice_mut(), given, n(0)),
        "receive_stamp" => calls::receive_stamp(table.slice_mut(), given, n32(0), words),
        "feed_block" => calls::feed_block(table.slice_mut(), given, n(0), words),
        "clock" => calls::clock(table.slice(), words),
        "site" => calls::site(table.slice(), words),
        "next" => calls::next(table.slice(), n32(0), words),
        "look_up" => calls::look_up(table.slice(), n32(0), words),
        "header" => calls::header(table.slice(), n(0), n32(1), bytes),
        "line" => calls::line(table.slice(), n32(0), n32(1), bytes),
        "listing" => calls::listing(table.slice(), n(0), n32(1), order.slice_mut(), bytes, written.slice_mut()),
        "check" => calls::check(table.slice(), given, words),
        "merge" => calls::merge(table.slice(), given, bytes, written.slice_mut()),
        other => fail(&format!("no call of {}", other)),
    }
}

fn without_table(call: &Call, given: &[u8], bytes: &mut [u8], words: &mut [u64]) -> Result<(), Refusal> {
    let n = |at: usize| call.numbers[at] as u32;
    let i = |at: usize| call.numbers[at] as i32;
    let double = |at: usize| f64::from_bits(call.numbers[at]);
    match call.shape.name {
        "replay" => calls::replay(given, n(0), n(1), words),
        "replay_at" => calls::replay_at(given, n(0), n(1), i(2), n(3), words),
        "replay_coarse" => calls::replay_coarse(given, n(0), n(1), n(2), words),
        "encode_position" => calls::encode_position(i(0), n(1), n(2), n(3), words),
        "pair" => calls::pair(n(0), n(1), n(2), n(3), n(4), words),
        "single" => calls::single(i(0), n(1), n(2), n(3), n(4), n(5), words),
        "encode_position_coarse" => calls::encode_position_coarse(i(0), n(1), n(2), words),
        "pair_coarse" => calls::pair_coarse(n(0), n(1), n(2), n(3), n(4), words),
        "single_coarse" => calls::single_coarse(i(0), n(1), n(2), n(3), n(4), words),
        "from_degrees" => calls::from_degrees(double(0), double(1), words),
        "decode" => calls::decode(given, words),
        "key" => calls::key(given, words),
        "me" => calls::me(call.numbers[0], n(1), words),
        "encode" => calls::encode(&call.given_words, bytes),
        other => fail(&format!("no call of {}", other)),
    }
}

/// A result of doubles, as their bit patterns.
fn degrees(call: &Call) -> Outcome {
    let before: Vec<f64> = call.words_before().into_iter().map(f64::from_bits).collect();
    let mut out = Lent::new(&before, 0.25);
    let answer = calls::degrees(call.numbers[0] as i32, call.numbers[1] as u32, out.slice_mut());
    let words = out.now().into_iter().map(f64::to_bits).collect();
    Outcome { answer: number_of(answer), words: Some(words), ..Outcome::default() }
}
