//! A call by the types of the crate, if they can say it.
//!
//! Its arrays have the right length, its keys are keys, and its choices are 0 or 1.

use super::laid_out::{entries_of, me_of, row_of};
use super::{Call, Element, Outcome, FRESH};
use addercoil::cpr::{self, Counts, Format, Place};
use addercoil::names::{head, FIELDS, LINE, TRACK};
use addercoil::{check, decode, encode, key_of, merge, read_me, replay, version};
use addercoil::{Checked, Degrees, Key, Kind, Refusal, Shown, Spot, Stamps, Table, Track};

/// A choice of 0 or 1.
fn choice<T: Copy>(number: u64, of: [T; 2]) -> Option<T> {
    of.get(usize::try_from(number as u32).ok()?).copied()
}

const FORMATS: [Format; 2] = [Format::Even, Format::Odd];
const PLACES: [Place; 2] = [Place::Airborne, Place::Surface];
const SHOWN: [Shown; 2] = [Shown::Positioned, Shown::All];

/// What comes of it, or none.
pub(super) fn made(call: &Call) -> Option<Outcome> {
    match call.shape.name {
        "version" => Some(Outcome { answer: u64::from(version()), ..Outcome::default() }),
        "table_bytes" => Some(Outcome { answer: bytes_for(call.numbers[0]), ..Outcome::default() }),
        "encode" => message(call),
        "set_up" | "set_up_at" => Some(set_up(call)),
        "receive" | "receive_stamp" | "feed_block" => with_table(call),
        "listing" | "header" | "line" => shown(call),
        "merge" => (call.written == 1).then(|| merged(call)),
        _ => words(call),
    }
}

/// Degrees as people type them, rounded.
pub(super) fn nearest(call: &Call) -> Outcome {
    let of_spot = |found: Spot| vec![found.latitude as i64 as u64, u64::from(found.longitude)];
    with_words(call, degrees(call).nearest().map(of_spot))
}

fn bytes_for(places: u64) -> u64 {
    usize::try_from(places).ok().and_then(Table::bytes_for).map_or(0, |bytes| bytes as u64)
}

/// The answer with its words, or with those before the call if it is refused.
fn with_words(call: &Call, answer: Result<Vec<u64>, Refusal>) -> Outcome {
    let (answer, words) = match answer {
        Ok(words) => (0, words),
        Err(refusal) => (u64::from(refusal.number()), call.words_before()),
    };
    Outcome { answer, words: Some(words), ..Outcome::default() }
}

fn set_up(call: &Call) -> Outcome {
    let mut bytes = call.table.clone();
    let answer = if call.shape.name == "set_up" {
        Table::set_up(&mut bytes).map(|_| ())
    } else {
        Table::set_up_at(&mut bytes, Spot { latitude: call.numbers[0] as i32, longitude: call.numbers[1] as u32 }).map(|_| ())
    };
    Outcome { answer: super::by_slices::number_of(answer), table: Some(bytes), ..Outcome::default() }
}

fn with_table(call: &Call) -> Option<Outcome> {
    let mut bytes = call.table.clone();
    let mut table = Table::open(&mut bytes).ok()?;
    let (answer, words) = match call.shape.name {
        "receive" => (table.receive(&call.given, call.numbers[0]), None),
        "feed_block" => {
            let mut bad = call.numbers[0];
            table.feed(&call.given, &mut bad);
            (Ok(()), Some(vec![bad]))
        }
        _ => {
            let mut stamps = stamps_of(call.numbers[1], call.numbers[2])?;
            let answer = table.receive_stamp(&call.given, call.numbers[0] as u32, &mut stamps);
            (answer, Some(vec![u64::from(stamps.last.is_some()), u64::from(stamps.last.unwrap_or(0))]))
        }
    };
    if words.as_ref().map_or(0, Vec::len) != call.length {
        return None;
    }
    Some(Outcome { answer: super::by_slices::number_of(answer), words, table: Some(bytes), ..Outcome::default() })
}

/// A state that there can be.
fn stamps_of(started: u64, last: u64) -> Option<Stamps> {
    let last = u32::try_from(last).ok()?;
    match (started, last) {
        (0, 0) => Some(Stamps::default()),
        (1, _) => Some(Stamps { last: Some(last) }),
        _ => None,
    }
}

/// The listing, its first line, a line.
fn shown(call: &Call) -> Option<Outcome> {
    let mut bytes = call.table.clone();
    let table = Table::open(&mut bytes).ok()?;
    let shown = choice(call.numbers[1], SHOWN)?;
    if call.shape.name == "listing" {
        return (call.written == 1).then(|| listing(call, &table, shown));
    }
    let line = match call.shape.name {
        "header" => table.header(call.numbers[0], shown),
        _ => table.line(Key::from_number(call.numbers[0] as u32)?, shown),
    };
    let mut text = line.as_str().as_bytes().to_vec();
    text.resize(LINE, 0);
    (call.length == LINE).then(|| Outcome { bytes: Some(text), ..Outcome::default() })
}

fn listing(call: &Call, table: &Table, shown: Shown) -> Outcome {
    let (mut order, mut out) = (vec![super::FRESH_WORD; call.order], vec![FRESH; call.length]);
    let (answer, written) = match table.listing(call.numbers[0], shown, &mut order, &mut out) {
        Ok(text) => (0, text.len() as u64),
        Err(refusal) => (u64::from(refusal.number()), super::FRESH_WORD),
    };
    Outcome { answer, bytes: Some(out), written: Some(vec![written]), ..Outcome::default() }
}

/// Two listings as one.
fn merged(call: &Call) -> Outcome {
    let mut out = vec![FRESH; call.length];
    let (answer, written) = match merge(&call.table, &call.given, &mut out) {
        Ok(text) => (0, text.len() as u64),
        Err(refusal) => (u64::from(refusal.number()), super::FRESH_WORD),
    };
    Outcome { answer, bytes: Some(out), written: Some(vec![written]), ..Outcome::default() }
}

/// The message of fields.
fn message(call: &Call) -> Option<Outcome> {
    let entries: &[u64; FIELDS] = call.given_words.as_slice().try_into().ok()?;
    let (df, capability) = (u8::try_from(entries[head::DF]).ok()?, u8::try_from(entries[head::CA]).ok()?);
    let address = u32::try_from(entries[head::AA]).ok()?;
    let (answer, bytes) = match encode(df, capability, address, &me_of(entries)?) {
        Ok(message) => (0, message.to_vec()),
        Err(refusal) => (u64::from(refusal.number()), vec![FRESH; call.length]),
    };
    (call.length == addercoil::names::MESSAGE).then(|| Outcome { answer, bytes: Some(bytes), ..Outcome::default() })
}

/// The calls whose result is numbers, of the length that it has.
fn words(call: &Call) -> Option<Outcome> {
    debug_assert!(call.shape.result == Element::Word);
    let answer = match call.shape.name {
        "clock" | "site" | "next" | "look_up" => Ok(of_table(call)?),
        "replay" | "replay_at" | "replay_coarse" => replayed(call)?,
        "check" => check(&call.table, &call.given).map(|found| vec![line_of(found)]),
        "decode" => decode(&call.given).map(|message| entries_of(&message).to_vec()),
        "key" => key_of(&call.given).map(|key| vec![u64::from(key.number())]),
        "me" => read_me(call.numbers[0], Key::from_number(call.numbers[1] as u32)?).map(|me| row_of(&me).to_vec()),
        "degrees" => spot(call, 0).degrees().map(|found| vec![found.latitude.to_bits(), found.longitude.to_bits()]),
        "from_degrees" => degrees(call).exact().map(|found| vec![found.latitude as i64 as u64, u64::from(found.longitude)]),
        _ => positions(call)?,
    };
    let due = match call.shape.name {
        "clock" | "next" | "check" | "key" => 1,
        "site" => 3,
        "look_up" | "replay" | "replay_at" | "replay_coarse" => TRACK,
        "decode" | "me" => FIELDS,
        _ => 2,
    };
    (call.length == due).then(|| with_words(call, answer))
}

fn of_table(call: &Call) -> Option<Vec<u64>> {
    let mut bytes = call.table.clone();
    let table = Table::open(&mut bytes).ok()?;
    let key = call.numbers.first().map_or(0, |number| *number as u32);
    Some(match call.shape.name {
        "clock" => vec![table.clock()],
        "site" => table.site().map_or(vec![0; 3], |site| vec![1, site.latitude as i64 as u64, u64::from(site.longitude)]),
        "next" => vec![number_above(&table, key)],
        _ => told(table.track(Key::from_number(key)?)),
    })
}

/// The smallest key that is held above a number, or 0. What a table holds are keys.
fn number_above(table: &Table, number: u32) -> u64 {
    let found = table.keys().find(|key| key.number() > number);
    if found.map_or(false, |key| Key::from_number(key.number()) != Some(key)) {
        super::fail("a table holds what is no key");
    }
    found.map_or(0, |key| u64::from(key.number()))
}

/// The entries of a track, told again by its methods.
fn told(track: Option<Track>) -> Vec<u64> {
    track.map_or(vec![0; TRACK], |one| super::laid_out::track_row(&one).to_vec())
}

fn replayed(call: &Call) -> Option<Result<Vec<u64>, Refusal>> {
    let n = |at: usize| call.numbers[at] as u32;
    let (key, site) = match call.shape.name {
        "replay_coarse" => (Key::coarse(n(0), choice(call.numbers[1], [false, true])?, u8::try_from(n(2)).ok()?).ok()?, None),
        "replay" => (Key::new(Kind::from_number(n(0))?, n(1)).ok()?, None),
        _ => (Key::new(Kind::from_number(n(0))?, n(1)).ok()?, Some(spot(call, 2))),
    };
    Some(replay(&call.given, key, site).map(told))
}

fn line_of(found: Checked) -> u64 {
    match found {
        Checked::Yes => 0,
        Checked::Line(number) => number,
    }
}

fn spot(call: &Call, at: usize) -> Spot {
    Spot { latitude: call.numbers[at] as i32, longitude: call.numbers[at + 1] as u32 }
}

fn degrees(call: &Call) -> Degrees {
    Degrees { latitude: f64::from_bits(call.numbers[0]), longitude: f64::from_bits(call.numbers[1]) }
}

/// Counts and spots.
fn positions(call: &Call) -> Option<Result<Vec<u64>, Refusal>> {
    let counts = |at: usize| Counts { latitude: call.numbers[at] as u32, longitude: call.numbers[at + 1] as u32 };
    let format = |at: usize| choice(call.numbers[at], FORMATS);
    let place = |at: usize| choice(call.numbers[at], PLACES);
    let of_counts = |found: Counts| vec![u64::from(found.latitude), u64::from(found.longitude)];
    let of_spot = |found: Spot| vec![found.latitude as i64 as u64, u64::from(found.longitude)];
    Some(match call.shape.name {
        "encode_position" => cpr::encode(spot(call, 0), place(2)?, format(3)?).map(of_counts),
        "pair" => cpr::pair(counts(0), counts(2), format(4)?).map(of_spot),
        "single" => cpr::single(spot(call, 0), counts(2), place(4)?, format(5)?).map(of_spot),
        "encode_position_coarse" => cpr::encode_coarse(spot(call, 0), format(2)?).map(of_counts),
        "pair_coarse" => cpr::pair_coarse(counts(0), counts(2), format(4)?).map(of_spot),
        "single_coarse" => cpr::single_coarse(spot(call, 0), counts(2), format(4)?).map(of_spot),
        _ => return None,
    })
}
