//! Every function of include/addercoil.h by its name, over slices: safe, and otherwise as the header says.
//!
//! An array is a slice, so that its pointer and its count fit. Two slices that are both only read may overlap. No other file of the crate
//! has unsafe code. tools/bindings writes this one.
#![allow(unsafe_code)]

use crate::Refusal;

/// As C declares them.
mod c {
    extern "C" {
        pub fn addercoil_version() -> u32;
        pub fn addercoil_table_bytes(places: u64) -> u64;
        pub fn addercoil_set_up(table: *mut u8, table_len: u64) -> u32;
        pub fn addercoil_set_up_at(table: *mut u8, table_len: u64, latitude: i32, longitude: u32) -> u32;
        pub fn addercoil_receive(table: *mut u8, table_len: u64, message: *const u8, message_len: u64, time: u64) -> u32;
        pub fn addercoil_receive_stamp(table: *mut u8, table_len: u64, message: *const u8, message_len: u64, stamp: u32, state: *mut u64, state_len: u64) -> u32;
        pub fn addercoil_clock(table: *const u8, table_len: u64, out: *mut u64, out_len: u64) -> u32;
        pub fn addercoil_site(table: *const u8, table_len: u64, out: *mut u64, out_len: u64) -> u32;
        pub fn addercoil_next(table: *const u8, table_len: u64, key: u32, out: *mut u64, out_len: u64) -> u32;
        pub fn addercoil_look_up(table: *const u8, table_len: u64, key: u32, out: *mut u64, out_len: u64) -> u32;
        pub fn addercoil_replay(log: *const u8, log_len: u64, kind: u32, address: u32, out: *mut u64, out_len: u64) -> u32;
        pub fn addercoil_replay_at(log: *const u8, log_len: u64, kind: u32, address: u32, latitude: i32, longitude: u32, out: *mut u64, out_len: u64) -> u32;
        pub fn addercoil_replay_coarse(log: *const u8, log_len: u64, address: u32, flag: u32, station: u32, out: *mut u64, out_len: u64) -> u32;
        pub fn addercoil_listing(table: *const u8, table_len: u64, bad: u64, all: u32, order: *mut u64, order_len: u64, out: *mut u8, out_len: u64, written: *mut u64, written_len: u64) -> u32;
        pub fn addercoil_header(table: *const u8, table_len: u64, bad: u64, all: u32, out: *mut u8, out_len: u64) -> u32;
        pub fn addercoil_line(table: *const u8, table_len: u64, key: u32, all: u32, out: *mut u8, out_len: u64) -> u32;
        pub fn addercoil_feed_block(table: *mut u8, table_len: u64, block: *const u8, block_len: u64, bad: u64, out: *mut u64, out_len: u64) -> u32;
        pub fn addercoil_check(capture: *const u8, capture_len: u64, listing: *const u8, listing_len: u64, out: *mut u64, out_len: u64) -> u32;
        pub fn addercoil_merge(a: *const u8, a_len: u64, b: *const u8, b_len: u64, out: *mut u8, out_len: u64, written: *mut u64, written_len: u64) -> u32;
        pub fn addercoil_encode_position(latitude: i32, longitude: u32, surface: u32, odd: u32, out: *mut u64, out_len: u64) -> u32;
        pub fn addercoil_pair(even_latitude: u32, even_longitude: u32, odd_latitude: u32, odd_longitude: u32, later_odd: u32, out: *mut u64, out_len: u64) -> u32;
        pub fn addercoil_single(latitude: i32, longitude: u32, count_latitude: u32, count_longitude: u32, surface: u32, odd: u32, out: *mut u64, out_len: u64) -> u32;
        pub fn addercoil_encode_position_coarse(latitude: i32, longitude: u32, odd: u32, out: *mut u64, out_len: u64) -> u32;
        pub fn addercoil_pair_coarse(even_latitude: u32, even_longitude: u32, odd_latitude: u32, odd_longitude: u32, later_odd: u32, out: *mut u64, out_len: u64) -> u32;
        pub fn addercoil_single_coarse(latitude: i32, longitude: u32, count_latitude: u32, count_longitude: u32, odd: u32, out: *mut u64, out_len: u64) -> u32;
        pub fn addercoil_degrees(latitude: i32, longitude: u32, out: *mut f64, out_len: u64) -> u32;
        pub fn addercoil_from_degrees(latitude: f64, longitude: f64, out: *mut u64, out_len: u64) -> u32;
        pub fn addercoil_decode(message: *const u8, message_len: u64, fields: *mut u64, fields_len: u64) -> u32;
        pub fn addercoil_key(message: *const u8, message_len: u64, out: *mut u64, out_len: u64) -> u32;
        pub fn addercoil_me(me: u64, key: u32, fields: *mut u64, fields_len: u64) -> u32;
        pub fn addercoil_encode(fields: *const u64, fields_len: u64, message: *mut u8, message_len: u64) -> u32;
    }
}

/// An answer of the library.
fn answered(number: u32) -> Result<(), Refusal> {
    match (number, Refusal::from_number(number)) {
        (0, _) => Ok(()),
        (_, Some(refusal)) => Err(refusal),
        (_, None) => panic!("the library is of another version: it answers {}", number),
    }
}

/// `addercoil_version`.
pub fn version() -> u32 {
    // SAFETY: it is lent nothing.
    unsafe { c::addercoil_version() }
}

/// `addercoil_table_bytes`.
pub fn table_bytes(places: u64) -> u64 {
    // SAFETY: it is lent nothing.
    unsafe { c::addercoil_table_bytes(places) }
}

/// `addercoil_set_up`, or why it is refused.
pub fn set_up(table: &mut [u8]) -> Result<(), Refusal> {
    // SAFETY: each pointer and count are those of a slice, which is aligned and lives through the call. The call writes `table`, and nobody else has these bytes: the slice is mutable.
    answered(unsafe { c::addercoil_set_up(table.as_mut_ptr(), table.len() as u64) })
}

/// `addercoil_set_up_at`, or why it is refused.
pub fn set_up_at(table: &mut [u8], latitude: i32, longitude: u32) -> Result<(), Refusal> {
    // SAFETY: each pointer and count are those of a slice, which is aligned and lives through the call. The call writes `table`, and nobody else has these bytes: the slice is mutable.
    answered(unsafe { c::addercoil_set_up_at(table.as_mut_ptr(), table.len() as u64, latitude, longitude) })
}

/// `addercoil_receive`, or why it is refused.
pub fn receive(table: &mut [u8], message: &[u8], time: u64) -> Result<(), Refusal> {
    // SAFETY: each pointer and count are those of a slice, which is aligned and lives through the call. The call writes `table`, and nobody else has these bytes: the slice is mutable.
    answered(unsafe { c::addercoil_receive(table.as_mut_ptr(), table.len() as u64, message.as_ptr(), message.len() as u64, time) })
}

/// `addercoil_receive_stamp`, or why it is refused.
pub fn receive_stamp(table: &mut [u8], message: &[u8], stamp: u32, state: &mut [u64]) -> Result<(), Refusal> {
    // SAFETY: each pointer and count are those of a slice, which is aligned and lives through the call. The call writes `table` and `state`, and nobody else has these bytes: the slice is mutable.
    answered(unsafe { c::addercoil_receive_stamp(table.as_mut_ptr(), table.len() as u64, message.as_ptr(), message.len() as u64, stamp, state.as_mut_ptr(), state.len() as u64) })
}

/// `addercoil_clock`, or why it is refused.
pub fn clock(table: &[u8], out: &mut [u64]) -> Result<(), Refusal> {
    // SAFETY: each pointer and count are those of a slice, which is aligned and lives through the call. The call writes `out`, and nobody else has these bytes: the slice is mutable.
    answered(unsafe { c::addercoil_clock(table.as_ptr(), table.len() as u64, out.as_mut_ptr(), out.len() as u64) })
}

/// `addercoil_site`, or why it is refused.
pub fn site(table: &[u8], out: &mut [u64]) -> Result<(), Refusal> {
    // SAFETY: each pointer and count are those of a slice, which is aligned and lives through the call. The call writes `out`, and nobody else has these bytes: the slice is mutable.
    answered(unsafe { c::addercoil_site(table.as_ptr(), table.len() as u64, out.as_mut_ptr(), out.len() as u64) })
}

/// `addercoil_next`, or why it is refused.
pub fn next(table: &[u8], key: u32, out: &mut [u64]) -> Result<(), Refusal> {
    // SAFETY: each pointer and count are those of a slice, which is aligned and lives through the call. The call writes `out`, and nobody else has these bytes: the slice is mutable.
    answered(unsafe { c::addercoil_next(table.as_ptr(), table.len() as u64, key, out.as_mut_ptr(), out.len() as u64) })
}

/// `addercoil_look_up`, or why it is refused.
pub fn look_up(table: &[u8], key: u32, out: &mut [u64]) -> Result<(), Refusal> {
    // SAFETY: each pointer and count are those of a slice, which is aligned and lives through the call. The call writes `out`, and nobody else has these bytes: the slice is mutable.
    answered(unsafe { c::addercoil_look_up(table.as_ptr(), table.len() as u64, key, out.as_mut_ptr(), out.len() as u64) })
}

/// `addercoil_replay`, or why it is refused.
pub fn replay(log: &[u8], kind: u32, address: u32, out: &mut [u64]) -> Result<(), Refusal> {
    // SAFETY: each pointer and count are those of a slice, which is aligned and lives through the call. The call writes `out`, and nobody else has these bytes: the slice is mutable.
    answered(unsafe { c::addercoil_replay(log.as_ptr(), log.len() as u64, kind, address, out.as_mut_ptr(), out.len() as u64) })
}

/// `addercoil_replay_at`, or why it is refused.
pub fn replay_at(log: &[u8], kind: u32, address: u32, latitude: i32, longitude: u32, out: &mut [u64]) -> Result<(), Refusal> {
    // SAFETY: each pointer and count are those of a slice, which is aligned and lives through the call. The call writes `out`, and nobody else has these bytes: the slice is mutable.
    answered(unsafe { c::addercoil_replay_at(log.as_ptr(), log.len() as u64, kind, address, latitude, longitude, out.as_mut_ptr(), out.len() as u64) })
}

/// `addercoil_replay_coarse`, or why it is refused.
pub fn replay_coarse(log: &[u8], address: u32, flag: u32, station: u32, out: &mut [u64]) -> Result<(), Refusal> {
    // SAFETY: each pointer and count are those of a slice, which is aligned and lives through the call. The call writes `out`, and nobody else has these bytes: the slice is mutable.
    answered(unsafe { c::addercoil_replay_coarse(log.as_ptr(), log.len() as u64, address, flag, station, out.as_mut_ptr(), out.len() as u64) })
}

/// `addercoil_listing`, or why it is refused.
pub fn listing(table: &[u8], bad: u64, all: u32, order: &mut [u64], out: &mut [u8], written: &mut [u64]) -> Result<(), Refusal> {
    // SAFETY: each pointer and count are those of a slice, which is aligned and lives through the call. The call writes `order` and `out` and `written`, and nobody else has these bytes: the slice is mutable.
    answered(unsafe { c::addercoil_listing(table.as_ptr(), table.len() as u64, bad, all, order.as_mut_ptr(), order.len() as u64, out.as_mut_ptr(), out.len() as u64, written.as_mut_ptr(), written.len() as u64) })
}

/// `addercoil_header`, or why it is refused.
pub fn header(table: &[u8], bad: u64, all: u32, out: &mut [u8]) -> Result<(), Refusal> {
    // SAFETY: each pointer and count are those of a slice, which is aligned and lives through the call. The call writes `out`, and nobody else has these bytes: the slice is mutable.
    answered(unsafe { c::addercoil_header(table.as_ptr(), table.len() as u64, bad, all, out.as_mut_ptr(), out.len() as u64) })
}

/// `addercoil_line`, or why it is refused.
pub fn line(table: &[u8], key: u32, all: u32, out: &mut [u8]) -> Result<(), Refusal> {
    // SAFETY: each pointer and count are those of a slice, which is aligned and lives through the call. The call writes `out`, and nobody else has these bytes: the slice is mutable.
    answered(unsafe { c::addercoil_line(table.as_ptr(), table.len() as u64, key, all, out.as_mut_ptr(), out.len() as u64) })
}

/// `addercoil_feed_block`, or why it is refused.
pub fn feed_block(table: &mut [u8], block: &[u8], bad: u64, out: &mut [u64]) -> Result<(), Refusal> {
    // SAFETY: each pointer and count are those of a slice, which is aligned and lives through the call. The call writes `table` and `out`, and nobody else has these bytes: the slice is mutable.
    answered(unsafe { c::addercoil_feed_block(table.as_mut_ptr(), table.len() as u64, block.as_ptr(), block.len() as u64, bad, out.as_mut_ptr(), out.len() as u64) })
}

/// `addercoil_check`, or why it is refused.
pub fn check(capture: &[u8], listing: &[u8], out: &mut [u64]) -> Result<(), Refusal> {
    // SAFETY: each pointer and count are those of a slice, which is aligned and lives through the call. The call writes `out`, and nobody else has these bytes: the slice is mutable.
    answered(unsafe { c::addercoil_check(capture.as_ptr(), capture.len() as u64, listing.as_ptr(), listing.len() as u64, out.as_mut_ptr(), out.len() as u64) })
}

/// `addercoil_merge`, or why it is refused.
pub fn merge(a: &[u8], b: &[u8], out: &mut [u8], written: &mut [u64]) -> Result<(), Refusal> {
    // SAFETY: each pointer and count are those of a slice, which is aligned and lives through the call. The call writes `out` and `written`, and nobody else has these bytes: the slice is mutable.
    answered(unsafe { c::addercoil_merge(a.as_ptr(), a.len() as u64, b.as_ptr(), b.len() as u64, out.as_mut_ptr(), out.len() as u64, written.as_mut_ptr(), written.len() as u64) })
}

/// `addercoil_encode_position`, or why it is refused.
pub fn encode_position(latitude: i32, longitude: u32, surface: u32, odd: u32, out: &mut [u64]) -> Result<(), Refusal> {
    // SAFETY: each pointer and count are those of a slice, which is aligned and lives through the call. The call writes `out`, and nobody else has these bytes: the slice is mutable.
    answered(unsafe { c::addercoil_encode_position(latitude, longitude, surface, odd, out.as_mut_ptr(), out.len() as u64) })
}

/// `addercoil_pair`, or why it is refused.
pub fn pair(even_latitude: u32, even_longitude: u32, odd_latitude: u32, odd_longitude: u32, later_odd: u32, out: &mut [u64]) -> Result<(), Refusal> {
    // SAFETY: each pointer and count are those of a slice, which is aligned and lives through the call. The call writes `out`, and nobody else has these bytes: the slice is mutable.
    answered(unsafe { c::addercoil_pair(even_latitude, even_longitude, odd_latitude, odd_longitude, later_odd, out.as_mut_ptr(), out.len() as u64) })
}

/// `addercoil_single`, or why it is refused.
pub fn single(latitude: i32, longitude: u32, count_latitude: u32, count_longitude: u32, surface: u32, odd: u32, out: &mut [u64]) -> Result<(), Refusal> {
    // SAFETY: each pointer and count are those of a slice, which is aligned and lives through the call. The call writes `out`, and nobody else has these bytes: the slice is mutable.
    answered(unsafe { c::addercoil_single(latitude, longitude, count_latitude, count_longitude, surface, odd, out.as_mut_ptr(), out.len() as u64) })
}

/// `addercoil_encode_position_coarse`, or why it is refused.
pub fn encode_position_coarse(latitude: i32, longitude: u32, odd: u32, out: &mut [u64]) -> Result<(), Refusal> {
    // SAFETY: each pointer and count are those of a slice, which is aligned and lives through the call. The call writes `out`, and nobody else has these bytes: the slice is mutable.
    answered(unsafe { c::addercoil_encode_position_coarse(latitude, longitude, odd, out.as_mut_ptr(), out.len() as u64) })
}

/// `addercoil_pair_coarse`, or why it is refused.
pub fn pair_coarse(even_latitude: u32, even_longitude: u32, odd_latitude: u32, odd_longitude: u32, later_odd: u32, out: &mut [u64]) -> Result<(), Refusal> {
    // SAFETY: each pointer and count are those of a slice, which is aligned and lives through the call. The call writes `out`, and nobody else has these bytes: the slice is mutable.
    answered(unsafe { c::addercoil_pair_coarse(even_latitude, even_longitude, odd_latitude, odd_longitude, later_odd, out.as_mut_ptr(), out.len() as u64) })
}

/// `addercoil_single_coarse`, or why it is refused.
pub fn single_coarse(latitude: i32, longitude: u32, count_latitude: u32, count_longitude: u32, odd: u32, out: &mut [u64]) -> Result<(), Refusal> {
    // SAFETY: each pointer and count are those of a slice, which is aligned and lives through the call. The call writes `out`, and nobody else has these bytes: the slice is mutable.
    answered(unsafe { c::addercoil_single_coarse(latitude, longitude, count_latitude, count_longitude, odd, out.as_mut_ptr(), out.len() as u64) })
}

/// `addercoil_degrees`, or why it is refused.
pub fn degrees(latitude: i32, longitude: u32, out: &mut [f64]) -> Result<(), Refusal> {
    // SAFETY: each pointer and count are those of a slice, which is aligned and lives through the call. The call writes `out`, and nobody else has these bytes: the slice is mutable.
    answered(unsafe { c::addercoil_degrees(latitude, longitude, out.as_mut_ptr(), out.len() as u64) })
}

/// `addercoil_from_degrees`, or why it is refused.
pub fn from_degrees(latitude: f64, longitude: f64, out: &mut [u64]) -> Result<(), Refusal> {
    // SAFETY: each pointer and count are those of a slice, which is aligned and lives through the call. The call writes `out`, and nobody else has these bytes: the slice is mutable.
    answered(unsafe { c::addercoil_from_degrees(latitude, longitude, out.as_mut_ptr(), out.len() as u64) })
}

/// `addercoil_decode`, or why it is refused.
pub fn decode(message: &[u8], fields: &mut [u64]) -> Result<(), Refusal> {
    // SAFETY: each pointer and count are those of a slice, which is aligned and lives through the call. The call writes `fields`, and nobody else has these bytes: the slice is mutable.
    answered(unsafe { c::addercoil_decode(message.as_ptr(), message.len() as u64, fields.as_mut_ptr(), fields.len() as u64) })
}

/// `addercoil_key`, or why it is refused.
pub fn key(message: &[u8], out: &mut [u64]) -> Result<(), Refusal> {
    // SAFETY: each pointer and count are those of a slice, which is aligned and lives through the call. The call writes `out`, and nobody else has these bytes: the slice is mutable.
    answered(unsafe { c::addercoil_key(message.as_ptr(), message.len() as u64, out.as_mut_ptr(), out.len() as u64) })
}

/// `addercoil_me`, or why it is refused.
pub fn me(me: u64, key: u32, fields: &mut [u64]) -> Result<(), Refusal> {
    // SAFETY: each pointer and count are those of a slice, which is aligned and lives through the call. The call writes `fields`, and nobody else has these bytes: the slice is mutable.
    answered(unsafe { c::addercoil_me(me, key, fields.as_mut_ptr(), fields.len() as u64) })
}

/// `addercoil_encode`, or why it is refused.
pub fn encode(fields: &[u64], message: &mut [u8]) -> Result<(), Refusal> {
    // SAFETY: each pointer and count are those of a slice, which is aligned and lives through the call. The call writes `message`, and nobody else has these bytes: the slice is mutable.
    answered(unsafe { c::addercoil_encode(fields.as_ptr(), fields.len() as u64, message.as_mut_ptr(), message.len() as u64) })
}
