#![doc = include_str!("../README.md")]
#![no_std]
#![deny(unsafe_code, unsafe_op_in_unsafe_fn)]
#![warn(missing_docs)]

#[cfg(feature = "std")]
extern crate std;

#[rustfmt::skip]
pub mod calls;
pub mod cpr;
#[rustfmt::skip]
pub mod names;

mod captures;
mod keys;
mod listings;
mod messages;
mod padding;
mod refusals;
mod spots;
mod tables;
mod tracks;
mod values;

pub use captures::{blocks, check, replay, Checked, Record};
pub use keys::{key_of, Key};
pub use listings::{merge, Line, Shown};
pub use messages::{
    decode, encode, from_hex, read_me, AirVelocity, Airborne, Coarse, GroundVelocity, Identification, Me, Message, Status, Surface,
    Vertical,
};
pub use names::{listing_bytes, table_bytes, Kind, Refusal};
pub use spots::{Degrees, Spot};
pub use tables::{Keys, Stamps, Table, Tracks};
pub use tracks::{AirspeedKind, Category, Encoded, Integrity, Position, RateSource, Track};
pub use values::{Callsign, CoarseSpeed, Movement, Reading, Turn};

/// The version of the library: 10,000 times the major number, 100 times the minor one, and the patch.
pub fn version() -> u32 {
    calls::version()
}
