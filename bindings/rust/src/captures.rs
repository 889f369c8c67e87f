//! Captures, logs, and listings of others.

use crate::names::{BLOCK, MESSAGE, RECORD, TRACK};
use crate::{calls, Key, Kind, Refusal, Spot, Track};

/// A message, and when it was received, in milliseconds.
#[derive(Clone, Copy, Debug, PartialEq, Eq, Hash)]
pub struct Record {
    /// When.
    pub time: u64,
    /// What.
    pub message: [u8; MESSAGE],
}

const TIME: usize = RECORD - MESSAGE;

impl Record {
    /// As a log has it, or a block of a capture.
    pub fn to_bytes(&self) -> [u8; RECORD] {
        let mut made = [0; RECORD];
        made[..TIME].copy_from_slice(&self.time.to_be_bytes());
        made[TIME..].copy_from_slice(&self.message);
        made
    }

    /// .. and back.
    pub fn from_bytes(bytes: &[u8; RECORD]) -> Record {
        let (mut time, mut message) = ([0; TIME], [0; MESSAGE]);
        time.copy_from_slice(&bytes[..TIME]);
        message.copy_from_slice(&bytes[TIME..]);
        Record { time: u64::from_be_bytes(time), message }
    }
}

/// The blocks of a capture, for [`Table::feed`](crate::Table::feed); the last may be a part of one.
pub fn blocks(capture: &[u8]) -> core::slice::Chunks<'_, u8> {
    capture.chunks(BLOCK)
}

/// The track of one aircraft, worked out again from a log, without a table: `None` if it is not held.
///
/// A log is at most 2,900 records, [22 bytes each](Record::to_bytes), as a table received them since its set-up with this site. Kind C has no
/// use for a site. Or [`Refusal::Log`], [`Refusal::Field`] for a latitude beyond a pole.
pub fn replay(log: &[u8], key: Key, site: Option<Spot>) -> Result<Option<Track>, Refusal> {
    let mut out = [0; TRACK];
    let (kind, address) = (key.kind(), key.address());
    match (kind, site) {
        (Kind::C, _) => {
            let (flag, station) = (key.flag().unwrap_or_default(), key.station().unwrap_or_default());
            calls::replay_coarse(log, address, u32::from(flag), u32::from(station), &mut out)?;
        }
        (_, None) => calls::replay(log, kind as u32, address, &mut out)?,
        (_, Some(spot)) => calls::replay_at(log, kind as u32, address, spot.latitude, spot.longitude, &mut out)?,
    }
    Ok(Track::held(key, out))
}

/// What comes of a check.
#[derive(Clone, Copy, Debug, PartialEq, Eq, Hash)]
pub enum Checked {
    /// The listing is right.
    Yes,
    /// The first line at fault; the header is line 1.
    Line(u64),
}

/// Another decoder's listing of a capture, checked against ours. Or [`Refusal::Log`] for more than 2,900 records, [`Refusal::Form`].
pub fn check(capture: &[u8], listing: &[u8]) -> Result<Checked, Refusal> {
    let mut out = [0];
    calls::check(capture, listing, &mut out)?;
    Ok(if out[0] == 0 { Checked::Yes } else { Checked::Line(out[0]) })
}
