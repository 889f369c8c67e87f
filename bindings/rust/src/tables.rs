//! A table: tracks in bytes that the caller lends.

use crate::listings::text;
use crate::{calls, names, Key, Line, Refusal, Shown, Spot, Track};
use core::fmt;
use core::iter::FusedIterator;

/// Why a call of a table cannot be refused for its length.
const WHOLE: &str = "the table has whole places";

/// The tracks of a receiver, in bytes that it borrows. An aircraft is held until it was last heard 125 seconds ago.
///
/// Who receives borrows the table alone, so that nobody reads it meanwhile:
///
/// ```compile_fail,E0499
/// let mut bytes = [0; addercoil::table_bytes(8)];
/// let mut table = addercoil::Table::set_up(&mut bytes).unwrap();
/// let (one, other) = (&mut table, &mut table);
/// one.receive(&[0; 14], 0);
/// other.receive(&[0; 14], 0);
/// ```
pub struct Table<'a> {
    bytes: &'a mut [u8],
}

/// The state of a clock of 32 bits, for [`Table::receive_stamp`]: a new one for each set-up.
#[derive(Clone, Copy, Debug, Default, PartialEq, Eq, Hash)]
pub struct Stamps {
    /// The last stamp that was accepted.
    pub last: Option<u32>,
}

impl<'a> Table<'a> {
    /// An empty table: no track, no site, clock 0. The bytes may hold anything; [`table_bytes`](crate::table_bytes) says how many it has.
    /// Or [`Refusal::Places`], if they are not 1 to 1,024 whole places.
    pub fn set_up(bytes: &'a mut [u8]) -> Result<Self, Refusal> {
        calls::set_up(bytes)?;
        Ok(Table { bytes })
    }

    /// The same with the site of the receiver, against which positions on the ground are read. Or [`Refusal::Places`], [`Refusal::Field`] for a
    /// latitude beyond a pole.
    pub fn set_up_at(bytes: &'a mut [u8], site: Spot) -> Result<Self, Refusal> {
        calls::set_up_at(bytes, site.latitude, site.longitude)?;
        Ok(Table { bytes })
    }

    /// The table that these bytes hold already. Or [`Refusal::Places`].
    pub fn open(bytes: &'a mut [u8]) -> Result<Self, Refusal> {
        calls::clock(bytes, &mut [0])?;
        Ok(Table { bytes })
    }

    /// How many bytes a table of so many places has, if there is one.
    pub fn bytes_for(places: usize) -> Option<usize> {
        match calls::table_bytes(places as u64) {
            0 => None,
            bytes => Some(bytes as usize),
        }
    }

    /// Its bytes.
    pub fn bytes(&self) -> &[u8] {
        self.bytes
    }

    /// A message of 14 bytes received at a time, in milliseconds: starts or updates the track of its aircraft, and moves the clock.
    ///
    /// Or [`Refusal::Length`], [`Refusal::Late`], which leave the table as it was; or [`Refusal::Parity`], [`Refusal::Format`],
    /// [`Refusal::Type`], [`Refusal::Full`], [`Refusal::NoTrack`], which move the clock.
    pub fn receive(&mut self, message: &[u8], time: u64) -> Result<(), Refusal> {
        calls::receive(self.bytes, message, time)
    }

    /// The same with the stamp of a receiver whose millisecond counter has 32 bits and starts again from 0. Or besides
    /// [`Refusal::Overrun`]. The last stamp changes if this one is accepted.
    pub fn receive_stamp(&mut self, message: &[u8], stamp: u32, stamps: &mut Stamps) -> Result<(), Refusal> {
        let mut state = [u64::from(stamps.last.is_some()), u64::from(stamps.last.unwrap_or_default())];
        let answer = calls::receive_stamp(self.bytes, message, stamp, &mut state);
        stamps.last = (state[0] != 0).then_some(state[1] as u32);
        answer
    }

    /// Receives the records of a block of a capture. `bad` counts the blocks that fail their rules, and change nothing else.
    pub fn feed(&mut self, block: &[u8], bad: &mut u64) {
        let mut out = [0];
        calls::feed_block(self.bytes, block, *bad, &mut out).expect(WHOLE);
        *bad = out[0];
    }

    /// The latest time.
    pub fn clock(&self) -> u64 {
        let mut out = [0];
        calls::clock(self.bytes, &mut out).expect(WHOLE);
        out[0]
    }

    /// The site of the receiver, if there is one.
    pub fn site(&self) -> Option<Spot> {
        let mut out = [0; names::SITE];
        calls::site(self.bytes, &mut out).expect(WHOLE);
        (out[0] != 0).then(|| Spot::of([out[1], out[2]]))
    }

    /// The aircraft that are held, in the order of the listing.
    pub fn keys(&self) -> Keys<'_> {
        Keys { bytes: self.bytes, last: 0 }
    }

    /// .. and what is known of each.
    pub fn tracks(&self) -> Tracks<'_> {
        Tracks(self.keys())
    }

    /// What is known of an aircraft, if it is held.
    pub fn track(&self, key: Key) -> Option<Track> {
        track_in(self.bytes, key)
    }

    /// The whole listing, into an array of [`listing_bytes`](crate::listing_bytes) bytes. In `order`, which has an element for each place, the
    /// keys are sorted. Or [`Refusal::Length`] for arrays of another length.
    pub fn listing<'b>(&self, bad: u64, shown: Shown, order: &mut [u64], out: &'b mut [u8]) -> Result<&'b str, Refusal> {
        let mut written = [0];
        calls::listing(self.bytes, bad, shown as u32, order, out, &mut written)?;
        Ok(text(&out[..written[0] as usize]))
    }

    /// The first line of the listing.
    pub fn header(&self, bad: u64, shown: Shown) -> Line {
        let mut out = [0; names::LINE];
        calls::header(self.bytes, bad, shown as u32, &mut out).expect(WHOLE);
        Line(out)
    }

    /// The line of an aircraft: empty if it is not held, or not shown.
    pub fn line(&self, key: Key, shown: Shown) -> Line {
        let mut out = [0; names::LINE];
        calls::line(self.bytes, key.number(), shown as u32, &mut out).expect(WHOLE);
        Line(out)
    }
}

impl fmt::Debug for Table<'_> {
    fn fmt(&self, form: &mut fmt::Formatter<'_>) -> fmt::Result {
        write!(form, "Table({} bytes, clock {})", self.bytes.len(), self.clock())
    }
}

impl<'t> IntoIterator for &'t Table<'_> {
    type Item = Track;
    type IntoIter = Tracks<'t>;

    fn into_iter(self) -> Tracks<'t> {
        self.tracks()
    }
}

/// The track of a key in the bytes of a table.
fn track_in(bytes: &[u8], key: Key) -> Option<Track> {
    let mut out = [0; names::TRACK];
    calls::look_up(bytes, key.number(), &mut out).expect(WHOLE);
    Track::held(key, out)
}

/// The keys of a table.
#[derive(Clone)]
pub struct Keys<'t> {
    bytes: &'t [u8],
    last: u32,
}

impl Iterator for Keys<'_> {
    type Item = Key;

    fn next(&mut self) -> Option<Key> {
        let mut out = [0];
        calls::next(self.bytes, self.last, &mut out).expect(WHOLE);
        let found = (out[0] != 0).then(|| Key::of(out[0]))?;
        self.last = found.number();
        Some(found)
    }
}

impl FusedIterator for Keys<'_> {}

impl fmt::Debug for Keys<'_> {
    fn fmt(&self, form: &mut fmt::Formatter<'_>) -> fmt::Result {
        write!(form, "Keys(above {:#x})", self.last)
    }
}

/// The tracks of a table.
#[derive(Clone)]
pub struct Tracks<'t>(Keys<'t>);

impl Iterator for Tracks<'_> {
    type Item = Track;

    fn next(&mut self) -> Option<Track> {
        let key = self.0.next()?;
        track_in(self.0.bytes, key)
    }
}

impl FusedIterator for Tracks<'_> {}

impl fmt::Debug for Tracks<'_> {
    fn fmt(&self, form: &mut fmt::Formatter<'_>) -> fmt::Result {
        write!(form, "Tracks({:?})", self.0)
    }
}
