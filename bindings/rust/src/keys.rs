//! Who an aircraft is.

use crate::padding::padded;
use crate::{calls, Kind, Refusal};
use core::fmt;

const COARSE: u32 = 1 << 31;
const ADDRESSES: u32 = 1 << 24;
const FLAG: u32 = 1 << 4;

/// An aircraft: its kind and its address, of kind C with the flag of the address and the station that tells of it.
///
/// Keys are in the order of the listing. As text one is what begins its line there.
#[derive(Clone, Copy, PartialEq, Eq, PartialOrd, Ord, Hash)]
pub struct Key(u32);

impl Key {
    /// The key of a kind, I to N, and an address of 24 bits. Or [`Refusal::Field`].
    pub const fn new(kind: Kind, address: u32) -> Result<Key, Refusal> {
        if matches!(kind, Kind::C) || address >= ADDRESSES {
            return Err(Refusal::Field);
        }
        Ok(Key((kind as u32) << 24 | address))
    }

    /// The key of kind C: an address of 24 bits, its flag, and a station, 0 to 15. Or [`Refusal::Field`].
    pub const fn coarse(address: u32, flag: bool, station: u8) -> Result<Key, Refusal> {
        if address >= ADDRESSES || station as u32 >= FLAG {
            return Err(Refusal::Field);
        }
        Ok(Key(COARSE | address << 5 | (flag as u32) << 4 | station as u32))
    }

    /// The key with a number, if it is one.
    pub const fn from_number(number: u32) -> Option<Key> {
        let most = if number >= COARSE { COARSE | (2 * FLAG * ADDRESSES - 1) } else { (Kind::N as u32 + 1) * ADDRESSES - 1 };
        if number >= Kind::I as u32 * ADDRESSES && number <= most {
            Some(Key(number))
        } else {
            None
        }
    }

    /// The number, as the header has it.
    pub const fn number(self) -> u32 {
        self.0
    }

    /// The kind.
    pub const fn kind(self) -> Kind {
        match self.0 >> 24 {
            1 => Kind::I,
            2 => Kind::O,
            3 => Kind::T,
            4 => Kind::M,
            5 => Kind::N,
            _ => Kind::C,
        }
    }

    /// The 24 bits of the address.
    pub const fn address(self) -> u32 {
        (if self.is_coarse() { self.0 >> 5 } else { self.0 }) % ADDRESSES
    }

    /// The flag of the address, which kind C has: whether it is a Mode A code with a track number.
    pub const fn flag(self) -> Option<bool> {
        if self.is_coarse() {
            Some(self.0 & FLAG != 0)
        } else {
            None
        }
    }

    /// The station that tells of it, which kind C has.
    pub const fn station(self) -> Option<u8> {
        if self.is_coarse() {
            Some((self.0 % FLAG) as u8)
        } else {
            None
        }
    }

    /// That of an entry in which the library has one.
    pub(crate) const fn of(entry: u64) -> Key {
        Key(entry as u32)
    }

    const fn is_coarse(self) -> bool {
        self.0 >= COARSE
    }
}

impl From<Key> for u32 {
    fn from(key: Key) -> u32 {
        key.0
    }
}

impl TryFrom<u32> for Key {
    type Error = Refusal;

    fn try_from(number: u32) -> Result<Key, Refusal> {
        Key::from_number(number).ok_or(Refusal::Field)
    }
}

impl fmt::Display for Key {
    fn fmt(&self, form: &mut fmt::Formatter<'_>) -> fmt::Result {
        let (kind, address) = (self.kind(), self.address());
        match (self.flag(), self.station()) {
            (Some(flag), Some(station)) => padded(form, format_args!("{:?} {:06X} {} {}", kind, address, u8::from(flag), station)),
            _ => padded(form, format_args!("{:?} {:06X}", kind, address)),
        }
    }
}

impl fmt::Debug for Key {
    fn fmt(&self, form: &mut fmt::Formatter<'_>) -> fmt::Result {
        write!(form, "Key({})", self)
    }
}

/// The key of a message, under which a table keeps its track. Or why the message is refused.
///
/// By it messages are dealt out to several tables.
pub fn key_of(message: &[u8]) -> Result<Key, Refusal> {
    let mut out = [0];
    calls::key(message, &mut out)?;
    Ok(Key::of(out[0]))
}
