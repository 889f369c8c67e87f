//! What is known of an aircraft.

use crate::cpr::{Counts, Format};
use crate::names::track as at;
use crate::names::{integrity, TRACK};
use crate::padding::padded;
use crate::values::Read;
use crate::{read_me, Callsign, CoarseSpeed, Degrees, Key, Kind, Me, Movement, Reading, Spot, Turn};
use core::fmt;

/// An aircraft that is held. `None` is unknown.
#[derive(Clone, Copy, PartialEq, Eq, Hash)]
pub struct Track {
    key: Key,
    entries: [u64; TRACK],
}

/// Where an aircraft is.
#[derive(Clone, Copy, Debug, PartialEq, Eq, Hash)]
pub struct Position {
    /// The place.
    pub spot: Spot,
    /// When it was heard.
    pub time: u64,
}

/// A position as a message said it.
#[derive(Clone, Copy, Debug, PartialEq, Eq, Hash)]
pub struct Encoded {
    /// Its counts.
    pub counts: Counts,
    /// When it was heard.
    pub time: u64,
}

/// What an aircraft is, as A3.
#[derive(Clone, Copy, Debug, PartialEq, Eq, Hash)]
pub struct Category {
    /// A to D.
    pub set: char,
    /// 0 to 7.
    pub number: u8,
}

impl fmt::Display for Category {
    fn fmt(&self, form: &mut fmt::Formatter<'_>) -> fmt::Result {
        padded(form, format_args!("{}{}", self.set, self.number))
    }
}

/// Where a vertical rate comes from.
#[derive(Clone, Copy, Debug, PartialEq, Eq, Hash)]
pub enum RateSource {
    /// 0.
    Geometric,
    /// 1.
    Barometric,
}

/// Which airspeed it is.
#[derive(Clone, Copy, Debug, PartialEq, Eq, Hash)]
pub enum AirspeedKind {
    /// 0.
    Indicated,
    /// 1.
    True,
}

/// How far a position can be trusted: more is better.
#[derive(Clone, Copy, Debug, PartialEq, Eq, Hash)]
pub enum Integrity {
    /// Navigation uncertainty category, 0 to 9, of version 0.
    Nuc(u8),
    /// Navigation integrity category, 0 to 11, of versions 1 and 2.
    Nic(u8),
}

impl Track {
    /// That of entries, if they say that it is held.
    pub(crate) fn held(key: Key, entries: [u64; TRACK]) -> Option<Track> {
        (entries[at::HELD] != 0).then_some(Track { key, entries })
    }

    /// A reading, by the entry of what it is.
    fn read<T: Read>(&self, is: usize) -> T {
        T::read(self.entries[is], self.entries[is + 1])
    }

    /// A direction, if its status says that it is valid.
    fn direction(&self, is: usize, status: usize) -> Option<Turn> {
        self.read::<Option<Turn>>(is).filter(|_| self.read::<Option<bool>>(status) == Some(true))
    }

    /// What the ME of an entry says, if one was heard. It is 0 if none was.
    ///
    /// Kind C has a velocity alone, which is heard even if it is 0.
    fn me(&self, entry: usize) -> Option<Me> {
        let me = self.entries[entry];
        let was_heard = if self.key.kind() == Kind::C { entry == at::VELOCITY } else { me != 0 };
        was_heard.then(|| read_me(me, self.key).ok()).flatten()
    }

    /// All entries, as the header has them: [`names::track`](crate::names::track) has their names.
    pub fn entries(&self) -> &[u64; TRACK] {
        &self.entries
    }

    /// Who it is.
    pub fn key(&self) -> Key {
        self.key
    }

    /// The time of its last message, in milliseconds.
    pub fn heard(&self) -> u64 {
        self.entries[at::HEARD]
    }

    /// The callsign.
    pub fn callsign(&self) -> Option<Callsign> {
        self.read(at::CALLSIGN_IS)
    }

    /// The category.
    pub fn category(&self) -> Option<Category> {
        Some(Category { set: self.read::<Option<char>>(at::CATEGORY_SET_IS)?, number: self.read::<Option<u8>>(at::CATEGORY_IS)? })
    }

    /// Where it is.
    pub fn position(&self) -> Option<Position> {
        let spot = Spot::of([self.entries[at::LATITUDE], self.entries[at::LONGITUDE]]);
        (self.entries[at::POSITION_KNOWN] != 0).then_some(Position { spot, time: self.entries[at::POSITION_TIME] })
    }

    /// .. in degrees, exactly.
    pub fn degrees(&self) -> Option<Degrees> {
        self.position()?.spot.degrees().ok()
    }

    /// The latest even, or odd, position as a message said it.
    pub fn encoded(&self, format: Format) -> Option<Encoded> {
        let (known, latitude, longitude, time) = match format {
            Format::Even => (at::EVEN_KNOWN, at::EVEN_LATITUDE_COUNT, at::EVEN_LONGITUDE_COUNT, at::EVEN_TIME),
            Format::Odd => (at::ODD_KNOWN, at::ODD_LATITUDE_COUNT, at::ODD_LONGITUDE_COUNT, at::ODD_TIME),
        };
        let counts = Counts { latitude: self.entries[latitude] as u32, longitude: self.entries[longitude] as u32 };
        (self.entries[known] != 0).then_some(Encoded { counts, time: self.entries[time] })
    }

    /// Whether its last position message was sent on the ground.
    pub fn on_ground(&self) -> Option<bool> {
        self.read(at::ON_GROUND_IS)
    }

    /// By pressure, in feet.
    pub fn altitude(&self) -> Option<i32> {
        self.read(at::ALTITUDE_IS)
    }

    /// How coarse that is: 25 or 100 feet.
    pub fn altitude_step(&self) -> Option<u32> {
        self.read(at::ALTITUDE_STEP_IS)
    }

    /// GNSS height, in feet.
    pub fn gnss_height(&self) -> Option<i32> {
        self.read(at::GNSS_HEIGHT_IS)
    }

    /// How coarse that is: 25 or 100 feet.
    pub fn gnss_height_step(&self) -> Option<u32> {
        self.read(at::GNSS_HEIGHT_STEP_IS)
    }

    /// Over ground to the east, in knots; west is below zero.
    pub fn east(&self) -> Reading<i32> {
        self.read(at::EAST_IS)
    }

    /// Over ground to the north, in knots; south is below zero.
    pub fn north(&self) -> Reading<i32> {
        self.read(at::NORTH_IS)
    }

    /// Its heading in the air, of one that sends its airspeed, if it is valid.
    pub fn heading(&self) -> Option<Turn> {
        self.direction(at::HEADING_IS, at::HEADING_STATUS_IS)
    }

    /// In knots.
    pub fn airspeed(&self) -> Reading<u32> {
        self.read(at::AIRSPEED_IS)
    }

    /// Which airspeed that is.
    pub fn airspeed_kind(&self) -> Option<AirspeedKind> {
        let is_true: bool = self.read::<Option<bool>>(at::AIRSPEED_KIND_IS)?;
        Some(if is_true { AirspeedKind::True } else { AirspeedKind::Indicated })
    }

    /// In feet per minute; down is below zero.
    pub fn rate(&self) -> Reading<i32> {
        self.read(at::RATE_IS)
    }

    /// Where the rate comes from.
    pub fn rate_source(&self) -> Option<RateSource> {
        let barometric: bool = self.read::<Option<bool>>(at::RATE_SOURCE_IS)?;
        Some(if barometric { RateSource::Barometric } else { RateSource::Geometric })
    }

    /// How it moves on the ground.
    pub fn movement(&self) -> Movement {
        self.read(at::MOVEMENT_IS)
    }

    /// Its heading on the ground, if it is valid.
    pub fn surface_heading(&self) -> Option<Turn> {
        self.direction(at::SURFACE_HEADING_IS, at::SURFACE_STATUS_IS)
    }

    /// Where one of kind C goes, if that is valid.
    pub fn angle(&self) -> Option<Turn> {
        self.direction(at::ANGLE_IS, at::ANGLE_STATUS_IS)
    }

    /// How fast one of kind C is over ground.
    pub fn coarse_speed(&self) -> CoarseSpeed {
        self.read(at::SPEED_IS)
    }

    /// The version of the standard: 0 to 2, or 3 to 7, which are reserved.
    pub fn version(&self) -> u8 {
        self.entries[at::VERSION] as u8
    }

    /// The supplements A, B and C of its position.
    pub fn supplements(&self) -> [bool; 3] {
        [at::SUPPLEMENT_A, at::SUPPLEMENT_B, at::SUPPLEMENT_C].map(|entry| self.entries[entry] != 0)
    }

    /// How far its position can be trusted.
    pub fn integrity(&self) -> Option<Integrity> {
        let number = self.entries[at::INTEGRITY] as u8;
        match self.entries[at::INTEGRITY_IS] {
            integrity::NUC => Some(Integrity::Nuc(number)),
            integrity::NIC => Some(Integrity::Nic(number)),
            _ => None,
        }
    }

    /// What its last identification said.
    pub fn last_identification(&self) -> Option<Me> {
        self.me(at::IDENTIFICATION)
    }

    /// What its last velocity said; of kind C its last message.
    pub fn last_velocity(&self) -> Option<Me> {
        self.me(at::VELOCITY)
    }

    /// What its last surface position said.
    pub fn last_surface(&self) -> Option<Me> {
        self.me(at::SURFACE)
    }

    /// What its last operational status said.
    pub fn last_status(&self) -> Option<Me> {
        self.me(at::STATUS)
    }
}

impl fmt::Debug for Track {
    fn fmt(&self, form: &mut fmt::Formatter<'_>) -> fmt::Result {
        write!(form, "Track({} heard {})", self.key, self.heard())
    }
}
