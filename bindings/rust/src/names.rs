//! Names and numbers of include/addercoil.h. tools/bindings writes this file.

/// `ADDERCOIL_VERSION`: that of the header.
pub const VERSION: u32 = 1000;
/// `ADDERCOIL_RECORD`
pub const RECORD: usize = 22;
/// `ADDERCOIL_RECORDS`
pub const RECORDS: usize = 2900;
/// `ADDERCOIL_LINE`
pub const LINE: usize = 129;
/// `ADDERCOIL_BLOCK`
pub const BLOCK: usize = 512;
/// `ADDERCOIL_MESSAGE`
pub const MESSAGE: usize = 14;
/// `ADDERCOIL_FIELDS`
pub const FIELDS: usize = 28;
/// `ADDERCOIL_STAMPS`
pub const STAMPS: usize = 2;
/// `ADDERCOIL_SITE`
pub const SITE: usize = 3;
/// `ADDERCOIL_TRACK`
pub const TRACK: usize = 72;
/// `ADDERCOIL_SPOT`
pub const SPOT: usize = 2;
/// `ADDERCOIL_COUNTS`
pub const COUNTS: usize = 2;
/// `ADDERCOIL_DEGREES`
pub const DEGREES: usize = 2;

/// `ADDERCOIL_TABLE_BYTES`, for the length of an array; `usize::MAX` if that is too small.
///
/// [`Table::bytes_for`](crate::Table::bytes_for) says whether there is a table of so many places.
pub const fn table_bytes(places: usize) -> usize {
    let places = places as u128;
    let bytes = 16 + 86 * places;
    if bytes > usize::MAX as u128 {
        usize::MAX
    } else {
        bytes as usize
    }
}

/// `ADDERCOIL_LISTING_BYTES`, for the length of an array; `usize::MAX` if that is too small.
///
/// [`Table::bytes_for`](crate::Table::bytes_for) says whether there is a table of so many places.
pub const fn listing_bytes(places: usize) -> usize {
    let places = places as u128;
    let bytes = 128 * (places + 1);
    if bytes > usize::MAX as u128 {
        usize::MAX
    } else {
        bytes as usize
    }
}

/// Why the library refused.
#[derive(Clone, Copy, Debug, PartialEq, Eq, PartialOrd, Ord, Hash)]
#[repr(u32)]
#[non_exhaustive]
pub enum Refusal {
    /// 1: a message that is not of 14 bytes, or an array of a wrong length.
    Length = 1,
    /// 2: a time below the table's clock, or a stamp too far past the last one.
    Late = 2,
    /// 3: a parity remainder that is not 0.
    Parity = 3,
    /// 4: a DF or CF that is not taken.
    Format = 4,
    /// 5: a TYPE or subtype that is not taken, or a reserved flag.
    Type = 5,
    /// 6: a new aircraft, and no place is free.
    Full = 6,
    /// 7: a table that is not of 1 to 1,024 whole places.
    Places = 7,
    /// 8: a number out of its range: a field, a latitude, a choice.
    Field = 8,
    /// 9: a decoded latitude beyond a pole.
    Latitude = 9,
    /// 10: two latitudes in different longitude zones.
    Zones = 10,
    /// 12: an aircraft that is not held, and a message that starts no track.
    NoTrack = 12,
    /// 13: a stamp whose time would pass 2^64 - 1.
    Overrun = 13,
    /// 14: a log or capture of over 2,900 records, or a log not of whole ones.
    Log = 14,
    /// 15: a double that is no spot's latitude or longitude in degrees.
    Degrees = 15,
    /// 16: a text that is not in the form of a listing.
    Form = 16,
}

impl Refusal {
    /// The one with a number, if there is one.
    pub const fn from_number(number: u32) -> Option<Self> {
        match number {
            1 => Some(Self::Length),
            2 => Some(Self::Late),
            3 => Some(Self::Parity),
            4 => Some(Self::Format),
            5 => Some(Self::Type),
            6 => Some(Self::Full),
            7 => Some(Self::Places),
            8 => Some(Self::Field),
            9 => Some(Self::Latitude),
            10 => Some(Self::Zones),
            12 => Some(Self::NoTrack),
            13 => Some(Self::Overrun),
            14 => Some(Self::Log),
            15 => Some(Self::Degrees),
            16 => Some(Self::Form),
            _ => None,
        }
    }

    /// What it means, in the words of the header.
    pub const fn words(self) -> &'static str {
        match self {
            Self::Length => "a message that is not of 14 bytes, or an array of a wrong length",
            Self::Late => "a time below the table's clock, or a stamp too far past the last one",
            Self::Parity => "a parity remainder that is not 0",
            Self::Format => "a DF or CF that is not taken",
            Self::Type => "a TYPE or subtype that is not taken, or a reserved flag",
            Self::Full => "a new aircraft, and no place is free",
            Self::Places => "a table that is not of 1 to 1,024 whole places",
            Self::Field => "a number out of its range: a field, a latitude, a choice",
            Self::Latitude => "a decoded latitude beyond a pole",
            Self::Zones => "two latitudes in different longitude zones",
            Self::NoTrack => "an aircraft that is not held, and a message that starts no track",
            Self::Overrun => "a stamp whose time would pass 2^64 - 1",
            Self::Log => "a log or capture of over 2,900 records, or a log not of whole ones",
            Self::Degrees => "a double that is no spot's latitude or longitude in degrees",
            Self::Form => "a text that is not in the form of a listing",
        }
    }
}

/// The kinds of aircraft, in the order of the listing.
#[derive(Clone, Copy, Debug, PartialEq, Eq, PartialOrd, Ord, Hash)]
#[repr(u32)]
#[non_exhaustive]
pub enum Kind {
    /// 1: what an aircraft sends itself, under an ICAO address.
    I = 1,
    /// 2: what an aircraft sends itself, under another address.
    O = 2,
    /// 3: what a ground station tells, of an ICAO address.
    T = 3,
    /// 4: what a ground station tells, of a Mode A code and a track number.
    M = 4,
    /// 5: what a ground station tells, of another address.
    N = 5,
    /// 6: what a ground station tells coarsely.
    C = 6,
}

impl Kind {
    /// The one with a number, if there is one.
    pub const fn from_number(number: u32) -> Option<Self> {
        match number {
            1 => Some(Self::I),
            2 => Some(Self::O),
            3 => Some(Self::T),
            4 => Some(Self::M),
            5 => Some(Self::N),
            6 => Some(Self::C),
            _ => None,
        }
    }
}

/// What a reading is.
pub mod reading {
    /// `ADDERCOIL_UNKNOWN`
    pub const UNKNOWN: u64 = 0;
    /// `ADDERCOIL_KNOWN`
    pub const KNOWN: u64 = 1;
    /// `ADDERCOIL_OVER`
    pub const OVER: u64 = 2;
    /// `ADDERCOIL_NONE`
    pub const NONE: u64 = 3;
    /// `ADDERCOIL_STOPPED`
    pub const STOPPED: u64 = 4;
}

/// The first fields of a message.
pub mod head {
    /// `ADDERCOIL_LAYOUT`
    pub const LAYOUT: usize = 0;
    /// `ADDERCOIL_DF`
    pub const DF: usize = 1;
    /// `ADDERCOIL_CA`
    pub const CA: usize = 2;
    /// `ADDERCOIL_AA`
    pub const AA: usize = 3;
    /// `ADDERCOIL_KEY`
    pub const KEY: usize = 4;
    /// `ADDERCOIL_TYPECODE`
    pub const TYPECODE: usize = 5;
}

/// The layouts of a message.
pub mod layout {
    /// `ADDERCOIL_LAYOUT_IDENTIFICATION`
    pub const IDENTIFICATION: u64 = 1;
    /// `ADDERCOIL_LAYOUT_SURFACE`
    pub const SURFACE: u64 = 2;
    /// `ADDERCOIL_LAYOUT_AIRBORNE`
    pub const AIRBORNE: u64 = 3;
    /// `ADDERCOIL_LAYOUT_GROUND`
    pub const GROUND: u64 = 4;
    /// `ADDERCOIL_LAYOUT_AIR`
    pub const AIR: u64 = 5;
    /// `ADDERCOIL_LAYOUT_STATUS`
    pub const STATUS: u64 = 6;
    /// `ADDERCOIL_LAYOUT_COARSE`
    pub const COARSE: u64 = 7;
}

/// What the integrity of a track is.
pub mod integrity {
    /// `ADDERCOIL_INTEGRITY_UNKNOWN`
    pub const UNKNOWN: u64 = 0;
    /// `ADDERCOIL_INTEGRITY_NUC`
    pub const NUC: u64 = 1;
    /// `ADDERCOIL_INTEGRITY_NIC`
    pub const NIC: u64 = 2;
}

/// The entries `ADDERCOIL_TRACK_..`.
pub mod track {
    /// `ADDERCOIL_TRACK_HELD`
    pub const HELD: usize = 0;
    /// `ADDERCOIL_TRACK_HEARD`
    pub const HEARD: usize = 1;
    /// `ADDERCOIL_TRACK_IDENTIFICATION`
    pub const IDENTIFICATION: usize = 2;
    /// `ADDERCOIL_TRACK_VELOCITY`
    pub const VELOCITY: usize = 3;
    /// `ADDERCOIL_TRACK_SURFACE`
    pub const SURFACE: usize = 4;
    /// `ADDERCOIL_TRACK_STATUS`
    pub const STATUS: usize = 5;
    /// `ADDERCOIL_TRACK_PRESSURE_CODE`
    pub const PRESSURE_CODE: usize = 6;
    /// `ADDERCOIL_TRACK_HEIGHT_CODE`
    pub const HEIGHT_CODE: usize = 7;
    /// `ADDERCOIL_TRACK_POSITION_TYPE`
    pub const POSITION_TYPE: usize = 8;
    /// `ADDERCOIL_TRACK_POSITION_BIT8`
    pub const POSITION_BIT8: usize = 9;
    /// `ADDERCOIL_TRACK_POSITION_KNOWN`
    pub const POSITION_KNOWN: usize = 10;
    /// `ADDERCOIL_TRACK_LATITUDE`
    pub const LATITUDE: usize = 11;
    /// `ADDERCOIL_TRACK_LONGITUDE`
    pub const LONGITUDE: usize = 12;
    /// `ADDERCOIL_TRACK_POSITION_TIME`
    pub const POSITION_TIME: usize = 13;
    /// `ADDERCOIL_TRACK_EVEN_KNOWN`
    pub const EVEN_KNOWN: usize = 14;
    /// `ADDERCOIL_TRACK_EVEN_LATITUDE_COUNT`
    pub const EVEN_LATITUDE_COUNT: usize = 15;
    /// `ADDERCOIL_TRACK_EVEN_LONGITUDE_COUNT`
    pub const EVEN_LONGITUDE_COUNT: usize = 16;
    /// `ADDERCOIL_TRACK_EVEN_TIME`
    pub const EVEN_TIME: usize = 17;
    /// `ADDERCOIL_TRACK_ODD_KNOWN`
    pub const ODD_KNOWN: usize = 18;
    /// `ADDERCOIL_TRACK_ODD_LATITUDE_COUNT`
    pub const ODD_LATITUDE_COUNT: usize = 19;
    /// `ADDERCOIL_TRACK_ODD_LONGITUDE_COUNT`
    pub const ODD_LONGITUDE_COUNT: usize = 20;
    /// `ADDERCOIL_TRACK_ODD_TIME`
    pub const ODD_TIME: usize = 21;
    /// `ADDERCOIL_TRACK_ALTITUDE_IS`
    pub const ALTITUDE_IS: usize = 22;
    /// `ADDERCOIL_TRACK_ALTITUDE`
    pub const ALTITUDE: usize = 23;
    /// `ADDERCOIL_TRACK_ALTITUDE_STEP_IS`
    pub const ALTITUDE_STEP_IS: usize = 24;
    /// `ADDERCOIL_TRACK_ALTITUDE_STEP`
    pub const ALTITUDE_STEP: usize = 25;
    /// `ADDERCOIL_TRACK_GNSS_HEIGHT_IS`
    pub const GNSS_HEIGHT_IS: usize = 26;
    /// `ADDERCOIL_TRACK_GNSS_HEIGHT`
    pub const GNSS_HEIGHT: usize = 27;
    /// `ADDERCOIL_TRACK_GNSS_HEIGHT_STEP_IS`
    pub const GNSS_HEIGHT_STEP_IS: usize = 28;
    /// `ADDERCOIL_TRACK_GNSS_HEIGHT_STEP`
    pub const GNSS_HEIGHT_STEP: usize = 29;
    /// `ADDERCOIL_TRACK_CALLSIGN_IS`
    pub const CALLSIGN_IS: usize = 30;
    /// `ADDERCOIL_TRACK_CALLSIGN`
    pub const CALLSIGN: usize = 31;
    /// `ADDERCOIL_TRACK_CATEGORY_SET_IS`
    pub const CATEGORY_SET_IS: usize = 32;
    /// `ADDERCOIL_TRACK_CATEGORY_SET`
    pub const CATEGORY_SET: usize = 33;
    /// `ADDERCOIL_TRACK_CATEGORY_IS`
    pub const CATEGORY_IS: usize = 34;
    /// `ADDERCOIL_TRACK_CATEGORY`
    pub const CATEGORY: usize = 35;
    /// `ADDERCOIL_TRACK_EAST_IS`
    pub const EAST_IS: usize = 36;
    /// `ADDERCOIL_TRACK_EAST`
    pub const EAST: usize = 37;
    /// `ADDERCOIL_TRACK_NORTH_IS`
    pub const NORTH_IS: usize = 38;
    /// `ADDERCOIL_TRACK_NORTH`
    pub const NORTH: usize = 39;
    /// `ADDERCOIL_TRACK_HEADING_IS`
    pub const HEADING_IS: usize = 40;
    /// `ADDERCOIL_TRACK_HEADING`
    pub const HEADING: usize = 41;
    /// `ADDERCOIL_TRACK_HEADING_STATUS_IS`
    pub const HEADING_STATUS_IS: usize = 42;
    /// `ADDERCOIL_TRACK_HEADING_STATUS`
    pub const HEADING_STATUS: usize = 43;
    /// `ADDERCOIL_TRACK_AIRSPEED_IS`
    pub const AIRSPEED_IS: usize = 44;
    /// `ADDERCOIL_TRACK_AIRSPEED`
    pub const AIRSPEED: usize = 45;
    /// `ADDERCOIL_TRACK_AIRSPEED_KIND_IS`
    pub const AIRSPEED_KIND_IS: usize = 46;
    /// `ADDERCOIL_TRACK_AIRSPEED_KIND`
    pub const AIRSPEED_KIND: usize = 47;
    /// `ADDERCOIL_TRACK_RATE_IS`
    pub const RATE_IS: usize = 48;
    /// `ADDERCOIL_TRACK_RATE`
    pub const RATE: usize = 49;
    /// `ADDERCOIL_TRACK_RATE_SOURCE_IS`
    pub const RATE_SOURCE_IS: usize = 50;
    /// `ADDERCOIL_TRACK_RATE_SOURCE`
    pub const RATE_SOURCE: usize = 51;
    /// `ADDERCOIL_TRACK_ON_GROUND_IS`
    pub const ON_GROUND_IS: usize = 52;
    /// `ADDERCOIL_TRACK_ON_GROUND`
    pub const ON_GROUND: usize = 53;
    /// `ADDERCOIL_TRACK_MOVEMENT_IS`
    pub const MOVEMENT_IS: usize = 54;
    /// `ADDERCOIL_TRACK_MOVEMENT`
    pub const MOVEMENT: usize = 55;
    /// `ADDERCOIL_TRACK_SURFACE_HEADING_IS`
    pub const SURFACE_HEADING_IS: usize = 56;
    /// `ADDERCOIL_TRACK_SURFACE_HEADING`
    pub const SURFACE_HEADING: usize = 57;
    /// `ADDERCOIL_TRACK_SURFACE_STATUS_IS`
    pub const SURFACE_STATUS_IS: usize = 58;
    /// `ADDERCOIL_TRACK_SURFACE_STATUS`
    pub const SURFACE_STATUS: usize = 59;
    /// `ADDERCOIL_TRACK_ANGLE_IS`
    pub const ANGLE_IS: usize = 60;
    /// `ADDERCOIL_TRACK_ANGLE`
    pub const ANGLE: usize = 61;
    /// `ADDERCOIL_TRACK_ANGLE_STATUS_IS`
    pub const ANGLE_STATUS_IS: usize = 62;
    /// `ADDERCOIL_TRACK_ANGLE_STATUS`
    pub const ANGLE_STATUS: usize = 63;
    /// `ADDERCOIL_TRACK_SPEED_IS`
    pub const SPEED_IS: usize = 64;
    /// `ADDERCOIL_TRACK_SPEED`
    pub const SPEED: usize = 65;
    /// `ADDERCOIL_TRACK_VERSION`
    pub const VERSION: usize = 66;
    /// `ADDERCOIL_TRACK_SUPPLEMENT_A`
    pub const SUPPLEMENT_A: usize = 67;
    /// `ADDERCOIL_TRACK_SUPPLEMENT_B`
    pub const SUPPLEMENT_B: usize = 68;
    /// `ADDERCOIL_TRACK_SUPPLEMENT_C`
    pub const SUPPLEMENT_C: usize = 69;
    /// `ADDERCOIL_TRACK_INTEGRITY_IS`
    pub const INTEGRITY_IS: usize = 70;
    /// `ADDERCOIL_TRACK_INTEGRITY`
    pub const INTEGRITY: usize = 71;
}

/// The entries `ADDERCOIL_IDENTIFICATION_..`.
pub mod identification {
    /// `ADDERCOIL_IDENTIFICATION_CATEGORY`
    pub const CATEGORY: usize = 6;
    /// `ADDERCOIL_IDENTIFICATION_CHARACTERS`
    pub const CHARACTERS: usize = 7;
    /// `ADDERCOIL_IDENTIFICATION_SET_IS`
    pub const SET_IS: usize = 20;
    /// `ADDERCOIL_IDENTIFICATION_SET`
    pub const SET: usize = 21;
    /// `ADDERCOIL_IDENTIFICATION_TEXT_IS`
    pub const TEXT_IS: usize = 22;
    /// `ADDERCOIL_IDENTIFICATION_TEXT`
    pub const TEXT: usize = 23;
}

/// The entries `ADDERCOIL_SURFACE_..`.
pub mod surface {
    /// `ADDERCOIL_SURFACE_MOVEMENT_CODE`
    pub const MOVEMENT_CODE: usize = 6;
    /// `ADDERCOIL_SURFACE_STATUS`
    pub const STATUS: usize = 7;
    /// `ADDERCOIL_SURFACE_HEADING_CODE`
    pub const HEADING_CODE: usize = 8;
    /// `ADDERCOIL_SURFACE_T`
    pub const T: usize = 9;
    /// `ADDERCOIL_SURFACE_F`
    pub const F: usize = 10;
    /// `ADDERCOIL_SURFACE_LATITUDE_COUNT`
    pub const LATITUDE_COUNT: usize = 11;
    /// `ADDERCOIL_SURFACE_LONGITUDE_COUNT`
    pub const LONGITUDE_COUNT: usize = 12;
    /// `ADDERCOIL_SURFACE_SPEED_IS`
    pub const SPEED_IS: usize = 20;
    /// `ADDERCOIL_SURFACE_SPEED`
    pub const SPEED: usize = 21;
    /// `ADDERCOIL_SURFACE_TURN_IS`
    pub const TURN_IS: usize = 22;
    /// `ADDERCOIL_SURFACE_TURN`
    pub const TURN: usize = 23;
}

/// The entries `ADDERCOIL_AIRBORNE_..`.
pub mod airborne {
    /// `ADDERCOIL_AIRBORNE_SURVEILLANCE`
    pub const SURVEILLANCE: usize = 6;
    /// `ADDERCOIL_AIRBORNE_BIT8`
    pub const BIT8: usize = 7;
    /// `ADDERCOIL_AIRBORNE_ALTITUDE_CODE`
    pub const ALTITUDE_CODE: usize = 8;
    /// `ADDERCOIL_AIRBORNE_T`
    pub const T: usize = 9;
    /// `ADDERCOIL_AIRBORNE_F`
    pub const F: usize = 10;
    /// `ADDERCOIL_AIRBORNE_LATITUDE_COUNT`
    pub const LATITUDE_COUNT: usize = 11;
    /// `ADDERCOIL_AIRBORNE_LONGITUDE_COUNT`
    pub const LONGITUDE_COUNT: usize = 12;
    /// `ADDERCOIL_AIRBORNE_ALTITUDE_IS`
    pub const ALTITUDE_IS: usize = 20;
    /// `ADDERCOIL_AIRBORNE_ALTITUDE`
    pub const ALTITUDE: usize = 21;
    /// `ADDERCOIL_AIRBORNE_GNSS_IS`
    pub const GNSS_IS: usize = 22;
    /// `ADDERCOIL_AIRBORNE_GNSS`
    pub const GNSS: usize = 23;
    /// `ADDERCOIL_AIRBORNE_STEP_IS`
    pub const STEP_IS: usize = 24;
    /// `ADDERCOIL_AIRBORNE_STEP`
    pub const STEP: usize = 25;
}

/// The entries `ADDERCOIL_GROUND_..`.
pub mod ground {
    /// `ADDERCOIL_GROUND_SUBTYPE`
    pub const SUBTYPE: usize = 6;
    /// `ADDERCOIL_GROUND_BIT9`
    pub const BIT9: usize = 7;
    /// `ADDERCOIL_GROUND_BIT10`
    pub const BIT10: usize = 8;
    /// `ADDERCOIL_GROUND_NACV`
    pub const NACV: usize = 9;
    /// `ADDERCOIL_GROUND_WEST`
    pub const WEST: usize = 10;
    /// `ADDERCOIL_GROUND_EASTWARD_CODE`
    pub const EASTWARD_CODE: usize = 11;
    /// `ADDERCOIL_GROUND_SOUTH`
    pub const SOUTH: usize = 12;
    /// `ADDERCOIL_GROUND_NORTHWARD_CODE`
    pub const NORTHWARD_CODE: usize = 13;
    /// `ADDERCOIL_GROUND_EAST_IS`
    pub const EAST_IS: usize = 20;
    /// `ADDERCOIL_GROUND_EAST`
    pub const EAST: usize = 21;
    /// `ADDERCOIL_GROUND_NORTH_IS`
    pub const NORTH_IS: usize = 22;
    /// `ADDERCOIL_GROUND_NORTH`
    pub const NORTH: usize = 23;
}

/// The entries `ADDERCOIL_AIR_..`.
pub mod air {
    /// `ADDERCOIL_AIR_SUBTYPE`
    pub const SUBTYPE: usize = 6;
    /// `ADDERCOIL_AIR_BIT9`
    pub const BIT9: usize = 7;
    /// `ADDERCOIL_AIR_BIT10`
    pub const BIT10: usize = 8;
    /// `ADDERCOIL_AIR_NACV`
    pub const NACV: usize = 9;
    /// `ADDERCOIL_AIR_STATUS`
    pub const STATUS: usize = 10;
    /// `ADDERCOIL_AIR_HEADING_CODE`
    pub const HEADING_CODE: usize = 11;
    /// `ADDERCOIL_AIR_AIRSPEED_KIND`
    pub const AIRSPEED_KIND: usize = 12;
    /// `ADDERCOIL_AIR_AIRSPEED_CODE`
    pub const AIRSPEED_CODE: usize = 13;
    /// `ADDERCOIL_AIR_TURN_IS`
    pub const TURN_IS: usize = 20;
    /// `ADDERCOIL_AIR_TURN`
    pub const TURN: usize = 21;
    /// `ADDERCOIL_AIR_SPEED_IS`
    pub const SPEED_IS: usize = 22;
    /// `ADDERCOIL_AIR_SPEED`
    pub const SPEED: usize = 23;
}

/// The entries `ADDERCOIL_VERTICAL_..`.
pub mod vertical {
    /// `ADDERCOIL_VERTICAL_SOURCE`
    pub const SOURCE: usize = 14;
    /// `ADDERCOIL_VERTICAL_DOWN`
    pub const DOWN: usize = 15;
    /// `ADDERCOIL_VERTICAL_RATE_CODE`
    pub const RATE_CODE: usize = 16;
    /// `ADDERCOIL_VERTICAL_RESERVED`
    pub const RESERVED: usize = 17;
    /// `ADDERCOIL_VERTICAL_BELOW`
    pub const BELOW: usize = 18;
    /// `ADDERCOIL_VERTICAL_DIFFERENCE_CODE`
    pub const DIFFERENCE_CODE: usize = 19;
    /// `ADDERCOIL_VERTICAL_RATE_IS`
    pub const RATE_IS: usize = 24;
    /// `ADDERCOIL_VERTICAL_RATE`
    pub const RATE: usize = 25;
    /// `ADDERCOIL_VERTICAL_DIFFERENCE_IS`
    pub const DIFFERENCE_IS: usize = 26;
    /// `ADDERCOIL_VERTICAL_DIFFERENCE`
    pub const DIFFERENCE: usize = 27;
}

/// The entries `ADDERCOIL_STATUS_..`.
pub mod status {
    /// `ADDERCOIL_STATUS_SUBTYPE`
    pub const SUBTYPE: usize = 6;
    /// `ADDERCOIL_STATUS_CLASS`
    pub const CLASS: usize = 7;
    /// `ADDERCOIL_STATUS_BIT20`
    pub const BIT20: usize = 8;
    /// `ADDERCOIL_STATUS_WIDTH`
    pub const WIDTH: usize = 9;
    /// `ADDERCOIL_STATUS_MODE`
    pub const MODE: usize = 10;
    /// `ADDERCOIL_STATUS_VERSION_CODE`
    pub const VERSION_CODE: usize = 11;
    /// `ADDERCOIL_STATUS_SUPPLEMENT_A_CODE`
    pub const SUPPLEMENT_A_CODE: usize = 12;
    /// `ADDERCOIL_STATUS_NACP`
    pub const NACP: usize = 13;
    /// `ADDERCOIL_STATUS_BITS49`
    pub const BITS49: usize = 14;
    /// `ADDERCOIL_STATUS_SIL`
    pub const SIL: usize = 15;
    /// `ADDERCOIL_STATUS_BIT53`
    pub const BIT53: usize = 16;
    /// `ADDERCOIL_STATUS_BIT54`
    pub const BIT54: usize = 17;
    /// `ADDERCOIL_STATUS_BITS55`
    pub const BITS55: usize = 18;
    /// `ADDERCOIL_STATUS_VERSION_IS`
    pub const VERSION_IS: usize = 20;
    /// `ADDERCOIL_STATUS_VERSION`
    pub const VERSION: usize = 21;
    /// `ADDERCOIL_STATUS_SUPPLEMENT_A_IS`
    pub const SUPPLEMENT_A_IS: usize = 22;
    /// `ADDERCOIL_STATUS_SUPPLEMENT_A`
    pub const SUPPLEMENT_A: usize = 23;
    /// `ADDERCOIL_STATUS_SUPPLEMENT_C_IS`
    pub const SUPPLEMENT_C_IS: usize = 24;
    /// `ADDERCOIL_STATUS_SUPPLEMENT_C`
    pub const SUPPLEMENT_C: usize = 25;
}

/// The entries `ADDERCOIL_COARSE_..`.
pub mod coarse {
    /// `ADDERCOIL_COARSE_FLAG`
    pub const FLAG: usize = 5;
    /// `ADDERCOIL_COARSE_SURVEILLANCE`
    pub const SURVEILLANCE: usize = 6;
    /// `ADDERCOIL_COARSE_STATION`
    pub const STATION: usize = 7;
    /// `ADDERCOIL_COARSE_ALTITUDE_CODE`
    pub const ALTITUDE_CODE: usize = 8;
    /// `ADDERCOIL_COARSE_STATUS`
    pub const STATUS: usize = 9;
    /// `ADDERCOIL_COARSE_ANGLE_CODE`
    pub const ANGLE_CODE: usize = 10;
    /// `ADDERCOIL_COARSE_SPEED_CODE`
    pub const SPEED_CODE: usize = 11;
    /// `ADDERCOIL_COARSE_F`
    pub const F: usize = 12;
    /// `ADDERCOIL_COARSE_LATITUDE_COUNT`
    pub const LATITUDE_COUNT: usize = 13;
    /// `ADDERCOIL_COARSE_LONGITUDE_COUNT`
    pub const LONGITUDE_COUNT: usize = 14;
    /// `ADDERCOIL_COARSE_ALTITUDE_IS`
    pub const ALTITUDE_IS: usize = 20;
    /// `ADDERCOIL_COARSE_ALTITUDE`
    pub const ALTITUDE: usize = 21;
    /// `ADDERCOIL_COARSE_STEP_IS`
    pub const STEP_IS: usize = 22;
    /// `ADDERCOIL_COARSE_STEP`
    pub const STEP: usize = 23;
    /// `ADDERCOIL_COARSE_ANGLE_IS`
    pub const ANGLE_IS: usize = 24;
    /// `ADDERCOIL_COARSE_ANGLE`
    pub const ANGLE: usize = 25;
    /// `ADDERCOIL_COARSE_SPEED_IS`
    pub const SPEED_IS: usize = 26;
    /// `ADDERCOIL_COARSE_SPEED`
    pub const SPEED: usize = 27;
}
