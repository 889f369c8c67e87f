//! What one message says: its codes as they were sent, and what they mean.

use crate::cpr::{Counts, Format};
use crate::names::{air, airborne, coarse, ground, head, identification, layout, status, surface, vertical, FIELDS, MESSAGE};
use crate::values::Read;
use crate::{calls, Callsign, CoarseSpeed, Key, Movement, Reading, Refusal, Turn};

type Entries = [u64; FIELDS];

/// A code of a message: one entry, or some.
trait Code {
    fn get(entries: &Entries, at: usize) -> Self;
    fn put(&self, entries: &mut Entries, at: usize);
}

macro_rules! numbers {
    ($($number:ty)*) => {$(
        impl Code for $number {
            fn get(entries: &Entries, at: usize) -> Self {
                entries[at] as $number
            }
            fn put(&self, entries: &mut Entries, at: usize) {
                entries[at] = u64::from(*self);
            }
        }
    )*};
}
numbers!(u8 u16 u64);

impl Code for bool {
    fn get(entries: &Entries, at: usize) -> Self {
        entries[at] != 0
    }
    fn put(&self, entries: &mut Entries, at: usize) {
        entries[at] = u64::from(*self);
    }
}

impl Code for Format {
    fn get(entries: &Entries, at: usize) -> Self {
        if entries[at] == 0 {
            Format::Even
        } else {
            Format::Odd
        }
    }
    fn put(&self, entries: &mut Entries, at: usize) {
        entries[at] = *self as u64;
    }
}

impl Code for Counts {
    fn get(entries: &Entries, at: usize) -> Self {
        Counts { latitude: entries[at] as u32, longitude: entries[at + 1] as u32 }
    }
    fn put(&self, entries: &mut Entries, at: usize) {
        entries[at] = u64::from(self.latitude);
        entries[at + 1] = u64::from(self.longitude);
    }
}

/// The end of a velocity: codes and readings of its own.
impl Code for Vertical {
    fn get(entries: &Entries, _: usize) -> Self {
        Vertical::of(entries)
    }
    fn put(&self, entries: &mut Entries, _: usize) {
        self.put_codes(entries);
    }
}

/// A struct of a layout: behind each code its entry, then behind each reading that of what it is.
macro_rules! layouts {
    ($($(#[$said:meta])* $name:ident {
        $($(#[$code_said:meta])* $code:ident: $kind:ty = $at:expr,)*
        -> $($(#[$reading_said:meta])* $reading:ident: $value:ty = $is:expr,)*
    })*) => {$(
        $(#[$said])*
        ///
        /// The first of these are codes, which [`encode`] reads; the last say what the codes mean, and it does not read them.
        #[derive(Clone, Copy, Debug, Default, PartialEq)]
        pub struct $name {
            $($(#[$code_said])* pub $code: $kind,)*
            $($(#[$reading_said])* pub $reading: $value,)*
        }

        impl $name {
            fn of(entries: &Entries) -> Self {
                $name {
                    $($code: <$kind>::get(entries, $at),)*
                    $($reading: <$value>::read(entries[$is], entries[$is + 1]),)*
                }
            }
            fn put_codes(&self, entries: &mut Entries) {
                $(self.$code.put(entries, $at);)*
            }
        }
    )*};
}

layouts! {
    /// Who an aircraft is, TYPE 1-4.
    Identification {
        /// TYPE.
        type_code: u8 = head::TYPECODE,
        /// 3 bits: the category in its set.
        category: u8 = identification::CATEGORY,
        /// 48 bits: eight characters of 6.
        characters: u64 = identification::CHARACTERS,
        ->
        /// The set of the category, A to D.
        set: Option<char> = identification::SET_IS,
        /// The characters as text.
        callsign: Option<Callsign> = identification::TEXT_IS,
    }

    /// A position on the ground, TYPE 5-8.
    Surface {
        /// TYPE.
        type_code: u8 = head::TYPECODE,
        /// 7 bits.
        movement_code: u8 = surface::MOVEMENT_CODE,
        /// Whether the heading is valid.
        status: bool = surface::STATUS,
        /// 7 bits: 128ths of a turn.
        heading_code: u8 = surface::HEADING_CODE,
        /// Whether its time is tied to UTC; what a ground station tells has the flag of the address here.
        utc: bool = surface::T,
        /// Even or odd.
        format: Format = surface::F,
        /// Where it is.
        counts: Counts = surface::LATITUDE_COUNT,
        ->
        /// How it moves.
        movement: Movement = surface::SPEED_IS,
        /// The heading, whatever the status says.
        turn: Option<Turn> = surface::TURN_IS,
    }

    /// A position in the air, TYPE 9-18 and 20-22. TYPE 0 has an altitude alone: its format and counts mean nothing.
    Airborne {
        /// TYPE.
        type_code: u8 = head::TYPECODE,
        /// 2 bits.
        surveillance: u8 = airborne::SURVEILLANCE,
        /// Supplement B in version 2; what a ground station tells has the flag of the address here.
        bit8: bool = airborne::BIT8,
        /// 12 bits.
        altitude_code: u16 = airborne::ALTITUDE_CODE,
        /// Whether its time is tied to UTC.
        utc: bool = airborne::T,
        /// Even or odd.
        format: Format = airborne::F,
        /// Where it is.
        counts: Counts = airborne::LATITUDE_COUNT,
        ->
        /// In feet.
        altitude: Option<i32> = airborne::ALTITUDE_IS,
        /// Whether that is a GNSS height, and not by pressure.
        gnss: bool = airborne::GNSS_IS,
        /// How coarse the altitude is, in feet: 25 or 100.
        step: Option<u32> = airborne::STEP_IS,
    }

    /// A velocity over ground, TYPE 19, subtypes 1 and 2.
    GroundVelocity {
        /// TYPE.
        type_code: u8 = head::TYPECODE,
        /// 3 bits: 1, or 2 for speeds in 4 knots.
        subtype: u8 = ground::SUBTYPE,
        /// What a ground station tells has the flag of the address here.
        bit9: bool = ground::BIT9,
        /// What a ground station tells has the first bit of NACp here.
        bit10: bool = ground::BIT10,
        /// 3 bits.
        nacv: u8 = ground::NACV,
        /// Whether the next is to the west.
        west: bool = ground::WEST,
        /// 10 bits.
        eastward_code: u16 = ground::EASTWARD_CODE,
        /// Whether the next is to the south.
        south: bool = ground::SOUTH,
        /// 10 bits.
        northward_code: u16 = ground::NORTHWARD_CODE,
        /// How it climbs.
        vertical: Vertical = 0,
        ->
        /// To the east, in knots; west is below zero.
        east: Reading<i32> = ground::EAST_IS,
        /// To the north, in knots; south is below zero.
        north: Reading<i32> = ground::NORTH_IS,
    }

    /// A velocity through air, TYPE 19, subtypes 3 and 4.
    AirVelocity {
        /// TYPE.
        type_code: u8 = head::TYPECODE,
        /// 3 bits: 3, or 4 for a speed in 4 knots.
        subtype: u8 = air::SUBTYPE,
        /// What a ground station tells has the flag of the address here.
        bit9: bool = air::BIT9,
        /// What a ground station tells has the first bit of NACp here.
        bit10: bool = air::BIT10,
        /// 3 bits.
        nacv: u8 = air::NACV,
        /// Whether the heading is valid.
        status: bool = air::STATUS,
        /// 10 bits: 1,024ths of a turn.
        heading_code: u16 = air::HEADING_CODE,
        /// Whether the airspeed is true, and not indicated.
        is_true: bool = air::AIRSPEED_KIND,
        /// 10 bits.
        airspeed_code: u16 = air::AIRSPEED_CODE,
        /// How it climbs.
        vertical: Vertical = 0,
        ->
        /// The heading, whatever the status says.
        turn: Option<Turn> = air::TURN_IS,
        /// In knots.
        airspeed: Reading<u32> = air::SPEED_IS,
    }

    /// How an aircraft climbs, at the end of either velocity.
    Vertical {
        /// 0 geometric, 1 barometric; what a ground station tells has the GEO flag here.
        source: bool = vertical::SOURCE,
        /// Whether the rate is downwards.
        down: bool = vertical::DOWN,
        /// 9 bits.
        rate_code: u16 = vertical::RATE_CODE,
        /// 2 bits.
        reserved: u8 = vertical::RESERVED,
        /// Whether the GNSS height is below the pressure altitude.
        below: bool = vertical::BELOW,
        /// 7 bits.
        difference_code: u8 = vertical::DIFFERENCE_CODE,
        ->
        /// In feet per minute; down is below zero.
        rate: Reading<i32> = vertical::RATE_IS,
        /// GNSS height less pressure altitude, in feet.
        difference: Reading<i32> = vertical::DIFFERENCE_IS,
    }

    /// The operational status, TYPE 31.
    Status {
        /// TYPE.
        type_code: u8 = head::TYPECODE,
        /// 3 bits: 0 in the air, 1 on the surface.
        subtype: u8 = status::SUBTYPE,
        /// 11 bits: capability class.
        class: u16 = status::CLASS,
        /// On the surface supplement C.
        bit20: bool = status::BIT20,
        /// 4 bits: on the surface length and width.
        width: u8 = status::WIDTH,
        /// 16 bits: operational mode.
        mode: u16 = status::MODE,
        /// 3 bits.
        version_code: u8 = status::VERSION_CODE,
        /// Supplement A.
        supplement_a_code: bool = status::SUPPLEMENT_A_CODE,
        /// 4 bits.
        nacp: u8 = status::NACP,
        /// 2 bits.
        bits49: u8 = status::BITS49,
        /// 2 bits.
        sil: u8 = status::SIL,
        /// One bit.
        bit53: bool = status::BIT53,
        /// One bit.
        bit54: bool = status::BIT54,
        /// 2 bits.
        bits55: u8 = status::BITS55,
        ->
        /// The version of the standard, 0 to 2; none if the code is reserved.
        version: Option<u8> = status::VERSION_IS,
        /// Known in versions 1 and 2.
        supplement_a: Option<bool> = status::SUPPLEMENT_A_IS,
        /// Known in version 2.
        supplement_c: Option<bool> = status::SUPPLEMENT_C_IS,
    }

    /// What a ground station tells coarsely, in one message.
    Coarse {
        /// Whether the address is a Mode A code with a track number.
        flag: bool = coarse::FLAG,
        /// 2 bits.
        surveillance: u8 = coarse::SURVEILLANCE,
        /// 4 bits: which station sends it.
        station: u8 = coarse::STATION,
        /// 12 bits.
        altitude_code: u16 = coarse::ALTITUDE_CODE,
        /// Whether the angle is valid.
        status: bool = coarse::STATUS,
        /// 5 bits: 32nds of a turn.
        angle_code: u8 = coarse::ANGLE_CODE,
        /// 6 bits.
        speed_code: u8 = coarse::SPEED_CODE,
        /// Even or odd.
        format: Format = coarse::F,
        /// Where it is, 12 bits each.
        counts: Counts = coarse::LATITUDE_COUNT,
        ->
        /// By pressure, in feet.
        altitude: Option<i32> = coarse::ALTITUDE_IS,
        /// How coarse the altitude is, in feet: 25 or 100.
        step: Option<u32> = coarse::STEP_IS,
        /// Where it goes, whatever the status says.
        angle: Option<Turn> = coarse::ANGLE_IS,
        /// Over ground.
        speed: CoarseSpeed = coarse::SPEED_IS,
    }
}

/// The body of a message, by its layout.
#[derive(Clone, Copy, Debug, PartialEq)]
#[non_exhaustive]
pub enum Me {
    /// Who it is.
    Identification(Identification),
    /// Where it is on the ground.
    Surface(Surface),
    /// Where it is in the air.
    Airborne(Airborne),
    /// How it moves over ground.
    GroundVelocity(GroundVelocity),
    /// How it moves through air.
    AirVelocity(AirVelocity),
    /// What it is built to.
    Status(Status),
    /// What a ground station tells coarsely.
    Coarse(Coarse),
}

impl Me {
    fn of(entries: &Entries) -> Me {
        match entries[head::LAYOUT] {
            layout::IDENTIFICATION => Me::Identification(Identification::of(entries)),
            layout::SURFACE => Me::Surface(Surface::of(entries)),
            layout::AIRBORNE => Me::Airborne(Airborne::of(entries)),
            layout::GROUND => Me::GroundVelocity(GroundVelocity::of(entries)),
            layout::AIR => Me::AirVelocity(AirVelocity::of(entries)),
            layout::STATUS => Me::Status(Status::of(entries)),
            _ => Me::Coarse(Coarse::of(entries)),
        }
    }

    fn put(&self, entries: &mut Entries) {
        let (number, ()) = match self {
            Me::Identification(body) => (layout::IDENTIFICATION, body.put_codes(entries)),
            Me::Surface(body) => (layout::SURFACE, body.put_codes(entries)),
            Me::Airborne(body) => (layout::AIRBORNE, body.put_codes(entries)),
            Me::GroundVelocity(body) => (layout::GROUND, body.put_codes(entries)),
            Me::AirVelocity(body) => (layout::AIR, body.put_codes(entries)),
            Me::Status(body) => (layout::STATUS, body.put_codes(entries)),
            Me::Coarse(body) => (layout::COARSE, body.put_codes(entries)),
        };
        entries[head::LAYOUT] = number;
    }
}

/// A message that was decoded.
#[derive(Clone, Copy, Debug, PartialEq)]
pub struct Message {
    /// The downlink format: 17, what transponders send, or 18.
    pub df: u8,
    /// 3 bits: CA of DF 17; CF of DF 18.
    pub capability: u8,
    /// 24 bits.
    pub address: u32,
    /// Whose message it is.
    pub key: Key,
    /// What it says.
    pub me: Me,
}

impl Message {
    /// The 14 bytes again.
    pub fn encode(&self) -> Result<[u8; MESSAGE], Refusal> {
        encode(self.df, self.capability, self.address, &self.me)
    }
}

/// What a message of 14 bytes says. Or [`Refusal::Length`], [`Refusal::Parity`], [`Refusal::Format`], [`Refusal::Type`].
pub fn decode(message: &[u8]) -> Result<Message, Refusal> {
    let mut entries = [0; FIELDS];
    calls::decode(message, &mut entries)?;
    Ok(Message {
        df: entries[head::DF] as u8,
        capability: entries[head::CA] as u8,
        address: entries[head::AA] as u32,
        key: Key::of(entries[head::KEY]),
        me: Me::of(&entries),
    })
}

/// The message that says these codes, its parity included. Or [`Refusal::Field`], for a code wider than its bits and for what [`decode`]
/// would refuse.
pub fn encode(df: u8, capability: u8, address: u32, me: &Me) -> Result<[u8; MESSAGE], Refusal> {
    let (mut entries, mut message) = ([0; FIELDS], [0; MESSAGE]);
    me.put(&mut entries);
    entries[head::DF] = u64::from(df);
    entries[head::CA] = u64::from(capability);
    entries[head::AA] = u64::from(address);
    calls::encode(&entries, &mut message)?;
    Ok(message)
}

/// What the 56 bits of an ME say, as a track keeps them, with the key of the track. Or [`Refusal::Field`] for more than 56 bits,
/// [`Refusal::Type`].
pub fn read_me(me: u64, key: Key) -> Result<Me, Refusal> {
    let mut entries = [0; FIELDS];
    calls::me(me, key.number(), &mut entries)?;
    Ok(Me::of(&entries))
}

/// The 14 bytes of a message in 28 hex digits. Or [`Refusal::Length`], for any other text.
pub fn from_hex(text: &str) -> Result<[u8; MESSAGE], Refusal> {
    let mut made = [0; MESSAGE];
    if text.len() != 2 * MESSAGE {
        return Err(Refusal::Length);
    }
    for (byte, digits) in made.iter_mut().zip(text.as_bytes().chunks(2)) {
        for digit in digits {
            *byte = *byte << 4 | char::from(*digit).to_digit(16).ok_or(Refusal::Length)? as u8;
        }
    }
    Ok(made)
}
