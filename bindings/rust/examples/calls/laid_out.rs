//! What the types say, laid out as the entries of C: a message, an ME, a track. The codes of a message have a way back.

use super::fail;
use addercoil::cpr::{Counts, Format};
use addercoil::names::reading::{KNOWN, NONE, OVER, STOPPED, UNKNOWN};
use addercoil::names::track as at;
use addercoil::names::{air, airborne, coarse, ground, head, identification, integrity, layout, status, surface, vertical, FIELDS, TRACK};
use addercoil::{AirVelocity, Airborne, Coarse, GroundVelocity, Identification, Me, Message, Status, Surface, Vertical};
use addercoil::{AirspeedKind, Callsign, CoarseSpeed, Integrity, Kind, Movement, RateSource, Reading, Track, Turn};

/// A code: what it is in its entries, and the code of entries, if there is one.
trait Code: Sized {
    fn put(&self, entries: &mut [u64], at: usize);
    fn take(entries: &[u64], at: usize) -> Option<Self>;
}

macro_rules! numbers {
    ($($number:ty)*) => {$(
        impl Code for $number {
            fn put(&self, entries: &mut [u64], at: usize) {
                entries[at] = u64::from(*self);
            }
            fn take(entries: &[u64], at: usize) -> Option<Self> {
                <$number>::try_from(entries[at]).ok()
            }
        }
    )*};
}
numbers!(u8 u16 u32 u64);

impl Code for bool {
    fn put(&self, entries: &mut [u64], at: usize) {
        entries[at] = u64::from(*self);
    }
    fn take(entries: &[u64], at: usize) -> Option<Self> {
        (entries[at] < 2).then_some(entries[at] == 1)
    }
}

impl Code for Format {
    fn put(&self, entries: &mut [u64], at: usize) {
        entries[at] = u64::from(*self == Format::Odd);
    }
    fn take(entries: &[u64], at: usize) -> Option<Self> {
        [Format::Even, Format::Odd].get(usize::try_from(entries[at]).ok()?).copied()
    }
}

impl Code for Counts {
    fn put(&self, entries: &mut [u64], at: usize) {
        self.latitude.put(entries, at);
        self.longitude.put(entries, at + 1);
    }
    fn take(entries: &[u64], at: usize) -> Option<Self> {
        Some(Counts { latitude: Code::take(entries, at)?, longitude: Code::take(entries, at + 1)? })
    }
}

impl Code for Vertical {
    fn put(&self, entries: &mut [u64], _: usize) {
        self.source.put(entries, vertical::SOURCE);
        self.down.put(entries, vertical::DOWN);
        self.rate_code.put(entries, vertical::RATE_CODE);
        self.reserved.put(entries, vertical::RESERVED);
        self.below.put(entries, vertical::BELOW);
        self.difference_code.put(entries, vertical::DIFFERENCE_CODE);
        self.rate.tell(entries, vertical::RATE_IS);
        self.difference.tell(entries, vertical::DIFFERENCE_IS);
    }
    fn take(entries: &[u64], _: usize) -> Option<Self> {
        Some(Vertical {
            source: Code::take(entries, vertical::SOURCE)?,
            down: Code::take(entries, vertical::DOWN)?,
            rate_code: Code::take(entries, vertical::RATE_CODE)?,
            reserved: Code::take(entries, vertical::RESERVED)?,
            below: Code::take(entries, vertical::BELOW)?,
            difference_code: Code::take(entries, vertical::DIFFERENCE_CODE)?,
            ..Vertical::default()
        })
    }
}

/// What a value is in one entry.
trait Value: Copy {
    fn entry(self) -> u64;
}

macro_rules! values {
    ($($value:ty, $of:ident -> $entry:expr;)*) => {$(
        impl Value for $value {
            fn entry(self) -> u64 {
                let $of = self;
                $entry
            }
        }
    )*};
}
values! {
    i32, number -> i64::from(number) as u64;
    u32, number -> u64::from(number);
    u8, number -> u64::from(number);
    bool, is -> u64::from(is);
    char, letter -> u64::from(u32::from(letter));
    Turn, turn -> u64::from(turn.0);
    Callsign, text -> u64::from_be_bytes(*text.bytes());
    AirspeedKind, kind -> u64::from(kind == AirspeedKind::True);
    RateSource, source -> u64::from(source == RateSource::Barometric);
}

/// A reading: what it is, and its value.
trait Told {
    fn told(&self) -> (u64, u64);

    fn tell(&self, entries: &mut [u64], is: usize) {
        let (what, value) = self.told();
        entries[is] = what;
        entries[is + 1] = value;
    }
}

impl<T: Value> Told for Option<T> {
    fn told(&self) -> (u64, u64) {
        self.map_or((UNKNOWN, 0), |value| (KNOWN, value.entry()))
    }
}

/// One that is always known.
impl Told for bool {
    fn told(&self) -> (u64, u64) {
        (KNOWN, self.entry())
    }
}

impl<T: Value> Told for Reading<T> {
    fn told(&self) -> (u64, u64) {
        match self {
            Reading::Known(value) => (KNOWN, value.entry()),
            Reading::Over => (OVER, 0),
            Reading::Unknown => (UNKNOWN, 0),
        }
    }
}

impl Told for Movement {
    fn told(&self) -> (u64, u64) {
        match self {
            Movement::Unknown => (UNKNOWN, 0),
            Movement::Stopped => (STOPPED, 0),
            Movement::From(least) => (KNOWN, u64::from(*least)),
            Movement::Over(least) => (OVER, u64::from(*least)),
            Movement::Reserved => (NONE, 0),
        }
    }
}

impl Told for CoarseSpeed {
    fn told(&self) -> (u64, u64) {
        match self {
            CoarseSpeed::Unknown => (UNKNOWN, 0),
            CoarseSpeed::From(least) => (KNOWN, u64::from(*least)),
            CoarseSpeed::Over(least) => (OVER, u64::from(*least)),
        }
    }
}

/// The codes and the readings of each layout, with their entries.
macro_rules! bodies {
    ($($case:ident = $layout:expr; $($code:ident $at:expr,)* => $($reading:ident $is:expr,)*;)*) => {
        fn plain_row(me: &Me) -> [u64; FIELDS] {
            let mut entries = [0; FIELDS];
            match me {
                $(Me::$case(body) => {
                    entries[head::LAYOUT] = $layout;
                    $(body.$code.put(&mut entries, $at);)*
                    $(body.$reading.tell(&mut entries, $is);)*
                })*
                _ => fail("a layout that is new"),
            }
            entries
        }

        /// The ME whose codes these entries are, if they fit.
        pub(super) fn me_of(entries: &[u64; FIELDS]) -> Option<Me> {
            $(if entries[head::LAYOUT] == $layout {
                return Some(Me::$case($case { $($code: Code::take(entries, $at)?,)* ..$case::default() }));
            })*
            None
        }
    };
}

bodies! {
    Identification = layout::IDENTIFICATION;
    type_code head::TYPECODE, category identification::CATEGORY, characters identification::CHARACTERS,
    => set identification::SET_IS, callsign identification::TEXT_IS,;
    Surface = layout::SURFACE;
    type_code head::TYPECODE, movement_code surface::MOVEMENT_CODE, status surface::STATUS, heading_code surface::HEADING_CODE,
    utc surface::T, format surface::F, counts surface::LATITUDE_COUNT,
    => movement surface::SPEED_IS, turn surface::TURN_IS,;
    Airborne = layout::AIRBORNE;
    type_code head::TYPECODE, surveillance airborne::SURVEILLANCE, bit8 airborne::BIT8, altitude_code airborne::ALTITUDE_CODE,
    utc airborne::T, format airborne::F, counts airborne::LATITUDE_COUNT,
    => altitude airborne::ALTITUDE_IS, gnss airborne::GNSS_IS, step airborne::STEP_IS,;
    GroundVelocity = layout::GROUND;
    type_code head::TYPECODE, subtype ground::SUBTYPE, bit9 ground::BIT9, bit10 ground::BIT10, nacv ground::NACV, west ground::WEST,
    eastward_code ground::EASTWARD_CODE, south ground::SOUTH, northward_code ground::NORTHWARD_CODE, vertical 0,
    => east ground::EAST_IS, north ground::NORTH_IS,;
    AirVelocity = layout::AIR;
    type_code head::TYPECODE, subtype air::SUBTYPE, bit9 air::BIT9, bit10 air::BIT10, nacv air::NACV, status air::STATUS,
    heading_code air::HEADING_CODE, is_true air::AIRSPEED_KIND, airspeed_code air::AIRSPEED_CODE, vertical 0,
    => turn air::TURN_IS, airspeed air::SPEED_IS,;
    Status = layout::STATUS;
    type_code head::TYPECODE, subtype status::SUBTYPE, class status::CLASS, bit20 status::BIT20, width status::WIDTH, mode status::MODE,
    version_code status::VERSION_CODE, supplement_a_code status::SUPPLEMENT_A_CODE, nacp status::NACP, bits49 status::BITS49,
    sil status::SIL, bit53 status::BIT53, bit54 status::BIT54, bits55 status::BITS55,
    => version status::VERSION_IS, supplement_a status::SUPPLEMENT_A_IS, supplement_c status::SUPPLEMENT_C_IS,;
    Coarse = layout::COARSE;
    flag coarse::FLAG, surveillance coarse::SURVEILLANCE, station coarse::STATION, altitude_code coarse::ALTITUDE_CODE,
    status coarse::STATUS, angle_code coarse::ANGLE_CODE, speed_code coarse::SPEED_CODE, format coarse::F, counts coarse::LATITUDE_COUNT,
    => altitude coarse::ALTITUDE_IS, step coarse::STEP_IS, angle coarse::ANGLE_IS, speed coarse::SPEED_IS,;
}

/// The entries of an ME, without those before it. No version of a status is a reserved one.
pub(super) fn row_of(me: &Me) -> [u64; FIELDS] {
    let mut entries = plain_row(me);
    if matches!(me, Me::Status(body) if body.version.is_none()) {
        entries[status::VERSION_IS] = NONE;
    }
    entries
}

/// The entries of a message.
pub(super) fn entries_of(message: &Message) -> [u64; FIELDS] {
    let mut entries = row_of(&message.me);
    entries[head::DF] = u64::from(message.df);
    entries[head::CA] = u64::from(message.capability);
    entries[head::AA] = u64::from(message.address);
    entries[head::KEY] = u64::from(message.key.number());
    entries
}

/// The entries of a track as its methods tell them; the rest, codes and directions that are not valid, as they are.
pub(super) fn track_row(track: &Track) -> [u64; TRACK] {
    let mut row = *track.entries();
    row[at::HELD] = 1;
    row[at::HEARD] = track.heard();
    track.callsign().tell(&mut row, at::CALLSIGN_IS);
    track.category().map(|one| one.set).tell(&mut row, at::CATEGORY_SET_IS);
    track.category().map(|one| one.number).tell(&mut row, at::CATEGORY_IS);
    positions(track, &mut row);
    track.on_ground().tell(&mut row, at::ON_GROUND_IS);
    track.altitude().tell(&mut row, at::ALTITUDE_IS);
    track.altitude_step().tell(&mut row, at::ALTITUDE_STEP_IS);
    track.gnss_height().tell(&mut row, at::GNSS_HEIGHT_IS);
    track.gnss_height_step().tell(&mut row, at::GNSS_HEIGHT_STEP_IS);
    track.east().tell(&mut row, at::EAST_IS);
    track.north().tell(&mut row, at::NORTH_IS);
    track.airspeed().tell(&mut row, at::AIRSPEED_IS);
    track.airspeed_kind().tell(&mut row, at::AIRSPEED_KIND_IS);
    track.rate().tell(&mut row, at::RATE_IS);
    track.rate_source().tell(&mut row, at::RATE_SOURCE_IS);
    track.movement().tell(&mut row, at::MOVEMENT_IS);
    track.coarse_speed().tell(&mut row, at::SPEED_IS);
    row[at::VERSION] = u64::from(track.version());
    for (entry, supplement) in [at::SUPPLEMENT_A, at::SUPPLEMENT_B, at::SUPPLEMENT_C].into_iter().zip(track.supplements()) {
        row[entry] = u64::from(supplement);
    }
    let (sort, number) = match track.integrity() {
        Some(Integrity::Nuc(number)) => (integrity::NUC, number),
        Some(Integrity::Nic(number)) => (integrity::NIC, number),
        None => (integrity::UNKNOWN, 0),
    };
    row[at::INTEGRITY_IS] = sort;
    row[at::INTEGRITY] = u64::from(number);
    directions(track);
    bodies_of(track);
    row
}

fn positions(track: &Track, row: &mut [u64; TRACK]) {
    let said = track.position().map_or([0; 4], |one| [1, one.spot.latitude as i64 as u64, u64::from(one.spot.longitude), one.time]);
    row[at::POSITION_KNOWN..=at::POSITION_TIME].copy_from_slice(&said);
    for (format, first) in [(Format::Even, at::EVEN_KNOWN), (Format::Odd, at::ODD_KNOWN)] {
        let counts = |one: addercoil::Encoded| [1, u64::from(one.counts.latitude), u64::from(one.counts.longitude), one.time];
        row[first..first + 4].copy_from_slice(&track.encoded(format).map_or([0; 4], counts));
    }
    if track.degrees() != track.position().and_then(|one| one.spot.degrees().ok()) {
        fail("a position in degrees");
    }
}

/// Each direction is there just if its status is 1.
fn directions(track: &Track) {
    let entries = track.entries();
    for (found, is, status) in [
        (track.heading(), at::HEADING_IS, at::HEADING_STATUS_IS),
        (track.surface_heading(), at::SURFACE_HEADING_IS, at::SURFACE_STATUS_IS),
        (track.angle(), at::ANGLE_IS, at::ANGLE_STATUS_IS),
    ] {
        let due = (entries[is], entries[status], entries[status + 1]) == (KNOWN, KNOWN, 1);
        if found.map(|turn| u64::from(turn.0)) != due.then_some(entries[is + 1]) {
            fail(&format!("a direction of {:?}", track));
        }
    }
}

/// What each ME of a track says is what the library says of it, and there is none if none was heard.
fn bodies_of(track: &Track) {
    let entries = track.entries();
    let is_coarse = track.key().kind() == Kind::C;
    for (found, entry) in [
        (track.last_identification(), at::IDENTIFICATION),
        (track.last_velocity(), at::VELOCITY),
        (track.last_surface(), at::SURFACE),
        (track.last_status(), at::STATUS),
    ] {
        let mut row = [0; FIELDS];
        let is_there = if is_coarse { entry == at::VELOCITY } else { entries[entry] != 0 };
        let answer = addercoil::calls::me(entries[entry], track.key().number(), &mut row);
        if found.map(|me| row_of(&me)) != (is_there && answer.is_ok()).then_some(row) {
            fail(&format!("an ME of {:?}", track));
        }
    }
}
