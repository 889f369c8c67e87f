//! Messages, positions, keys and refusals.

use addercoil::cpr::{self, Counts, Format, Place};
use addercoil::names::{FIELDS, VERSION};
use addercoil::*;

#[test]
fn the_version_is_that_of_the_header_and_of_the_crate() {
    assert_eq!(version(), VERSION);
    assert_eq!(env!("CARGO_PKG_VERSION"), format!("{}.{}.{}", VERSION / 10_000, VERSION / 100 % 100, VERSION % 100));
}

#[test]
fn a_velocity_is_read() {
    let message = from_hex("8D485020994409940838175B284F").unwrap();
    let found = decode(&message).unwrap();
    assert_eq!((found.df, found.capability, found.address, found.key), (17, 5, 0x485020, Key::new(Kind::I, 0x485020).unwrap()));
    assert_eq!(key_of(&message), Ok(found.key));
    match found.me {
        Me::GroundVelocity(velocity) => {
            assert_eq!((velocity.east, velocity.north), (Reading::Known(-8), Reading::Known(-159)));
            assert_eq!((velocity.vertical.rate, velocity.vertical.difference), (Reading::Known(-832), Reading::Known(550)));
        }
        other => panic!("{:?}", other),
    }
    assert_eq!(found.encode(), Ok(message));
}

#[test]
fn a_code_wider_than_its_bits_is_refused() {
    let body = Identification { type_code: 4, characters: 0x2CC371C32CE0, ..Identification::default() };
    let message = encode(17, 5, 0x4840D6, &Me::Identification(body)).unwrap();
    assert_eq!(message, from_hex("8D4840D6202CC371C32CE0576098").unwrap());
    for wrong in
        [Identification { category: 8, ..body }, Identification { characters: 1 << 48, ..body }, Identification { type_code: 5, ..body }]
    {
        assert_eq!(encode(17, 5, 0x4840D6, &Me::Identification(wrong)), Err(Refusal::Field));
    }
    assert_eq!(encode(17, 8, 0x4840D6, &Me::Identification(body)), Err(Refusal::Field));
    assert_eq!(encode(17, 5, 1 << 24, &Me::Identification(body)), Err(Refusal::Field));
    assert_eq!(encode(19, 5, 1, &Me::Identification(body)), Err(Refusal::Field));
    assert_eq!(read_me(1 << 56, Key::new(Kind::I, 1).unwrap()), Err(Refusal::Field));
}

#[test]
fn hex_is_28_digits() {
    assert_eq!(from_hex("8d4840d6202cc371c32ce0576098"), from_hex("8D4840D6202CC371C32CE0576098"));
    for wrong in [
        "",
        "8D",
        "8D4840D6202CC371C32CE057609",
        "8D4840D6202CC371C32CE0576098 ",
        "8D4840D6202CC371C32CE057609G",
        "+D4840D6202CC371C32CE0576098",
    ] {
        assert_eq!(from_hex(wrong), Err(Refusal::Length), "{}", wrong);
    }
    assert_eq!(from_hex("8D4840D6202CC371C32CE057609\u{e9}"), Err(Refusal::Length));
}

#[test]
fn positions_come_back() {
    let spot = Degrees { latitude: 52.31, longitude: -4.76 }.nearest().unwrap();
    let degrees = spot.degrees().unwrap();
    assert_eq!(degrees.exact(), Ok(spot));
    assert!((degrees.latitude - 52.31).abs() < 1e-7 && (degrees.longitude + 4.76).abs() < 1e-7);
    let even = cpr::encode(spot, Place::Airborne, Format::Even).unwrap();
    let odd = cpr::encode(spot, Place::Airborne, Format::Odd).unwrap();
    let found = cpr::pair(even, odd, Format::Odd).unwrap();
    assert_eq!(cpr::single(spot, odd, Place::Airborne, Format::Odd), Ok(found));
    assert!((found.latitude - spot.latitude).abs() < 1 << 10);
    let wide = Counts { latitude: 1 << 17, longitude: 0 };
    assert_eq!(cpr::pair(wide, odd, Format::Odd), Err(Refusal::Field));
    assert_eq!(cpr::pair_coarse(even, odd, Format::Odd), Err(Refusal::Field));
    assert_eq!(Spot { latitude: (1 << 30) + 1, longitude: 0 }.degrees(), Err(Refusal::Field));
}

#[test]
fn degrees_as_people_type_them() {
    let nearest = |latitude, longitude| Degrees { latitude, longitude }.nearest();
    assert_eq!(nearest(90.0, 360.0), Ok(Spot { latitude: 1 << 30, longitude: 0 }));
    assert_eq!(nearest(-90.0, -180.0), Ok(Spot { latitude: -(1 << 30), longitude: 1 << 31 }));
    assert_eq!(nearest(-0.0, 180.0), Ok(Spot { latitude: 0, longitude: 1 << 31 }));
    for (latitude, longitude) in [(90.1, 0.0), (-90.1, 0.0), (0.0, 360.1), (0.0, -180.1), (f64::NAN, 0.0), (0.0, f64::INFINITY)] {
        assert_eq!(nearest(latitude, longitude), Err(Refusal::Field));
        assert_eq!(Degrees { latitude, longitude }.exact(), Err(Refusal::Degrees));
    }
    assert_eq!(Degrees { latitude: 0.1, longitude: 0.0 }.exact(), Err(Refusal::Degrees));
}

/// As the easy header of C computes it: the sum of the greatest double below a half and a half is 1.
#[test]
fn the_double_below_half_a_unit_goes_up() {
    let half = 180.0 / 4_294_967_296.0_f64;
    let below = |steps: u64| f64::from_bits(half.to_bits() - steps);
    let nearest = |latitude: f64| Degrees { latitude, longitude: 0.0 }.nearest().unwrap().latitude;
    assert_eq!([half, below(1), below(4), -half, -below(1), -below(4)].map(nearest), [1, 1, 0, -1, -1, 0]);
}

#[test]
fn a_callsign_is_spaces_by_default() {
    assert_eq!((Callsign::default().as_str(), Callsign::default().bytes()), ("", b"        "));
}

#[test]
fn what_is_printed_has_the_width_asked_for() {
    let (fine, coarse) = (Key::new(Kind::M, 0xABCDEF).unwrap(), Key::coarse(0xABCDEF, true, 15).unwrap());
    assert_eq!(format!("{:>10}|{:<15}|{:?}", fine, coarse, fine), "  M ABCDEF|C ABCDEF 1 15  |Key(M ABCDEF)");
    let (usual, widest) = (Category { set: 'A', number: 3 }, Category { set: '\u{10FFFF}', number: u8::MAX });
    assert_eq!(format!("{:>4}|{:<5}|{}", usual, usual, widest), "  A3|A3   |\u{10FFFF}255");
}

#[test]
fn the_source_of_an_altitude_is_always_known() {
    for (type_code, gnss) in [(0, false), (9, false), (18, false), (20, true), (22, true)] {
        let message = encode(17, 5, 1, &Me::Airborne(Airborne { type_code, ..Airborne::default() })).unwrap();
        assert!(matches!(decode(&message).unwrap().me, Me::Airborne(body) if body.gnss == gnss), "{}", type_code);
    }
}

#[test]
fn keys_are_what_there_can_be() {
    let fine = Key::new(Kind::M, 0xABCDEF).unwrap();
    assert_eq!((fine.number(), fine.kind(), fine.address(), fine.flag(), fine.station()), (0x04AB_CDEF, Kind::M, 0xABCDEF, None, None));
    let coarse = Key::coarse(0xABCDEF, true, 15).unwrap();
    assert_eq!((coarse.number(), coarse.kind(), coarse.address()), (1 << 31 | 0xABCDEF << 5 | 31, Kind::C, 0xABCDEF));
    assert_eq!((coarse.flag(), coarse.station(), coarse.to_string()), (Some(true), Some(15), "C ABCDEF 1 15".to_string()));
    assert!(fine < coarse);
    assert_eq!(Key::new(Kind::C, 1), Err(Refusal::Field));
    assert_eq!(Key::new(Kind::I, 1 << 24), Err(Refusal::Field));
    assert_eq!(Key::coarse(1, false, 16), Err(Refusal::Field));
    for (number, is_key) in
        [(0, false), (0xFF_FFFF, false), (1 << 24, true), (0x05FF_FFFF, true), (0x0600_0000, false), (0x7FFF_FFFF, false)]
    {
        assert_eq!(Key::try_from(number).is_ok(), is_key, "{:x}", number);
    }
    for (number, is_key) in [(1 << 31, true), (0x9FFF_FFFF, true), (0xA000_0000, false), (u32::MAX, false)] {
        assert_eq!(Key::try_from(number).map(u32::from), if is_key { Ok(number) } else { Err(Refusal::Field) });
    }
}

#[test]
fn a_refusal_has_its_number_and_words() {
    let numbers: Vec<u32> = (0..100).filter_map(Refusal::from_number).map(Refusal::number).collect();
    assert_eq!(numbers, [1, 2, 3, 4, 5, 6, 7, 8, 9, 10, 12, 13, 14, 15, 16]);
    assert_eq!(Refusal::Full.to_string(), "a new aircraft, and no place is free");
}

#[cfg(feature = "std")]
#[test]
fn a_refusal_is_an_error() {
    let boxed: Box<dyn std::error::Error> = decode(&[]).unwrap_err().into();
    assert_eq!(boxed.to_string(), Refusal::Length.words());
}

#[test]
fn calls_take_any_length() {
    for length in [0, 1, 13, 15, 500] {
        let (message, mut fields) = (vec![0; length], vec![7; FIELDS]);
        assert_eq!(calls::decode(&message, &mut fields), Err(Refusal::Length));
        assert_eq!(calls::decode(&[0; 14], &mut vec![7; length]), Err(Refusal::Length));
        assert_eq!(calls::encode(&vec![0; length], &mut [0; 14]), Err(Refusal::Length));
        assert_eq!(calls::clock(&vec![0; length], &mut []), Err(Refusal::Length));
        assert_eq!(fields, [7; FIELDS]);
    }
}
