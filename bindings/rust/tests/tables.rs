//! Tables, listings, replays and checks, and misuse: wrong lengths, empty slices, tables that are shared.

use addercoil::names::{BLOCK, LINE, RECORD, RECORDS};
use addercoil::*;

const KLM: [u8; 14] = [0x8D, 0x48, 0x40, 0xD6, 0x20, 0x2C, 0xC3, 0x71, 0xC3, 0x2C, 0xE0, 0x57, 0x60, 0x98];
/// I 40621D, even and odd, at some 52.26 N, 3.92 E
const EVEN: [u8; 14] = [0x8D, 0x40, 0x62, 0x1D, 0x58, 0xC3, 0x82, 0xD6, 0x90, 0xC8, 0xAC, 0x28, 0x63, 0xA7];
const ODD: [u8; 14] = [0x8D, 0x40, 0x62, 0x1D, 0x58, 0xC3, 0x86, 0x43, 0x5C, 0xC4, 0x12, 0x69, 0x2A, 0xD6];
const PLACES: usize = 4;

fn aircraft() -> Key {
    Key::new(Kind::I, 0x40621D).unwrap()
}

/// A table with two aircraft, of which one has a position.
fn filled(bytes: &mut [u8]) -> Table<'_> {
    let mut table = Table::set_up(bytes).unwrap();
    assert_eq!(table.receive(&KLM, 1_000), Ok(()));
    assert_eq!(table.receive(&ODD, 2_000), Ok(()));
    assert_eq!(table.receive(&EVEN, 3_000), Ok(()));
    table
}

#[test]
fn tracks_come_in_order() {
    let mut bytes = [0xFF; table_bytes(PLACES)];
    let table = filled(&mut bytes);
    let keys: Vec<String> = table.keys().map(|key| key.to_string()).collect();
    assert_eq!(keys, ["I 40621D", "I 4840D6"]);
    let tracks: Vec<Track> = table.tracks().collect();
    assert_eq!(tracks.len(), 2);
    assert_eq!((tracks[0].key(), tracks[0].heard(), tracks[0].altitude()), (aircraft(), 3_000, Some(38_000)));
    assert_eq!((tracks[0].altitude_step(), tracks[0].on_ground()), (Some(25), Some(false)));
    let place = tracks[0].degrees().unwrap();
    assert!((place.latitude - 52.2572).abs() < 1e-4 && (place.longitude - 3.91937).abs() < 1e-4, "{:?}", place);
    assert_eq!(tracks[1].callsign().unwrap().as_str(), "KLM1023");
    assert_eq!((tracks[1].category().unwrap().to_string(), tracks[1].position()), ("A0".to_string(), None));
    assert_eq!(table.track(aircraft()), Some(tracks[0]));
    assert_eq!(table.track(Key::new(Kind::O, 0x40621D).unwrap()), None);
    assert_eq!((table.clock(), table.site()), (3_000, None));
}

#[test]
fn a_table_is_refused_what_it_refuses() {
    let mut bytes = [0; table_bytes(1)];
    let mut table = filled_with_one(&mut bytes);
    assert_eq!(table.receive(&KLM, 999), Err(Refusal::Late));
    assert_eq!(table.receive(&KLM[..13], 2_000), Err(Refusal::Length));
    assert_eq!(table.receive(&[], 2_000), Err(Refusal::Length));
    let mut damaged = KLM;
    damaged[5] ^= 1;
    assert_eq!(table.receive(&damaged, 2_000), Err(Refusal::Parity));
    assert_eq!(table.receive(&[0; 14], 2_000), Err(Refusal::Format));
    assert_eq!(table.receive(&EVEN, 2_000), Err(Refusal::Full));
    assert_eq!(table.clock(), 2_000);
    assert_eq!(table.tracks().count(), 1);
}

fn filled_with_one(bytes: &mut [u8]) -> Table<'_> {
    let mut table = Table::set_up(bytes).unwrap();
    table.receive(&KLM, 1_000).unwrap();
    table
}

#[test]
fn lengths_that_no_table_has() {
    for length in [0, 1, 15, 16, 17, table_bytes(1) - 1, table_bytes(1) + 1, table_bytes(1_025)] {
        let mut bytes = vec![7; length];
        assert_eq!(Table::set_up(&mut bytes).err(), Some(Refusal::Places), "{}", length);
        assert_eq!(Table::open(&mut bytes).err(), Some(Refusal::Places), "{}", length);
        assert_eq!(bytes, vec![7; length]);
    }
    for (places, due) in [(0, None), (1, Some(102)), (1_024, Some(88_080)), (1_025, None), (usize::MAX, None)] {
        assert_eq!(Table::bytes_for(places), due);
    }
    let (mut bytes, beyond) = ([7; table_bytes(1)], Spot { latitude: i32::MAX, longitude: 0 });
    assert_eq!(Table::set_up_at(&mut bytes, beyond).err(), Some(Refusal::Field));
    assert_eq!(bytes, [7; table_bytes(1)]);
}

#[test]
fn lengths_that_no_array_has() {
    for places in [usize::MAX, usize::MAX / 86 + 1, usize::MAX - 1] {
        assert_eq!((table_bytes(places), listing_bytes(places)), (usize::MAX, usize::MAX));
    }
    assert_eq!((table_bytes(1_024), listing_bytes(1_024)), (88_080, 131_200));
}

#[test]
fn a_table_is_shown_in_few_words() {
    let mut bytes = [0; table_bytes(PLACES)];
    let table = filled(&mut bytes);
    assert_eq!(format!("{:?}", table), "Table(360 bytes, clock 3000)");
    let (mut keys, mut tracks) = (table.keys(), table.tracks());
    assert_eq!(format!("{:?} {:?}", keys, tracks), "Keys(above 0x0) Tracks(Keys(above 0x0))");
    keys.next();
    tracks.next();
    assert_eq!(format!("{:?} {:?}", keys, tracks), "Keys(above 0x140621d) Tracks(Keys(above 0x140621d))");
    let header = table.header(0, Shown::All);
    assert_eq!(format!("{:>40}|", header), format!("{:>40}|", header.as_str()));
}

#[test]
fn an_iterator_that_ended_has_ended() {
    fn ended(mut all: impl std::iter::FusedIterator) -> usize {
        let count = all.by_ref().count();
        assert!(all.next().is_none() && all.next().is_none());
        count
    }
    let mut bytes = [0; table_bytes(PLACES)];
    let table = filled(&mut bytes);
    assert_eq!((ended(table.keys()), ended(table.tracks())), (2, 2));
}

#[test]
fn a_table_is_opened_again() {
    let mut bytes = [0; table_bytes(PLACES)];
    let site = Degrees { latitude: 52.31, longitude: 4.76 }.nearest().unwrap();
    Table::set_up_at(&mut bytes, site).unwrap().receive(&KLM, 1_000).unwrap();
    let table = Table::open(&mut bytes).unwrap();
    assert_eq!((table.tracks().count(), table.site()), (1, Some(site)));
    assert_eq!(table.bytes().len(), table_bytes(PLACES));
}

#[test]
fn stamps_go_around() {
    let mut bytes = [0; table_bytes(PLACES)];
    let (mut table, mut stamps) = (Table::set_up(&mut bytes).unwrap(), Stamps::default());
    assert_eq!(table.receive_stamp(&KLM, u32::MAX - 9, &mut stamps), Ok(()));
    assert_eq!(table.receive_stamp(&KLM, 90, &mut stamps), Ok(()));
    assert_eq!((table.clock(), stamps.last), (u64::from(u32::MAX) + 91, Some(90)));
    assert_eq!(table.receive_stamp(&KLM, 89, &mut stamps), Err(Refusal::Late));
    assert_eq!(table.receive_stamp(&[0; 14], 91, &mut stamps), Err(Refusal::Format));
    assert_eq!(stamps, Stamps { last: Some(91) });
}

#[test]
fn the_listing_and_its_lines() {
    let mut bytes = [0; table_bytes(PLACES)];
    let table = filled(&mut bytes);
    let (mut order, mut out) = ([0; PLACES], [0; listing_bytes(PLACES)]);
    let all = table.listing(5, Shown::All, &mut order, &mut out).unwrap().to_string();
    assert_eq!(all.lines().next(), Some("clock 3000 tracks 2 bad-blocks 5"));
    let lines: String = table.keys().map(|key| table.line(key, Shown::All).to_string()).collect();
    assert_eq!(all, format!("{}{}", table.header(5, Shown::All), lines));
    let placed = table.listing(5, Shown::Positioned, &mut order, &mut out).unwrap();
    assert_eq!(placed, format!("{}{}", table.header(5, Shown::Positioned), table.line(aircraft(), Shown::Positioned)));
    assert_eq!(table.line(Key::new(Kind::I, 0x4840D6).unwrap(), Shown::Positioned).as_str(), "");
    assert_eq!(table.listing(5, Shown::All, &mut order[1..], &mut out), Err(Refusal::Length));
    assert_eq!(table.listing(5, Shown::All, &mut order, &mut out[1..]), Err(Refusal::Length));
    assert_eq!(table.listing(5, Shown::All, &mut [], &mut []), Err(Refusal::Length));
    assert!(table.header(u64::MAX, Shown::All).as_str().len() < LINE);
}

#[test]
fn a_track_is_replayed_and_a_listing_checked() {
    let records = [(1_000, KLM), (2_000, ODD), (3_000, EVEN)].map(|(time, message)| Record { time, message });
    let log: Vec<u8> = records.iter().flat_map(Record::to_bytes).collect();
    assert_eq!(Record::from_bytes(log[RECORD..2 * RECORD].try_into().unwrap()), records[1]);
    let mut bytes = [0; table_bytes(PLACES)];
    assert_eq!(replay(&log, aircraft(), None), Ok(filled(&mut bytes).track(aircraft())));
    assert_eq!(replay(&log, Key::coarse(1, true, 3).unwrap(), None), Ok(None));
    assert_eq!(replay(&log[1..], aircraft(), None), Err(Refusal::Log));
    assert_eq!(replay(&vec![0; RECORD * (RECORDS + 1)], aircraft(), None), Err(Refusal::Log));
    assert_eq!(replay(&log, aircraft(), Some(Spot { latitude: i32::MIN, longitude: 0 })), Err(Refusal::Field));
    assert_eq!(check(&[], b"clock 0 tracks 0 bad-blocks 0\n"), Ok(Checked::Yes));
    assert_eq!(check(&[], b"clock 1 tracks 0 bad-blocks 0\n"), Ok(Checked::Line(1)));
    assert_eq!(check(&[], b"clock 0"), Err(Refusal::Form));
    assert_eq!(check(&[], &[]), Err(Refusal::Form));
}

#[test]
fn two_listings_become_one() {
    let (one, other) = (b"clock 3 tracks 0 bad-blocks 1\n", b"clock 3 tracks 0 bad-blocks 2\n");
    let mut out = [7; 60];
    assert_eq!(merge(one, other, &mut out), Ok("clock 3 tracks 0 bad-blocks 3\n"));
    assert_eq!(out[30..], [0; 30]);
    assert_eq!(merge(one, other, &mut out[1..]), Err(Refusal::Length));
    assert_eq!(merge(one, b"clock 4 tracks 0 bad-blocks 2\n", &mut out), Err(Refusal::Form));
    assert_eq!(merge(one, one, &mut out), Ok("clock 3 tracks 0 bad-blocks 2\n"));
}

#[test]
fn slices_that_are_read_may_overlap() {
    let text = b"clock 0 tracks 0 bad-blocks 1\n";
    assert_eq!(check(text, text), Ok(Checked::Yes)); // a capture of one bad block, and a listing
    assert_eq!(check(&text[1..], text), Ok(Checked::Yes));
}

#[test]
fn bad_blocks_are_counted() {
    let mut bytes = [0; table_bytes(PLACES)];
    let (mut table, mut bad) = (Table::set_up(&mut bytes).unwrap(), u64::MAX - 2);
    let capture = [0; 2 * BLOCK + 1];
    assert_eq!(blocks(&capture).count(), 3);
    for block in blocks(&capture) {
        table.feed(block, &mut bad);
    }
    assert_eq!((bad, table.clock()), (u64::MAX, 0));
    assert_eq!(blocks(&[]).count(), 0);
}

#[test]
fn a_table_goes_to_another_thread() {
    let mut bytes = [0; table_bytes(PLACES)];
    let mut table = Table::set_up(&mut bytes).unwrap();
    std::thread::scope(|scope| {
        scope.spawn(|| table.receive(&KLM, 1_000).unwrap());
    });
    std::thread::scope(|scope| {
        let readers = [(); 4].map(|()| scope.spawn(|| table.tracks().count()));
        assert!(readers.into_iter().all(|one| one.join().unwrap() == 1));
    });
}
