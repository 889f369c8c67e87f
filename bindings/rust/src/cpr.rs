//! Positions as messages say them: counts, even and odd.

use crate::{calls, names, Refusal, Spot};

/// Which of the two encodings a position message has.
#[derive(Clone, Copy, Debug, Default, PartialEq, Eq, Hash)]
pub enum Format {
    /// F is 0.
    #[default]
    Even,
    /// F is 1.
    Odd,
}

/// Where a position message was sent.
#[derive(Clone, Copy, Debug, PartialEq, Eq, Hash)]
pub enum Place {
    /// In the air.
    Airborne,
    /// On the ground.
    Surface,
}

/// What a message says of a spot: 17 bits each, and 12 in a coarse message.
#[derive(Clone, Copy, Debug, Default, PartialEq, Eq, Hash)]
pub struct Counts {
    /// That of the latitude.
    pub latitude: u32,
    /// That of the longitude.
    pub longitude: u32,
}

/// The counts of a spot. Or [`Refusal::Field`], for a latitude beyond a pole.
pub fn encode(spot: Spot, place: Place, format: Format) -> Result<Counts, Refusal> {
    let mut out = [0; names::COUNTS];
    calls::encode_position(spot.latitude, spot.longitude, place as u32, format as u32, &mut out)?;
    Ok(counts(out))
}

/// The spot of two airborne messages: that of the later one. Or [`Refusal::Field`] for a count of more than 17 bits,
/// [`Refusal::Latitude`], [`Refusal::Zones`].
pub fn pair(even: Counts, odd: Counts, later: Format) -> Result<Spot, Refusal> {
    let mut out = [0; names::SPOT];
    calls::pair(even.latitude, even.longitude, odd.latitude, odd.longitude, later as u32, &mut out)?;
    Ok(Spot::of(out))
}

/// The spot of one message near another spot. Or [`Refusal::Field`] for a count of more than 17 bits or a latitude beyond a pole,
/// [`Refusal::Latitude`].
pub fn single(near: Spot, said: Counts, place: Place, format: Format) -> Result<Spot, Refusal> {
    let mut out = [0; names::SPOT];
    calls::single(near.latitude, near.longitude, said.latitude, said.longitude, place as u32, format as u32, &mut out)?;
    Ok(Spot::of(out))
}

/// [`encode`] of a coarse message.
pub fn encode_coarse(spot: Spot, format: Format) -> Result<Counts, Refusal> {
    let mut out = [0; names::COUNTS];
    calls::encode_position_coarse(spot.latitude, spot.longitude, format as u32, &mut out)?;
    Ok(counts(out))
}

/// [`pair`] of coarse messages.
pub fn pair_coarse(even: Counts, odd: Counts, later: Format) -> Result<Spot, Refusal> {
    let mut out = [0; names::SPOT];
    calls::pair_coarse(even.latitude, even.longitude, odd.latitude, odd.longitude, later as u32, &mut out)?;
    Ok(Spot::of(out))
}

/// [`single`] of a coarse message.
pub fn single_coarse(near: Spot, said: Counts, format: Format) -> Result<Spot, Refusal> {
    let mut out = [0; names::SPOT];
    calls::single_coarse(near.latitude, near.longitude, said.latitude, said.longitude, format as u32, &mut out)?;
    Ok(Spot::of(out))
}

/// The counts of two entries of an array.
fn counts(entries: [u64; names::COUNTS]) -> Counts {
    Counts { latitude: entries[0] as u32, longitude: entries[1] as u32 }
}
