//! Places on the earth, in the library's units and in degrees.

use crate::{calls, names, Refusal};

/// A place in 2^-32 of a turn, which are 360 degrees.
#[derive(Clone, Copy, Debug, Default, PartialEq, Eq, Hash)]
pub struct Spot {
    /// From -2^30, the south pole, to 2^30.
    pub latitude: i32,
    /// From 0 to the east.
    pub longitude: u32,
}

/// A place in degrees.
#[derive(Clone, Copy, Debug, Default, PartialEq)]
pub struct Degrees {
    /// North is above zero.
    pub latitude: f64,
    /// East is above zero.
    pub longitude: f64,
}

impl Spot {
    /// The spot of two entries of an array.
    pub(crate) fn of(entries: [u64; names::SPOT]) -> Spot {
        Spot { latitude: entries[0] as i64 as i32, longitude: entries[1] as u32 }
    }

    /// In degrees, exactly; longitude from -180 up to below 180. Or [`Refusal::Field`], for a latitude beyond a pole.
    pub fn degrees(self) -> Result<Degrees, Refusal> {
        let mut out = [0.0; names::DEGREES];
        calls::degrees(self.latitude, self.longitude, &mut out)?;
        Ok(Degrees { latitude: out[0], longitude: out[1] })
    }
}

impl Degrees {
    /// The spot that these doubles exactly are. Or [`Refusal::Degrees`]: nothing is rounded.
    pub fn exact(self) -> Result<Spot, Refusal> {
        let mut out = [0; names::SPOT];
        calls::from_degrees(self.latitude, self.longitude, &mut out)?;
        Ok(Spot::of(out))
    }

    /// The spot nearest to a latitude, -90 to 90, and a longitude, -180 to 360, as people type them; but for the rounding of doubles.
    ///
    /// Half a unit goes away from zero, and so does the double just below it. `addercoil_easy_site_in_degrees` of C computes the same. Or
    /// [`Refusal::Field`], for what is beyond, and for not-a-number. This is not proved.
    pub fn nearest(self) -> Result<Spot, Refusal> {
        if !((-90.0..=90.0).contains(&self.latitude) && (-180.0..=360.0).contains(&self.longitude)) {
            return Err(Refusal::Field);
        }
        Ok(Spot { latitude: nearest(self.latitude) as i32, longitude: nearest(self.longitude) as u32 })
    }
}

/// The whole number nearest to an angle in units, as C computes it. A cast cuts what is behind the point.
fn nearest(degrees: f64) -> i64 {
    let exact = degrees * 4_294_967_296.0 / 360.0;
    (if exact < 0.0 { exact - 0.5 } else { exact + 0.5 }) as i64
}
