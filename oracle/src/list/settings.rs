//! The settings with which a settings run begins.

use super::Settings;
use super::bad::Bad;
use super::cursor::Cursor;
use super::kind;
use crate::seq::{AvrSettings, MevoSettings};

/// A mode, parameters and perhaps a calibration, after which the line ends.
pub fn given(c: &mut Cursor) -> Result<Settings, Bad> {
    let mode = c.number_field("mode")?;
    let mut params = Vec::new();
    while c.next_is("param_id") {
        params.push(kind::param_value(c)?);
    }
    let radar_cal = match c.next_is("range_mm") {
        true => Some(kind::radar_cal(c)?),
        false => None,
    };
    Ok(Settings::Given(AvrSettings {
        mode,
        params,
        radar_cal,
    }))
}

pub fn mode_only(c: &mut Cursor) -> Result<Settings, Bad> {
    Ok(Settings::ModeOnly(c.number_field("mode")?))
}

pub fn mevo(c: &mut Cursor) -> Result<Settings, Bad> {
    Ok(Settings::Mevo(MevoSettings::new(
        c.number_field("mode")?,
        c.number_field("ball_type")?,
        c.float_field("track_fraction")?,
        c.float_field("tee_height_m")?,
        kind::radar_cal(c)?,
    )))
}
