//! The settings of an AVR configuration.

use crate::ffi;
use crate::message::{ParamValue, RadarCal};
use crate::records::{COptionRadarCal, CParamValue, CSettings, MAX_PARAMS};

/// What an AVR configuration sets.
///
/// The fields may hold any list: one that is too long, or in which an id
/// occurs twice, can be read, kept and shown. Only the start of a
/// configuration refuses it.
#[derive(Debug, Clone, PartialEq)]
pub struct AvrSettings {
    /// The detection mode's number.
    pub mode: u8,
    /// The parameters, in the order in which they are sent: at most 32, each
    /// with an id of its own.
    pub params: Vec<ParamValue>,
    /// The radar calibration. A mode change has none.
    pub radar_cal: Option<RadarCal>,
}

impl AvrSettings {
    /// The mode alone, for a mode change.
    #[must_use]
    pub fn mode_only(mode: u8) -> Self {
        Self::of_record(&ffi::wigtalom_mode_only(mode))
    }

    /// The first 32 parameters, and how many there are.
    pub(crate) fn record(&self) -> CSettings {
        let mut params = [CParamValue::default(); MAX_PARAMS];
        for (place, param) in params.iter_mut().zip(&self.params) {
            *place = CParamValue::of(param);
        }
        CSettings {
            mode: self.mode,
            params,
            len: self.params.len(),
            radar_cal: COptionRadarCal {
                some: self.radar_cal.is_some(),
                value: self.radar_cal.unwrap_or_default(),
            },
        }
    }

    pub(crate) fn of_record(record: &CSettings) -> Self {
        let params = record.params.iter().take(record.len);
        AvrSettings {
            mode: record.mode,
            params: params.map(CParamValue::value).collect(),
            radar_cal: record.radar_cal.some.then_some(record.radar_cal.value),
        }
    }
}

/// Everything that is set on a Mevo+ or Mevo Gen2.
#[derive(Debug, Clone, PartialEq)]
#[non_exhaustive]
pub struct MevoSettings {
    /// The detection mode's number.
    pub mode: u8,
    /// 0 standard, 1 RCT.
    pub ball_type: u8,
    /// The least track percentage, as a fraction.
    pub track_fraction: f64,
    /// Height of the tee, in meters.
    pub tee_height_m: f64,
    /// The radar calibration.
    pub radar_cal: RadarCal,
}

impl MevoSettings {
    /// These settings.
    #[must_use]
    pub fn new(
        mode: u8,
        ball_type: u8,
        track_fraction: f64,
        tee_height_m: f64,
        radar_cal: RadarCal,
    ) -> Self {
        Self {
            mode,
            ball_type,
            track_fraction,
            tee_height_m,
            radar_cal,
        }
    }

    /// The parameters, in the order in which they are sent.
    #[must_use]
    pub fn params(&self) -> Vec<ParamValue> {
        AvrSettings::of_record(&self.record()).params
    }

    fn record(&self) -> CSettings {
        ffi::wigtalom_mevo_settings(
            self.mode,
            self.ball_type,
            self.track_fraction,
            self.tee_height_m,
            self.radar_cal,
        )
    }
}

impl From<MevoSettings> for AvrSettings {
    fn from(settings: MevoSettings) -> Self {
        Self::of_record(&settings.record())
    }
}
