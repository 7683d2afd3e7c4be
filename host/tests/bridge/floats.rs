//! Puts floats of every class into calls. A line of a list can't hold a NaN.

use oracle::list::{Begin, Call, Settings};

use super::rust::{Message, ParamData, ParamValue};

const FRACTION: u64 = (1 << 52) - 1;
const QUIET: u64 = 1 << 51;
const EXPONENT: u64 = 0x7FF << 52;
const SIGN: u64 = 1 << 63;

/// Random bits from a seed: splitmix64.
pub struct Floats(u64);

impl Floats {
    pub fn new(seed: u64) -> Self {
        Floats(!seed)
    }

    fn bits(&mut self) -> u64 {
        self.0 = self.0.wrapping_add(0x9E37_79B9_7F4A_7C15);
        let z = (self.0 ^ (self.0 >> 30)).wrapping_mul(0xBF58_476D_1CE4_E5B9);
        let z = (z ^ (z >> 27)).wrapping_mul(0x94D0_49BB_1331_11EB);
        z ^ (z >> 31)
    }

    /// A quiet or a signalling NaN, a zero, a subnormal, an infinity or any
    /// bits, of either sign.
    fn float(&mut self) -> f64 {
        let (class, sign, bits) = (self.bits() % 8, self.bits() & SIGN, self.bits());
        let size = match class {
            0..2 => EXPONENT | QUIET | (bits & FRACTION),
            2..4 => EXPONENT | (bits & FRACTION & !QUIET).max(1),
            4 => 0,
            5 => (bits & FRACTION).max(1),
            6 => EXPONENT,
            _ => bits & !SIGN,
        };
        f64::from_bits(sign | size)
    }

    /// Gives three of four floats of a call another value, and tells all.
    pub fn put_into(&mut self, call: &mut Call) -> Vec<u64> {
        let mut told = Vec::new();
        for float in floats(call) {
            if !self.bits().is_multiple_of(4) {
                *float = self.float();
            }
            told.push(float.to_bits());
        }
        told
    }
}

/// Every float that a call hands in.
fn floats(call: &mut Call) -> Vec<&mut f64> {
    match call {
        Call::Feed(feed) => of_message(&mut feed.message),
        Call::Begin(Begin::AvrConfig(Settings::Given(given))) => {
            given.params.iter_mut().filter_map(of_param).collect()
        }
        Call::Begin(Begin::AvrConfig(Settings::Mevo(mevo))) => {
            vec![&mut mevo.track_fraction, &mut mevo.tee_height_m]
        }
        _ => Vec::new(),
    }
}

fn of_message(message: &mut Message) -> Vec<&mut f64> {
    match message {
        Message::AvrStatus(m) => vec![&mut m.temperature, &mut m.tilt, &mut m.roll],
        Message::ParamValue(m) => of_param(m).into_iter().collect(),
        Message::CamConfig(m) => vec![
            &mut m.raw_shutter_speed_max,
            &mut m.buffer_sub_sampling_switch_time_offset,
        ],
        _ => Vec::new(),
    }
}

fn of_param(param: &mut ParamValue) -> Option<&mut f64> {
    match &mut param.value {
        ParamData::Float40(value) => Some(value),
        ParamData::Int24(_) => None,
    }
}
