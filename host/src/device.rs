//! The model, and the sends that belong to no sequence.

use crate::command::Action;
use crate::convert;
use crate::ffi;
use crate::message::{DevInfoResp, Envelope};

/// `default()` takes a Mevo without asking: use `new_for(result.model)` with
/// the model that the DSP's result names. No compiler warns of it, since the
/// `impl` of a trait can't be deprecated.
///
/// What a unit has: three facts. Every sequence, the keepalive and the arm go
/// by the facts and by no name, so all eight combinations run. Result
/// acknowledgements are for exactly the three facts of [`XI`](Self::XI).
///
/// ```
/// use wigtalom::{AvrSequencer, DeviceModel};
///
/// let made_up = DeviceModel { camera: true, ..DeviceModel::XI };
/// let (avr, _) = AvrSequencer::new_for(made_up);
/// assert_eq!(avr.state().model, made_up);
/// assert_eq!(DeviceModel::default(), DeviceModel::MEVO);
/// ```
#[repr(C)]
#[derive(Debug, Clone, Copy, PartialEq, Eq, Hash)]
pub struct DeviceModel {
    /// It has a camera, and so a Pi: the keepalive polls the Pi, and an arm
    /// waits for it.
    pub camera: bool,
    /// Its AVR has the factory calibration and the settings query: an AVR
    /// start-up has 12 steps, else 8.
    pub factory_cal: bool,
    /// Its DSP has the power-mode step: a DSP start-up has 8 steps, else 7.
    pub power_mode: bool,
}

impl DeviceModel {
    /// Mevo+ or Mevo Gen2: radar and camera.
    pub const MEVO: DeviceModel = DeviceModel {
        camera: true,
        factory_cal: true,
        power_mode: false,
    };

    /// Radar only.
    pub const XI: DeviceModel = DeviceModel {
        camera: false,
        factory_cal: false,
        power_mode: true,
    };

    /// The practice rig of a classroom: it speaks like a Mevo that has no
    /// camera.
    pub const RIG: DeviceModel = DeviceModel {
        camera: false,
        factory_cal: true,
        power_mode: false,
    };

    /// The model that the DSP's device info names: a Xi where "FS Xi" stands
    /// in its payload, else the rig where "BAY RIG" does, else a Mevo.
    #[must_use]
    pub fn from_dev_info(info: &DevInfoResp) -> Self {
        ffi::model(&info.payload)
    }

    /// Whether it has a camera, and so a Pi.
    #[must_use]
    pub const fn has_camera(self) -> bool {
        self.camera
    }

    /// Whether its AVR has the factory calibration and the settings query.
    #[must_use]
    pub const fn has_factory_cal(self) -> bool {
        self.factory_cal
    }

    /// Whether its DSP has the power-mode step.
    #[must_use]
    pub const fn has_power_mode(self) -> bool {
        self.power_mode
    }

    /// Whether it has a Xi's three facts, and so is sent result
    /// acknowledgements.
    #[must_use]
    pub fn is_xi(self) -> bool {
        self == DeviceModel::XI
    }
}

impl Default for DeviceModel {
    /// A Mevo, without asking.
    fn default() -> Self {
        DeviceModel::MEVO
    }
}

/// The app's acknowledgement of a flight result from the AVR, for exactly a
/// Xi's three facts; `None` for anything else.
#[must_use]
pub fn result_ack(model: DeviceModel, env: &Envelope) -> Option<Action> {
    let sent = ffi::wigtalom_result_ack(model, env.src.as_byte(), env.type_id);
    convert::send(&sent.action)
}

/// The polls that keep a Mevo's connection alive.
#[must_use]
pub fn keepalive_actions() -> Vec<Action> {
    keepalive_actions_for(DeviceModel::MEVO)
}

/// The polls that keep the connection of this model alive: of the DSP, the
/// AVR and, where there is a camera, the Pi.
#[must_use]
pub fn keepalive_actions_for(model: DeviceModel) -> Vec<Action> {
    let polls = ffi::wigtalom_keepalive(model);
    polls.actions.iter().filter_map(convert::send).collect()
}
