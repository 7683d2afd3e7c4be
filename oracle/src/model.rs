//! The model of a unit as three facts, which the Rust hasn't: it knows a Mevo
//! and a Xi. Written from docs/SCOPE.md, "Model and single sends"; each call
//! goes through the Rust by the one fact that it reads. Where the tag stands
//! that decides a model the Rust doesn't say either.

use crate::protocol::handshake::{DevInfoResp, DeviceModel};

#[derive(Debug, Clone, Copy, PartialEq, Eq)]
pub struct Model {
    pub camera: bool,
    pub calibration: bool,
    pub power_mode: bool,
}

/// The models that have names. Another is spelled by its facts, `no` or `yes`
/// each.
const NAMES: [(&str, Model); 3] = [
    ("Mevo", Model::MEVO),
    ("Xi", Model::XI),
    ("Rig", Model::RIG),
];

impl Model {
    pub const MEVO: Model = Model {
        camera: true,
        calibration: true,
        power_mode: false,
    };
    pub const XI: Model = Model {
        camera: false,
        calibration: false,
        power_mode: true,
    };
    pub const RIG: Model = Model {
        camera: false,
        calibration: true,
        power_mode: false,
    };

    /// Reads a word. The facts of a model that has a name are none.
    pub fn read(word: &[u8]) -> Option<Model> {
        let word = std::str::from_utf8(word).ok()?;
        if let Some((_, model)) = NAMES.iter().find(|(name, _)| *name == word) {
            return Some(*model);
        }
        let facts: Option<Vec<bool>> = word.split('/').map(fact).collect();
        let [camera, calibration, power_mode] = facts?[..] else {
            return None;
        };
        let model = Model {
            camera,
            calibration,
            power_mode,
        };
        model.name().is_none().then_some(model)
    }

    fn name(self) -> Option<&'static str> {
        let found = NAMES.iter().find(|(_, model)| *model == self);
        found.map(|(name, _)| *name)
    }

    /// As it is written.
    pub fn spelled(self) -> String {
        if let Some(name) = self.name() {
            return name.to_string();
        }
        let facts = [self.camera, self.calibration, self.power_mode];
        facts.map(|has| if has { "yes" } else { "no" }).join("/")
    }

    /// The one that a device-info payload names.
    pub fn of_payload(payload: &[u8]) -> Model {
        let model = match (has(payload, XI_TAG), has(payload, RIG_TAG)) {
            (true, _) => Model::XI,
            (false, true) => Model::RIG,
            (false, false) => Model::MEVO,
        };
        if !has(payload, RIG_TAG) {
            // where the Rust can be compared with, it says the same
            assert_eq!(model.rust(), Some(named_by_the_rust(payload)));
        }
        model
    }

    /// Where the tag stands in a device-info payload that decides its model,
    /// from 0: the first of a Xi's, else the first of a rig's.
    pub fn tag_place(payload: &[u8]) -> Option<usize> {
        let place = first(payload, XI_TAG).or_else(|| first(payload, RIG_TAG));
        let tag = match Model::of_payload(payload) {
            Model::XI => Some(XI_TAG),
            Model::RIG => Some(RIG_TAG),
            _ => None,
        };
        match (place, tag) {
            (Some(at), Some(tag)) => assert!(payload[at..].starts_with(tag)),
            (place, tag) => assert!(place.is_none() && tag.is_none()),
        }
        place
    }

    /// The Rust's model of these facts, if it has one.
    pub fn rust(self) -> Option<DeviceModel> {
        match self {
            Model::MEVO => Some(DeviceModel::Mevo),
            Model::XI => Some(DeviceModel::Xi),
            _ => None,
        }
    }

    /// The Rust's model for an arm and a keepalive.
    pub fn by_camera(self) -> DeviceModel {
        mevo_if(self.camera)
    }

    /// The Rust's model for an AVR's start-up.
    pub fn by_calibration(self) -> DeviceModel {
        mevo_if(self.calibration)
    }

    /// The Rust's model for a result acknowledgement.
    pub fn by_all(self) -> DeviceModel {
        mevo_if(self != Model::XI)
    }
}

/// What names a Xi.
pub const XI_TAG: &[u8] = b"FS Xi";
/// What names a rig.
pub const RIG_TAG: &[u8] = b"BAY RIG";

pub fn has(payload: &[u8], tag: &[u8]) -> bool {
    payload.windows(tag.len()).any(|bytes| bytes == tag)
}

/// What a device-info payload has of the two tags.
#[derive(Debug, Clone, Copy, PartialEq, Eq)]
pub enum Tags {
    Xi,
    Rig,
    Both,
    /// One of them without its end.
    CutShort,
    Neither,
}

impl Tags {
    pub fn of(payload: &[u8]) -> Tags {
        let cut_short = |tag: &[u8]| has(payload, &tag[..tag.len() - 1]);
        match (has(payload, XI_TAG), has(payload, RIG_TAG)) {
            (true, false) => Tags::Xi,
            (false, true) => Tags::Rig,
            (true, true) => Tags::Both,
            _ if cut_short(XI_TAG) || cut_short(RIG_TAG) => Tags::CutShort,
            _ => Tags::Neither,
        }
    }
}

fn first(payload: &[u8], tag: &[u8]) -> Option<usize> {
    (0..payload.len()).find(|at| payload[*at..].starts_with(tag))
}

fn named_by_the_rust(payload: &[u8]) -> DeviceModel {
    let info = DevInfoResp {
        text: String::new(),
        payload: payload.to_vec(),
    };
    info.model()
}

fn mevo_if(has_it: bool) -> DeviceModel {
    if has_it {
        DeviceModel::Mevo
    } else {
        DeviceModel::Xi
    }
}

fn fact(word: &str) -> Option<bool> {
    match word {
        "yes" => Some(true),
        "no" => Some(false),
        _ => None,
    }
}
