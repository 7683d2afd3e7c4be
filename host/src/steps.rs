//! Steps by their place in seq.rs. The last is `Done`.

pub type Names = [&'static str];

pub const DSP: &Names = &[
    "WaitStatus",
    "WaitDspQuery",
    "WaitDevInfo",
    "WaitProdInfo0",
    "WaitProdInfo1",
    "WaitProdInfo2",
    "WaitConfig",
    "WaitPowerMode",
    "Done",
];

pub const AVR: &Names = &[
    "WaitStatus1",
    "WaitStatus2",
    "WaitDevInfo1",
    "WaitDevInfo2",
    "WaitParam0C",
    "WaitParam0D",
    "WaitConfig",
    "WaitFactoryCal",
    "WaitIfCal",
    "WaitAvrConfig",
    "WaitParam64",
    "WaitTimeSync",
    "Done",
];

pub const PI: &Names = &[
    "WaitStatus",
    "WaitDevInfo",
    "WaitParam0A",
    "WaitCamConfig1",
    "WaitCamConfig2",
    "WaitNetConfig",
    "WaitNetConfigPw",
    "WaitParams",
    "Done",
];

pub const AVR_CONFIG: &Names = &[
    "WaitInitGateAck",
    "WaitParamAck",
    "WaitParamCommitAck",
    "WaitModeEcho",
    "WaitModeCommitAck",
    "WaitRadarCalEcho",
    "WaitRadarCalCommitAck",
    "Done",
];

pub const ARM: &Names = &[
    "WaitDspStatus",
    "WaitAvrStatus",
    "WaitArmAck",
    "WaitPiAndArmed",
    "Done",
];

pub const DISARM: &Names = &["WaitAck", "WaitModeReset", "WaitStateIdle", "Done"];

/// The step's name.
pub fn name(names: &Names, number: u8) -> &'static str {
    names.get(usize::from(number)).copied().unwrap_or("unknown")
}

/// Whether it is the last one.
pub fn is_done(names: &Names, number: u8) -> bool {
    usize::from(number) + 1 == names.len()
}
