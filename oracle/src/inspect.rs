//! Reads the private state of the sequencers. A child module of `seq`.

use super::*;

pub struct Dsp<'a> {
    pub step: &'static str,
    pub status: Option<&'a DspStatus>,
    pub hw_info: Option<&'a DspQueryResp>,
    pub dev_info: Option<&'a DevInfoResp>,
    pub prod_info: &'a [ProdInfoResp],
    pub config: Option<&'a ConfigResp>,
    pub deadline: Option<Instant>,
    pub refused: Option<&'a Envelope>,
    pub power_mode_unanswered: bool,
}

pub fn dsp(seq: &DspSequencer) -> Dsp<'_> {
    Dsp {
        step: dsp_step(&seq.step),
        status: seq.status.as_ref(),
        hw_info: seq.hw_info.as_ref(),
        dev_info: seq.dev_info.as_ref(),
        prod_info: &seq.prod_info,
        config: seq.config.as_ref(),
        deadline: seq.deadline,
        refused: seq.refused.as_deref(),
        power_mode_unanswered: seq.power_mode_unanswered,
    }
}

/// A copy at Done, for a result while the sequence goes on.
pub fn done_dsp(seq: &DspSequencer) -> DspSequencer {
    assert!(seq.is_complete());
    DspSequencer {
        step: DspStep::Done,
        status: seq.status.clone(),
        hw_info: seq.hw_info.clone(),
        dev_info: seq.dev_info.clone(),
        prod_info: seq.prod_info.clone(),
        config: seq.config.clone(),
        deadline: seq.deadline,
        refused: seq.refused.clone(),
        power_mode_unanswered: seq.power_mode_unanswered,
    }
}

fn dsp_step(step: &DspStep) -> &'static str {
    match step {
        DspStep::WaitStatus => "WaitStatus",
        DspStep::WaitDspQuery => "WaitDspQuery",
        DspStep::WaitDevInfo => "WaitDevInfo",
        DspStep::WaitProdInfo0 => "WaitProdInfo0",
        DspStep::WaitProdInfo1 => "WaitProdInfo1",
        DspStep::WaitProdInfo2 => "WaitProdInfo2",
        DspStep::WaitConfig => "WaitConfig",
        DspStep::WaitPowerMode => "WaitPowerMode",
        DspStep::Done => "Done",
    }
}

pub struct Avr<'a> {
    pub step: &'static str,
    pub model: DeviceModel,
    pub status: Option<&'a AvrStatus>,
    pub dev_info: Option<&'a DevInfoResp>,
    pub config: Option<&'a ConfigResp>,
    pub factory_cal: Option<&'a CalDataResp>,
    pub if_cal: Option<&'a CalParamResp>,
    pub avr_config: Option<&'a AvrConfigResp>,
    pub cal_deadline: Option<Instant>,
    pub repoll_at: Option<Instant>,
}

pub fn avr(seq: &AvrSequencer) -> Avr<'_> {
    Avr {
        step: avr_step(&seq.step),
        model: seq.model,
        status: seq.status.as_ref(),
        dev_info: seq.dev_info.as_ref(),
        config: seq.config.as_ref(),
        factory_cal: seq.factory_cal.as_ref(),
        if_cal: seq.if_cal.as_ref(),
        avr_config: seq.avr_config.as_ref(),
        cal_deadline: seq.cal_deadline,
        repoll_at: seq.repoll_at,
    }
}

/// A copy at Done, for a result while the sequence goes on.
pub fn done_avr(seq: &AvrSequencer) -> AvrSequencer {
    assert!(seq.is_complete());
    AvrSequencer {
        step: AvrStep::Done,
        model: seq.model,
        status: seq.status.clone(),
        dev_info: seq.dev_info.clone(),
        config: seq.config.clone(),
        factory_cal: seq.factory_cal.clone(),
        if_cal: seq.if_cal.clone(),
        avr_config: seq.avr_config.clone(),
        cal_deadline: seq.cal_deadline,
        repoll_at: seq.repoll_at,
    }
}

fn avr_step(step: &AvrStep) -> &'static str {
    match step {
        AvrStep::WaitStatus1 => "WaitStatus1",
        AvrStep::WaitStatus2 => "WaitStatus2",
        AvrStep::WaitDevInfo1 => "WaitDevInfo1",
        AvrStep::WaitDevInfo2 => "WaitDevInfo2",
        AvrStep::WaitParam0C => "WaitParam0C",
        AvrStep::WaitParam0D => "WaitParam0D",
        AvrStep::WaitConfig => "WaitConfig",
        AvrStep::WaitFactoryCal => "WaitFactoryCal",
        AvrStep::WaitIfCal => "WaitIfCal",
        AvrStep::WaitAvrConfig => "WaitAvrConfig",
        AvrStep::WaitParam64 => "WaitParam64",
        AvrStep::WaitTimeSync => "WaitTimeSync",
        AvrStep::Done => "Done",
    }
}

pub struct Pi<'a> {
    pub step: &'static str,
    /// The ids and the index, at step WaitParams.
    pub params: Option<(&'a [u8], usize)>,
    pub dev_info: Option<&'a DevInfoResp>,
    pub cam_config: Option<&'a CamConfig>,
    pub ssid: &'a str,
    pub password: &'a str,
}

pub fn pi(seq: &PiSequencer) -> Pi<'_> {
    let (step, params) = pi_step(&seq.step);
    Pi {
        step,
        params,
        dev_info: seq.dev_info.as_ref(),
        cam_config: seq.cam_config.as_ref(),
        ssid: &seq.ssid,
        password: &seq.password,
    }
}

/// A copy at Done, for a result while the sequence goes on.
pub fn done_pi(seq: &PiSequencer) -> PiSequencer {
    assert!(seq.is_complete());
    PiSequencer {
        step: PiStep::Done,
        dev_info: seq.dev_info.clone(),
        cam_config: seq.cam_config.clone(),
        ssid: seq.ssid.clone(),
        password: seq.password.clone(),
    }
}

fn pi_step(step: &PiStep) -> (&'static str, Option<(&[u8], usize)>) {
    match step {
        PiStep::WaitStatus => ("WaitStatus", None),
        PiStep::WaitDevInfo => ("WaitDevInfo", None),
        PiStep::WaitParam0A => ("WaitParam0A", None),
        PiStep::WaitCamConfig1 => ("WaitCamConfig1", None),
        PiStep::WaitCamConfig2 => ("WaitCamConfig2", None),
        PiStep::WaitNetConfig => ("WaitNetConfig", None),
        PiStep::WaitNetConfigPw => ("WaitNetConfigPw", None),
        PiStep::WaitParams { ids, idx } => ("WaitParams", Some((ids, *idx))),
        PiStep::Done => ("Done", None),
    }
}

pub struct AvrConfig<'a> {
    pub step: &'static str,
    /// The index, at the two steps of a parameter.
    pub param_idx: Option<usize>,
    pub settings: &'a AvrSettings,
}

pub fn avr_config(seq: &AvrConfigSequencer) -> AvrConfig<'_> {
    let (step, param_idx) = avr_config_step(&seq.step);
    AvrConfig {
        step,
        param_idx,
        settings: &seq.settings,
    }
}

fn avr_config_step(step: &AvrConfigStep) -> (&'static str, Option<usize>) {
    match *step {
        AvrConfigStep::WaitInitGateAck => ("WaitInitGateAck", None),
        AvrConfigStep::WaitParamAck { param_idx } => ("WaitParamAck", Some(param_idx)),
        AvrConfigStep::WaitParamCommitAck { param_idx } => ("WaitParamCommitAck", Some(param_idx)),
        AvrConfigStep::WaitModeEcho => ("WaitModeEcho", None),
        AvrConfigStep::WaitModeCommitAck => ("WaitModeCommitAck", None),
        AvrConfigStep::WaitRadarCalEcho => ("WaitRadarCalEcho", None),
        AvrConfigStep::WaitRadarCalCommitAck => ("WaitRadarCalCommitAck", None),
        AvrConfigStep::Done => ("Done", None),
    }
}

pub fn disarm_step(seq: &DisarmSequencer) -> &'static str {
    match seq.step {
        DisarmStep::WaitAck => "WaitAck",
        DisarmStep::WaitModeReset => "WaitModeReset",
        DisarmStep::WaitStateIdle => "WaitStateIdle",
        DisarmStep::Done => "Done",
    }
}

pub struct Arm {
    pub step: &'static str,
    /// got_pi and got_armed, at step WaitPiAndArmed.
    pub got: Option<(bool, bool)>,
    pub retries: u16,
    pub wait_pi: bool,
}

pub fn arm(seq: &ArmSequencer) -> Arm {
    let (step, got) = arm_step(&seq.step);
    Arm {
        step,
        got,
        retries: seq.retries,
        wait_pi: seq.wait_pi,
    }
}

fn arm_step(step: &ArmStep) -> (&'static str, Option<(bool, bool)>) {
    match *step {
        ArmStep::WaitDspStatus => ("WaitDspStatus", None),
        ArmStep::WaitAvrStatus => ("WaitAvrStatus", None),
        ArmStep::WaitArmAck => ("WaitArmAck", None),
        ArmStep::WaitPiAndArmed { got_pi, got_armed } => {
            ("WaitPiAndArmed", Some((got_pi, got_armed)))
        }
        ArmStep::Done => ("Done", None),
    }
}
