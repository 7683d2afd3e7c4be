//! The functions of the library, as crates/host/src has them. The only file
//! with `unsafe`.

use crate::device::DeviceModel;
use crate::message::RadarCal;
use crate::records::{
    CArm, CArmFed, CAvr, CAvrConfig, CAvrConfigFed, CAvrFed, CAvrFinished, CDisarm, CDisarmFed,
    CDsp, CDspFed, CDspFinished, CDspTaken, CEnvelope, CKeepalive, CPi, CPiFed, CPiFinished,
    CRetries, CSent, CSession, CSessionFed, CSessionFinished, CSessionTaken, CSettings, CWritten,
};

// SAFETY: the signatures and layouts are those of crates/host/src. A `safe fn` takes values alone.
unsafe extern "C" {
    pub safe fn wigtalom_result_ack(model: DeviceModel, src: u8, type_id: u8) -> CSent;
    pub safe fn wigtalom_keepalive(model: DeviceModel) -> CKeepalive;
    fn wigtalom_model(payload: *const u8, payload_len: usize) -> DeviceModel;

    pub safe fn wigtalom_dsp_new() -> CDspFed;
    pub safe fn wigtalom_dsp_check(seq: CDsp, now: u64) -> CDspFed;
    pub safe fn wigtalom_dsp_result(seq: CDsp) -> CDspFinished;
    pub safe fn wigtalom_dsp_take_refused(seq: CDsp) -> CDspTaken;
    fn wigtalom_dsp_sheet(seq: CDsp, buf: *mut u8, buf_len: usize, at: usize) -> CWritten;
    fn wigtalom_dsp_feed(
        seq: CDsp,
        env: CEnvelope,
        text: *const u8,
        text_len: usize,
        payload: *const u8,
        payload_len: usize,
        now: u64,
    ) -> CDspFed;

    pub safe fn wigtalom_avr_new() -> CAvrFed;
    pub safe fn wigtalom_avr_new_for(model: DeviceModel) -> CAvrFed;
    pub safe fn wigtalom_avr_check(seq: CAvr, now: u64) -> CAvrFed;
    pub safe fn wigtalom_avr_result(seq: CAvr) -> CAvrFinished;
    fn wigtalom_avr_sheet(seq: CAvr, buf: *mut u8, buf_len: usize, at: usize) -> CWritten;
    fn wigtalom_avr_feed(
        seq: CAvr,
        env: CEnvelope,
        text: *const u8,
        text_len: usize,
        payload: *const u8,
        payload_len: usize,
        now: u64,
        wall: u64,
    ) -> CAvrFed;

    pub safe fn wigtalom_pi_new() -> CPiFed;
    pub safe fn wigtalom_pi_result(seq: CPi) -> CPiFinished;
    fn wigtalom_pi_sheet(seq: CPi, buf: *mut u8, buf_len: usize, at: usize) -> CWritten;
    fn wigtalom_pi_feed(
        seq: CPi,
        env: CEnvelope,
        text: *const u8,
        text_len: usize,
        payload: *const u8,
        payload_len: usize,
    ) -> CPiFed;

    pub safe fn wigtalom_session_new() -> CSessionFed;
    pub safe fn wigtalom_session_check(session: CSession, now: u64) -> CSessionFed;
    pub safe fn wigtalom_session_result(session: CSession) -> CSessionFinished;
    pub safe fn wigtalom_session_take_refused(session: CSession) -> CSessionTaken;
    fn wigtalom_session_sheet(
        session: CSession,
        start_up: u8,
        buf: *mut u8,
        buf_len: usize,
        at: usize,
    ) -> CWritten;
    fn wigtalom_session_feed(
        session: CSession,
        env: CEnvelope,
        text: *const u8,
        text_len: usize,
        payload: *const u8,
        payload_len: usize,
        now: u64,
        wall: u64,
    ) -> CSessionFed;

    pub safe fn wigtalom_mode_only(mode: u8) -> CSettings;
    pub safe fn wigtalom_mevo_settings(
        mode: u8,
        ball_type: u8,
        track_fraction: f64,
        tee_height_m: f64,
        radar_cal: RadarCal,
    ) -> CSettings;
    pub safe fn wigtalom_avr_config_new(settings: CSettings) -> CAvrConfigFed;
    fn wigtalom_avr_config_feed(
        seq: CAvrConfig,
        env: CEnvelope,
        text: *const u8,
        text_len: usize,
        payload: *const u8,
        payload_len: usize,
    ) -> CAvrConfigFed;

    pub safe fn wigtalom_arm_new() -> CArmFed;
    pub safe fn wigtalom_arm_new_for(model: DeviceModel) -> CArmFed;
    pub safe fn wigtalom_arm_retries(seq: CArm) -> CRetries;
    fn wigtalom_arm_feed(
        seq: CArm,
        env: CEnvelope,
        text: *const u8,
        text_len: usize,
        payload: *const u8,
        payload_len: usize,
    ) -> CArmFed;

    pub safe fn wigtalom_disarm_new() -> CDisarmFed;
    fn wigtalom_disarm_feed(
        seq: CDisarm,
        env: CEnvelope,
        text: *const u8,
        text_len: usize,
        payload: *const u8,
        payload_len: usize,
    ) -> CDisarmFed;
}

/// An envelope, with its bytes beside it.
#[derive(Clone, Copy)]
pub struct Lent<'a> {
    pub env: CEnvelope,
    pub text: &'a [u8],
    pub payload: &'a [u8],
}

pub fn model(payload: &[u8]) -> DeviceModel {
    // SAFETY: pointer and length are those of a slice.
    unsafe { wigtalom_model(payload.as_ptr(), payload.len()) }
}

/// Defines a feed over the library's: the lent bytes as pointers and lengths.
macro_rules! feed {
    ($name:ident($seq:ty $(, $clock:ident)*) -> $fed:ty, $library:ident) => {
        pub fn $name(seq: $seq, lent: &Lent, $($clock: u64,)*) -> $fed {
            let (text, payload) = (lent.text, lent.payload);
            let (t, t_len, p, p_len) = (text.as_ptr(), text.len(), payload.as_ptr(), payload.len());
            // SAFETY: pointers and lengths are those of slices that outlive the call.
            unsafe { $library(seq, lent.env, t, t_len, p, p_len, $($clock,)*) }
        }
    };
}

feed!(dsp_feed(CDsp, now) -> CDspFed, wigtalom_dsp_feed);
feed!(avr_feed(CAvr, now, wall) -> CAvrFed, wigtalom_avr_feed);
feed!(pi_feed(CPi) -> CPiFed, wigtalom_pi_feed);
feed!(session_feed(CSession, now, wall) -> CSessionFed, wigtalom_session_feed);
feed!(avr_config_feed(CAvrConfig) -> CAvrConfigFed, wigtalom_avr_config_feed);
feed!(arm_feed(CArm) -> CArmFed, wigtalom_arm_feed);
feed!(disarm_feed(CDisarm) -> CDisarmFed, wigtalom_disarm_feed);

/// Defines a sheet over the library's: the lent buffer as pointer and length.
macro_rules! sheet {
    ($name:ident($seq:ty), $library:ident) => {
        pub fn $name(seq: $seq, buf: &mut [u8], at: usize) -> CWritten {
            // SAFETY: pointer and length are those of a slice that the call alone has.
            unsafe { $library(seq, buf.as_mut_ptr(), buf.len(), at) }
        }
    };
}

sheet!(dsp_sheet(CDsp), wigtalom_dsp_sheet);
sheet!(avr_sheet(CAvr), wigtalom_avr_sheet);
sheet!(pi_sheet(CPi), wigtalom_pi_sheet);

/// The same of a session's start-up, which is told by its number.
pub fn session_sheet((session, start_up): (CSession, u8), buf: &mut [u8], at: usize) -> CWritten {
    let (to, len) = (buf.as_mut_ptr(), buf.len());
    // SAFETY: pointer and length are those of a slice that the call alone has.
    unsafe { wigtalom_session_sheet(session, start_up, to, len, at) }
}
