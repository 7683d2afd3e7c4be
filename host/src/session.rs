//! The session: the start-ups of a whole unit.

use crate::avr::{self, AvrSequencer, AvrState, AvrSync};
use crate::command::Action;
use crate::convert;
use crate::dsp::{self, DspSequencer, DspState, DspSync};
use crate::ffi;
use crate::message::Envelope;
use crate::pi::{self, PiSequencer, PiState, PiSync};
use crate::records::{CSession, CSessionFed};
use crate::refusal::Refusal;
use crate::sheet::{self, StartUp};

/// The start-up of a whole unit: the DSP first, then the AVR with the model
/// that the DSP found, and at the same time the Pi where that model has a
/// camera. It is handed whatever comes from the unit, in any order, and gives
/// what to send.
///
/// Until the DSP is done all goes to the DSP alone. What ends it goes no
/// further: the first sends of the AVR and the Pi answer it. Each later
/// envelope goes to all, and a check to the DSP and the AVR.
///
/// ```
/// use wigtalom::{Refusal, Session, StartUp};
///
/// let (mut session, first) = Session::new();
/// assert_eq!(first.len(), 1);
/// assert_eq!(session.check(1_000), Ok(vec![]));
/// assert_eq!(session.into_result(), Err(Refusal::NotDone));
/// assert_eq!(session.sheet(StartUp::Avr), "");
/// ```
#[derive(Debug, Clone)]
pub struct Session(CSession);

/// What a session gives: the results of all start-ups that the model has.
#[derive(Debug, Clone, PartialEq)]
pub struct SessionSync {
    /// Of the DSP; the model among it.
    pub dsp: DspSync,
    /// Of the AVR.
    pub avr: AvrSync,
    /// Of the Pi; `None` of a model without a camera.
    pub pi: Option<PiSync>,
}

/// What a session has stored so far.
#[derive(Debug, Clone, PartialEq)]
pub struct SessionState {
    /// Of the DSP. Its last reading is the session's.
    pub dsp: DspState,
    /// Of the AVR; `None` before the DSP is done.
    pub avr: Option<AvrState>,
    /// Of the Pi; `None` before the DSP is done, and of a model without a
    /// camera.
    pub pi: Option<PiState>,
}

impl Session {
    /// A session at its beginning, and what to send first, to the DSP.
    #[must_use]
    pub fn new() -> (Self, Vec<Action>) {
        let begun = ffi::wigtalom_session_new();
        (Self(begun.session), convert::all_sends(&begun.actions))
    }

    /// Hands in what came from the unit, from whichever device. Gives what to
    /// send, in this order: two commands at most, the Pi's behind the AVR's.
    /// `now` is the clock's reading in nanoseconds, `wall` the seconds since
    /// 1970, which the unit's clock is set to.
    ///
    /// # Errors
    ///
    /// A text (1) or payload (2) over 256 bytes, a reading too large (3) or
    /// below the last one of the session (11). Then the session is as it was.
    pub fn feed(&mut self, env: &Envelope, now: u64, wall: u64) -> Result<Vec<Action>, Refusal> {
        self.follow(&ffi::session_feed(self.0, &env.lent(), now, wall))
    }

    /// Goes on without a reply that is overdue, or sends the AVR's refused
    /// poll again. To be called now and then. Gives what to send: none, one
    /// command, or two where it ends the DSP.
    ///
    /// # Errors
    ///
    /// A reading too large (3) or below the last one of the session (11).
    pub fn check(&mut self, now: u64) -> Result<Vec<Action>, Refusal> {
        self.follow(&ffi::wigtalom_session_check(self.0, now))
    }

    fn follow(&mut self, fed: &CSessionFed) -> Result<Vec<Action>, Refusal> {
        Refusal::check(fed.refusal)?;
        self.0 = fed.session;
        Ok(convert::all_sends(&fed.actions))
    }

    /// The nack with which the DSP refused the power-mode write, once.
    #[must_use]
    pub fn take_refused(&mut self) -> Option<Envelope> {
        let taken = ffi::wigtalom_session_take_refused(self.0);
        self.0 = taken.session;
        taken.refused.value()
    }

    /// Whether all start-ups that the model has are complete. That of a model
    /// without a camera waits for no Pi.
    #[must_use]
    pub fn is_complete(&self) -> bool {
        ffi::wigtalom_session_result(self.0).refusal == 0
    }

    /// The results of all start-ups that the model has. The session stays,
    /// since a refusal mustn't lose it.
    ///
    /// # Errors
    ///
    /// A start-up isn't complete (12).
    #[allow(clippy::wrong_self_convention)] // the name that the start-ups have
    pub fn into_result(&self) -> Result<SessionSync, Refusal> {
        let finished = ffi::wigtalom_session_result(self.0);
        Refusal::check(finished.refusal)?;
        let pi = &finished.pi;
        Ok(SessionSync {
            dsp: dsp::sync(&finished.dsp),
            avr: avr::sync(&finished.avr),
            pi: pi.some.then(|| pi::sync(&pi.value)),
        })
    }

    /// The sheet of one of its start-ups, as
    /// [`DspSequencer::sheet`](crate::DspSequencer::sheet) has it. It is empty
    /// before that start-up begins, and of a Pi that the model doesn't have.
    #[must_use]
    pub fn sheet(&self, start_up: StartUp) -> String {
        sheet::whole((self.0, start_up.number()), ffi::session_sheet)
    }

    /// Writes the sheet of one of its start-ups into the part of `buf` that
    /// begins at place `at` and reaches to the buffer's end. Gives how many
    /// bytes were written. Those before the place and behind the sheet stay.
    ///
    /// # Errors
    ///
    /// The part is shorter than the sheet, or the place is past the buffer's
    /// end (5), also of an empty sheet. Then nothing is written.
    pub fn sheet_into(
        &self,
        start_up: StartUp,
        buf: &mut [u8],
        at: usize,
    ) -> Result<usize, Refusal> {
        ffi::session_sheet((self.0, start_up.number()), buf, at).value()
    }

    /// What is stored so far, for logs and tests.
    #[must_use]
    pub fn state(&self) -> SessionState {
        let (avr, pi) = (&self.0.avr, &self.0.pi);
        SessionState {
            dsp: DspSequencer(self.0.dsp).state(),
            avr: avr.some.then(|| AvrSequencer(avr.value).state()),
            pi: pi.some.then(|| PiSequencer(pi.value).state()),
        }
    }
}
