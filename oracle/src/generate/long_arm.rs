//! An arm with as many nacks as are counted, and some more.

use crate::list::Which;
use crate::refusal::MOST_RETRIES;
use crate::running::View;

const BEGIN: &str = "arm Mevo";
const DSP_STATUS: &str = "feed 0 Dsp 0xAA DspStatus V46 state=1 version=0x46";
const AVR_STATUS: &str = "feed 0 Avr 0xAA AvrStatus version=24 state=0 hw_id_hi=1 hw_id_lo=35 \
    full_app_id=0 temperature=0x0000000000000000 tilt=0x0000000000000000 roll=0x0000000000000000";
const NACK: &str = "feed 0 Avr 0x94 ConfigNack bus_addr=0x30 acked_cmd=0x30";
const ACK: &str = "feed 0 Avr 0x95 ConfigAck bus_addr=0x30 acked_cmd=0x30";

/// In so many lines `retries` is asked for once.
const BETWEEN_ASKINGS: u64 = 997;

/// Makes its lines.
#[derive(Default)]
pub struct LongArm {
    lines: u64,
    /// The last lines, the next one at the end.
    end: Option<Vec<String>>,
}

impl LongArm {
    /// The next line, for the state that the lines before it left. At the
    /// end there is none, and the arm goes on as any other.
    pub fn line(&mut self, view: Option<View>) -> Option<String> {
        self.lines += 1;
        if let Some(end) = &mut self.end {
            return end.pop();
        }
        let Some(view) = view.filter(|view| self.lines > 1 && view.which == Which::Arm) else {
            return Some(BEGIN.to_string());
        };
        if self.lines.is_multiple_of(BETWEEN_ASKINGS) {
            return Some("retries".to_string());
        }
        let line = match view.step.name {
            "WaitDspStatus" => DSP_STATUS,
            "WaitAvrStatus" => AVR_STATUS,
            "WaitArmAck" if view.retries == Some(MOST_RETRIES) => {
                return self.end.insert(end()).pop();
            }
            "WaitArmAck" => NACK,
            _ => BEGIN,
        };
        Some(line.to_string())
    }
}

/// Nacks that are not counted, nacks that are refused, and the ack.
fn end() -> Vec<String> {
    let mut lines = vec![
        NACK.replace("Avr", "Dsp"),
        format!("{NACK} text={}", "41".repeat(257)),
        format!("{NACK} payload={}", "41".repeat(257)),
        NACK.to_string(),
        "retries".to_string(),
        NACK.to_string(),
        ACK.to_string(),
        "retries".to_string(),
    ];
    lines.reverse();
    lines
}
