//! Results as the lists of findings write them.
use esc_manager::*;
use ferrowasp_blheli_telemetry::{EscTelemetry, ParserStats};

pub trait Text {
    fn text(&self) -> String;
}

impl Text for () {
    fn text(&self) -> String {
        String::new()
    }
}
impl Text for bool {
    fn text(&self) -> String {
        self.to_string()
    }
}
impl Text for u8 {
    fn text(&self) -> String {
        self.to_string()
    }
}
impl Text for u32 {
    fn text(&self) -> String {
        self.to_string()
    }
}
impl<T: Text> Text for Option<T> {
    fn text(&self) -> String {
        self.as_ref().map_or("None".into(), |x| format!("Some({})", x.text()))
    }
}
impl<T: Text, const N: usize> Text for [T; N] {
    fn text(&self) -> String {
        format!("[{}]", self.each_ref().map(T::text).join(", "))
    }
}

impl Text for EscTelemetry {
    fn text(&self) -> String {
        format!(
            "temperature_c {}, voltage_cv {}, current_ca {}, consumption_mah {}, erpm_div100 {}",
            self.temperature_c, self.voltage_cv, self.current_ca, self.consumption_mah, self.erpm_div100
        )
    }
}
impl Text for ParserStats {
    fn text(&self) -> String {
        format!(
            "valid_frames {}, crc_failures {}, discarded_bytes {}",
            self.valid_frames, self.crc_failures, self.discarded_bytes
        )
    }
}
impl Text for EscOutput {
    fn text(&self) -> String {
        format!("{self:?}")
    }
}
impl Text for EscActuatorRequest {
    fn text(&self) -> String {
        format!("seq {}, {}", self.sequence, self.output.text())
    }
}
impl Text for EscTelemetryObservation {
    fn text(&self) -> String {
        format!(
            "seq {}, observed_at {}, erpm_div100 {}",
            self.request_sequence, self.observed_at_ms, self.sample.erpm_div100
        )
    }
}
impl Text for EscTelemetryUpdate {
    fn text(&self) -> String {
        format!("{}, {}", self.output.text(), self.observation.text())
    }
}
impl Text for EscAckOutcome {
    fn text(&self) -> String {
        match self {
            Self::Sample(update) => format!("Sample({})", update.text()),
            other => format!("{other:?}"),
        }
    }
}
impl Text for EscManagerTimeout {
    fn text(&self) -> String {
        match self {
            Self::ActuatorAck(request) => format!("ActuatorAck({})", request.text()),
            Self::TelemetryResponse(request) => format!("TelemetryResponse({})", request.text()),
        }
    }
}
impl Text for EscIdleQualificationStatus {
    fn text(&self) -> String {
        use EscIdleQualificationFailure::*;
        match self {
            Self::Failed(Overspeed { output, erpm_div100 }) => {
                format!("Failed(Overspeed {}, {erpm_div100})", output.text())
            }
            Self::Failed(Timeout { consecutive_samples }) => format!("Failed(Timeout {})", consecutive_samples.text()),
            other => format!("{other:?}"),
        }
    }
}

/// The ten counts in the order of the structure.
impl Text for EscManagerStats {
    fn text(&self) -> String {
        let w = self.wire;
        [
            self.requests_queued,
            self.requests_started,
            self.actuator_ack_timeouts,
            self.telemetry_response_timeouts,
            self.mismatched_acks,
            self.unsolicited_frames,
            self.recoveries,
            w.valid_frames,
            w.crc_failures,
            w.discarded_bytes,
        ]
        .text()
    }
}

/// A field of the manager's counts, by its name behind a dot.
pub fn count(s: EscManagerStats, field: &str) -> Option<String> {
    Some(match field {
        ".requests_queued" => s.requests_queued.text(),
        ".requests_started" => s.requests_started.text(),
        ".actuator_ack_timeouts" => s.actuator_ack_timeouts.text(),
        ".telemetry_response_timeouts" => s.telemetry_response_timeouts.text(),
        ".mismatched_acks" => s.mismatched_acks.text(),
        ".unsolicited_frames" => s.unsolicited_frames.text(),
        ".recoveries" => s.recoveries.text(),
        ".wire" => s.wire.text(),
        _ => return None,
    })
}

/// What the bytes of one push gave.
pub fn some_of(given: impl Iterator<Item = String>) -> String {
    let all: Vec<_> = given.collect();
    if all.is_empty() {
        "None".into()
    } else {
        all.join("; ")
    }
}
