//! The unit of document 01 over the two Rust files: a record in, an answer out. Figures, which the Rust
//! has not, are written here from the document.
use esc_manager::*;
use ferrowasp_blheli_telemetry::EscTelemetry;

#[derive(Clone, Copy, Debug)]
pub enum Record {
    Open(EscManagerConfig, u64),
    Next(u64),
    Mark(u32, u8, u64),
    Ack(u32, u8, u64, u64),
    Poll(u64),
    Byte(u8, u64),
    Cut,
    Recover(bool, u64),
    Take,
    Refresh,
    Idle(EscIdleQualificationConfig, u64),
    Status(u64),
    Report,
    Stored(u8),
    Figures(u8),
}

/// Lane, sequence, observed time and payload.
pub type Sample = (u8, u32, u64, [u8; 9]);

#[derive(Clone, Copy, Debug, PartialEq)]
pub enum Status {
    NoCheck,
    Pending,
    Qualified,
    Invalid,
    Overspeed(u8, u16),
    Timeout([u8; 4]),
}

#[derive(Clone, Copy, Debug, PartialEq)]
pub enum Answer {
    Nothing,
    YesNo(bool),
    Request(Option<(u32, u8)>),
    /// True is a response timeout.
    TimedOut(Option<(bool, u32, u8)>),
    Rejected,
    Accepted,
    /// A 05 without a sample.
    NoSample,
    Delivered(Sample, Status),
    Status(Status),
    Note(Option<u32>),
    Report(bool, bool, [u32; 10]),
    Stored(Option<Sample>),
    Figures(u32, u8, u16),
}

pub struct Unit {
    manager: EscManager,
    check: Option<EscIdleQualification>,
    /// Samples, hottest, lowest voltage of each lane.
    figures: [(u32, u8, u16); 4],
}

fn lane(output: EscOutput) -> u8 {
    output.index() as u8
}
fn request(sequence: u32, lane: u8) -> EscActuatorRequest {
    EscActuatorRequest { sequence, output: EscOutput::ALL[lane as usize], operation: EscOperation::RequestTelemetry }
}
fn payload(t: &EscTelemetry) -> [u8; 9] {
    let (v, c) = (t.voltage_cv.to_be_bytes(), t.current_ca.to_be_bytes());
    let (m, e) = (t.consumption_mah.to_be_bytes(), t.erpm_div100.to_be_bytes());
    [t.temperature_c, v[0], v[1], c[0], c[1], m[0], m[1], e[0], e[1]]
}
fn sample(lane: u8, o: &EscTelemetryObservation) -> Sample {
    (lane, o.request_sequence, o.observed_at_ms, payload(&o.sample))
}
fn status(s: EscIdleQualificationStatus) -> Status {
    use EscIdleQualificationFailure::*;
    match s {
        EscIdleQualificationStatus::Pending => Status::Pending,
        EscIdleQualificationStatus::Qualified => Status::Qualified,
        EscIdleQualificationStatus::Failed(InvalidConfig) => Status::Invalid,
        EscIdleQualificationStatus::Failed(Overspeed { output, erpm_div100 }) => Status::Overspeed(lane(output), erpm_div100),
        EscIdleQualificationStatus::Failed(Timeout { consecutive_samples }) => Status::Timeout(consecutive_samples),
    }
}

impl Unit {
    pub fn new(config: EscManagerConfig, boot: u64) -> Self {
        Self { manager: EscManager::new(config, boot), check: None, figures: [(0, 0, 0); 4] }
    }
    /// The request that exists at a time.
    pub fn next_request(&self, now: u64) -> Option<(u32, u8)> {
        self.manager.next_request(now).map(|q| (q.sequence, lane(q.output)))
    }

    fn delivered(&mut self, u: EscTelemetryUpdate, now: u64) -> Answer {
        let (t, f) = (&u.observation.sample, &mut self.figures[u.output.index()]);
        *f = match *f {
            (0, _, _) => (1, t.temperature_c, t.voltage_cv),
            (n, hottest, lowest) => (n.saturating_add(1), hottest.max(t.temperature_c), lowest.min(t.voltage_cv)),
        };
        let verdict = self.check.as_mut().map_or(Status::NoCheck, |q| status(q.observe(u, now)));
        Answer::Delivered(sample(lane(u.output), &u.observation), verdict)
    }

    pub fn step(&mut self, record: Record) -> Answer {
        match record {
            Record::Open(config, boot) => {
                *self = Unit::new(config, boot);
                Answer::Nothing
            }
            Record::Next(now) => Answer::Request(self.next_request(now)),
            Record::Mark(s, l, now) => Answer::YesNo(self.manager.mark_request_queued(request(s, l), now)),
            Record::Ack(s, l, started_at_ms, now) => {
                match self.manager.on_actuator_ack(EscActuatorAck { request: request(s, l), started_at_ms }) {
                    EscAckOutcome::Accepted => Answer::Accepted,
                    EscAckOutcome::Rejected => Answer::Rejected,
                    EscAckOutcome::Sample(u) => self.delivered(u, now),
                }
            }
            Record::Poll(now) => Answer::TimedOut(self.manager.poll_timeout(now).map(|x| match x {
                EscManagerTimeout::ActuatorAck(q) => (false, q.sequence, lane(q.output)),
                EscManagerTimeout::TelemetryResponse(q) => (true, q.sequence, lane(q.output)),
            })),
            Record::Byte(b, now) => match self.manager.push_wire_byte(b, now) {
                None => Answer::NoSample,
                Some(u) => self.delivered(u, now),
            },
            Record::Cut => {
                self.manager.record_wire_discontinuity();
                Answer::Nothing
            }
            Record::Recover(armed, now) => Answer::YesNo(self.manager.try_recover(now, armed)),
            Record::Take => Answer::Note(self.manager.take_back_after_retries()),
            Record::Refresh => {
                self.manager.refresh_wire_stats();
                Answer::Nothing
            }
            Record::Idle(config, start) => {
                self.check = Some(EscIdleQualification::new(config, start));
                Answer::Nothing
            }
            Record::Status(now) => Answer::Status(self.check.as_mut().map_or(Status::NoCheck, |q| status(q.status(now)))),
            Record::Report => {
                let s = self.manager.stats();
                let counts = [
                    s.requests_queued, s.requests_started, s.actuator_ack_timeouts, s.telemetry_response_timeouts,
                    s.mismatched_acks, s.unsolicited_frames, s.recoveries,
                    s.wire.valid_frames, s.wire.crc_failures, s.wire.discarded_bytes,
                ];
                Answer::Report(self.manager.is_faulted(), self.manager.is_retrying(), counts)
            }
            Record::Stored(l) => Answer::Stored(self.manager.samples()[l as usize].map(|o| sample(l, &o))),
            Record::Figures(l) => {
                let (n, hottest, lowest) = self.figures[l as usize];
                Answer::Figures(n, hottest, lowest)
            }
        }
    }
}
