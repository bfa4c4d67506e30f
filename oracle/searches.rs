//! The two findings that no short list shows: one over every list of a length, one over random lists.
use crate::{frame, P};
use esc_manager::*;
use ferrowasp_blheli_telemetry::decode;

/// One of eight steps at a time t: queue, acknowledge, poll, frame, recover, cut, wait 20, wait 100.
fn step(m: &mut EscManager, step: u64, last: &mut EscActuatorRequest, t: &mut u64) {
    match step {
        0 => {
            if let Some(request) = m.next_request(*t) {
                *last = request;
                m.mark_request_queued(request, *t);
            }
        }
        1 => {
            m.on_actuator_ack(EscActuatorAck { request: *last, started_at_ms: *t });
        }
        2 => {
            m.poll_timeout(*t);
        }
        3 => {
            for b in frame(30) {
                m.push_wire_byte(b, *t);
            }
        }
        4 => {
            m.try_recover(*t, false);
        }
        5 => m.record_wire_discontinuity(),
        6 => *t += 20,
        _ => *t += 100,
    }
}

/// Whether a manager shows an open request: a frame or an acknowledgement is taken, a poll times out, or one can be queued.
fn open(m: &mut EscManager, last: EscActuatorRequest, t: u64) -> bool {
    let after = EscActuatorRequest { sequence: last.sequence.wrapping_add(1), ..last };
    let unsolicited = m.stats().unsolicited_frames;
    m.record_wire_discontinuity();
    frame(30).iter().any(|b| m.push_wire_byte(*b, t).is_some())
        || m.stats().unsolicited_frames != unsolicited + 1
        || m.on_actuator_ack(EscActuatorAck { request: last, started_at_ms: t }) != EscAckOutcome::Rejected
        || m.poll_timeout(t + 1_000_000).is_some()
        || m.poll_timeout(t.wrapping_sub(1_000_000)).is_some()
        || m.next_request(t).is_some()
        || m.mark_request_queued(after, t)
}

/// Every list of at most so many steps, each on a new manager.
pub fn every_list(longest: u32) -> String {
    let (mut lists, mut faulted, mut opened) = (0, 0, 0);
    for length in 0..=longest {
        for list in 0..8u64.pow(length) {
            let mut m = EscManager::new(EscManagerConfig { recovery_quiet_ms: 5, ..P }, 0);
            let (mut last, mut t) = (m.next_request(0).unwrap(), 0);
            (0..length).for_each(|i| step(&mut m, list >> (3 * i) & 7, &mut last, &mut t));
            lists += 1;
            if m.is_faulted() {
                faulted += 1;
                opened += open(&mut m, last, t) as u64;
            }
        }
    }
    format!("lists tried {lists}, faulted at the end {faulted}, of these with an open request {opened}")
}

/// Random lists of at most sixteen samples and questions, up to the first verdict.
pub fn random_lists(count: u64) -> String {
    let mut state = 1u64;
    let mut below = |n: u64| {
        state = state.wrapping_mul(6364136223846793005).wrapping_add(1442695040888963407);
        (state >> 33) % n
    };
    let (mut by_observe, mut by_status) = (0, 0);
    for _ in 0..count {
        let settings = EscIdleQualificationConfig {
            min_erpm_div100: 30,
            max_erpm_div100: 100,
            spinup_grace_ms: below(20) as u32,
            timeout_ms: 20 + below(60) as u32,
            max_sample_age_ms: 1 + below(30) as u32,
            required_consecutive_samples: 1 + below(2) as u8,
        };
        let mut check = EscIdleQualification::new(settings, below(20));
        let mut clock = below(40);
        for _ in 0..16 {
            clock += below(4);
            let now = if below(10) == 0 { below(60) } else { clock };
            let (status, qualified) = if below(3) == 0 {
                (check.status(now), &mut by_status)
            } else {
                let sample = decode(&frame(29 + (below(20) != 0) as u16)).unwrap();
                let output = EscOutput::ALL[below(4) as usize];
                let observed_at_ms = now - below(5).min(now);
                let observation = EscTelemetryObservation { sample, observed_at_ms, request_sequence: 0 };
                (check.observe(EscTelemetryUpdate { output, observation }, now), &mut by_observe)
            };
            if status != EscIdleQualificationStatus::Pending {
                *qualified += (status == EscIdleQualificationStatus::Qualified) as u64;
                break;
            }
        }
    }
    format!("first Qualified from observe {by_observe}, from status {by_status}")
}
