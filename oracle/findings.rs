//! Runs a list of docs/DIFFERENCES.md on the two Rust files, compiled unchanged: standard input is the list, standard
//! output the same list with the results that the Rust gives. README.md says how a list is written.
mod searches;
mod texts;

use esc_manager::*;
use ferrowasp_blheli_telemetry::{crc8, decode, StreamParser};
use std::hint::black_box;
use std::io::{read_to_string, stdin};
use std::str::FromStr;
use texts::Text;

const P: EscManagerConfig = EscManagerConfig {
    boot_delay_ms: 0,
    request_period_ms: 0,
    actuator_ack_timeout_ms: 20,
    telemetry_response_timeout_ms: 100,
    recovery_quiet_ms: 500,
};

// ---- the words of a call ----

fn words(call: &str) -> Vec<&str> {
    call.split(|c| " ,;()".contains(c)).filter(|w| !w.is_empty()).collect()
}
fn number<T: FromStr>(word: &str) -> Option<T> {
    word.parse().ok()
}
fn output(word: &str) -> Option<EscOutput> {
    EscOutput::ALL.into_iter().find(|o| o.text() == word)
}
fn request(sequence: &str, lane: &str) -> Option<EscActuatorRequest> {
    Some(EscActuatorRequest {
        sequence: number(sequence)?,
        output: output(lane)?,
        operation: EscOperation::RequestTelemetry,
    })
}
fn observed(lane: &str, erpm: &str, time: &str) -> Option<EscTelemetryUpdate> {
    let sample = decode(&frame(number(erpm)?)).ok()?;
    let observation = EscTelemetryObservation { sample, observed_at_ms: number(time)?, request_sequence: 0 };
    Some(EscTelemetryUpdate { output: output(lane)?, observation })
}

/// A good frame with an eRPM / 100, its other fields zero.
fn frame(erpm: u16) -> [u8; 10] {
    let mut f = [0u8; 10];
    f[7..9].copy_from_slice(&erpm.to_be_bytes());
    f[9] = crc8(&f[..9]);
    f
}
fn bytes(words: &[&str]) -> Option<impl Iterator<Item = u8>> {
    let hex = |words: &[&str]| words.iter().map(|w| u8::from_str_radix(w, 16).ok()).collect::<Option<Vec<u8>>>();
    let (turn, count) = match words {
        ["F"] => (frame(30).to_vec(), 10),
        ["F", erpm] => (frame(number(erpm)?).to_vec(), 10),
        [turn @ .., "..", count, "bytes"] => (hex(turn)?, number(count)?),
        all => (hex(all)?, all.len()),
    };
    Some((0..count).map(move |i| turn[i % turn.len()]))
}
fn ten(words: &[&str]) -> Option<[u8; 10]> {
    bytes(words)?.collect::<Vec<u8>>().try_into().ok()
}

fn manager(words: &[&str]) -> Option<EscManager> {
    let (mut c, changes) = match words {
        ["legacy_uart", changes @ ..] => (EscManagerConfig::legacy_uart(), changes),
        ["P", changes @ ..] | changes => (P, changes),
    };
    let mut start = 0;
    for change in changes.chunks(2) {
        match *change {
            ["boot", n] => c.boot_delay_ms = number(n)?,
            ["period", n] => c.request_period_ms = number(n)?,
            ["ack", n] => c.actuator_ack_timeout_ms = number(n)?,
            ["response", n] => c.telemetry_response_timeout_ms = number(n)?,
            ["quiet", n] => c.recovery_quiet_ms = number(n)?,
            ["boot_started", t] => start = number(t)?,
            _ => return None,
        }
    }
    Some(EscManager::new(c, start))
}

fn limits(words: &[&str]) -> Option<EscIdleQualificationConfig> {
    let mut c = DSHOT_IDLE_QUALIFICATION_CONFIG;
    let (["DSHOT_IDLE_QUALIFICATION_CONFIG", changes @ ..] | changes) = words;
    for change in changes.chunks(2) {
        match *change {
            ["min", n] => c.min_erpm_div100 = number(n)?,
            ["max", n] => c.max_erpm_div100 = number(n)?,
            ["grace", n] => c.spinup_grace_ms = number(n)?,
            ["timeout", n] => c.timeout_ms = number(n)?,
            ["age", n] => c.max_sample_age_ms = number(n)?,
            ["required", n] => c.required_consecutive_samples = number(n)?,
            _ => return None,
        }
    }
    Some(c)
}

// ---- calls ----

/// What a call gives, made once or, by `N times` at its end, N times; then it must give the same each time.
fn repeated<T: PartialEq>(times: &[&str], mut call: impl FnMut() -> T) -> Option<T> {
    let more = match times {
        [] => 0,
        [n, "times"] => number::<u64>(n)?.checked_sub(1)?,
        _ => return None,
    };
    let first = call();
    (0..more).all(|_| black_box(call()) == first).then_some(first)
}

/// The shorthands of README.md have no result where they hold.
fn holds(all: bool) -> String {
    if all {
        String::new()
    } else {
        "does not hold".into()
    }
}

fn outage(m: &mut EscManager, q: EscActuatorRequest, t: u64) -> bool {
    m.mark_request_queued(q, t) && m.poll_timeout(t + 20) == Some(EscManagerTimeout::ActuatorAck(q))
}

fn turn(m: &mut EscManager, q: EscActuatorRequest, frame: [u8; 10], t: u64) -> Option<EscTelemetryUpdate> {
    let asked = m.mark_request_queued(q, t)
        && m.on_actuator_ack(EscActuatorAck { request: q, started_at_ms: t }) == EscAckOutcome::Accepted;
    let given: Vec<_> = frame.iter().filter_map(|b| m.push_wire_byte(*b, t + 1)).collect();
    let observation =
        EscTelemetryObservation { sample: decode(&frame).ok()?, observed_at_ms: t + 1, request_sequence: q.sequence };
    let wanted = EscTelemetryUpdate { output: q.output, observation };
    (asked && given == [wanted]).then_some(wanted)
}

fn lost(m: &mut EscManager, t: u64) -> bool {
    let Some(q) = m.next_request(t) else { return false };
    q.output.index() as u32 == q.sequence % 4
        && m.mark_request_queued(q, t)
        && m.poll_timeout(t) == Some(EscManagerTimeout::ActuatorAck(q))
        && m.try_recover(t, false)
}

/// What calls are made on: the latest of each that the list made.
#[derive(Default)]
struct Run {
    manager: Option<EscManager>,
    parser: Option<StreamParser>,
    check: Option<EscIdleQualification>,
    sample: Option<EscTelemetryUpdate>,
}

impl Run {
    /// The result of a call, empty where it gives nothing; `None` where the words make no call.
    fn call(&mut self, words: &[&str]) -> Option<String> {
        match *words {
            ["new", ref settings @ ..] => (self.manager, self.parser) = (Some(manager(settings)?), None),
            ["StreamParser::new"] => self.parser = Some(StreamParser::new()),
            ["idle", ref settings @ .., "start", t] => {
                self.check = Some(EscIdleQualification::new(limits(settings)?, number(t)?))
            }
            _ => {
                return self
                    .on_parser(words)
                    .or_else(|| self.on_check(words))
                    .or_else(|| self.on_manager(words))
                    .or_else(|| alone(words))
            }
        }
        Some(String::new())
    }

    fn on_parser(&mut self, words: &[&str]) -> Option<String> {
        let p = self.parser.as_mut()?;
        Some(match words {
            ["push", b @ ..] => {
                let given =
                    bytes(b)?.zip(1u64..).filter_map(|(b, n)| Some(format!("byte {n}: Some({})", p.push(b)?.text())));
                texts::some_of(given)
            }
            ["reset"] => p.reset().text(),
            ["stats"] => p.stats().text(),
            _ => return None,
        })
    }

    fn on_check(&mut self, words: &[&str]) -> Option<String> {
        let q = self.check.as_mut()?;
        Some(match *words {
            ["observe", "that", "sample", "now", t] => q.observe(self.sample?, number(t)?).text(),
            ["observe", o, "erpm", e, "observed_at", at, "now", t] => q.observe(observed(o, e, at)?, number(t)?).text(),
            ["status", t] => q.status(number(t)?).text(),
            ["consecutive_samples"] => q.consecutive_samples().text(),
            _ => return None,
        })
    }

    fn on_manager(&mut self, words: &[&str]) -> Option<String> {
        let m = self.manager.as_mut()?;
        Some(match *words {
            ["next_request", t] => m.next_request(number(t)?).text(),
            ["mark_request_queued", "seq", s, o, t] => m.mark_request_queued(request(s, o)?, number(t)?).text(),
            ["on_actuator_ack", "seq", s, o, "started_at", t, ref times @ ..] => {
                let ack = EscActuatorAck { request: request(s, o)?, started_at_ms: number(t)? };
                let outcome = repeated(times, || m.on_actuator_ack(ack))?;
                if let EscAckOutcome::Sample(update) = outcome {
                    self.sample = Some(update);
                }
                outcome.text()
            }
            ["poll_timeout", t] => m.poll_timeout(number(t)?).text(),
            ["push_wire_byte", ref b @ .., t] => {
                let t = number(t)?;
                let given: Vec<_> = bytes(b)?.filter_map(|b| m.push_wire_byte(b, t)).collect();
                self.sample = given.last().copied().or(self.sample);
                texts::some_of(given.iter().map(|update| Some(*update).text()))
            }
            ["record_wire_discontinuity"] => m.record_wire_discontinuity().text(),
            ["try_recover", t, "armed", armed] => m.try_recover(number(t)?, number(armed)?).text(),
            ["take_back_after_retries"] => m.take_back_after_retries().text(),
            ["refresh_wire_stats"] => m.refresh_wire_stats().text(),
            ["is_faulted"] => m.is_faulted().text(),
            ["is_retrying"] => m.is_retrying().text(),
            ["samples"] => m.samples().text(),
            ["stats"] => m.stats().text(),
            ["stats", count] => texts::count(m.stats(), count)?,
            ["outage", "seq", s, o, t] => holds(outage(m, request(s, o)?, number(t)?)),
            ["turn", "seq", s, o, ref b @ .., t] => {
                self.sample = turn(m, request(s, o)?, ten(b)?, number(t)?);
                holds(self.sample.is_some())
            }
            ["lost", t, ref times @ ..] => {
                let t = number(t)?;
                holds(repeated(times, || lost(m, t)) == Some(true))
            }
            ["that", "sample"] => self.sample?.observation.sample.text(),
            _ => return None,
        })
    }
}

/// Calls that are made on nothing.
fn alone(words: &[&str]) -> Option<String> {
    Some(match words {
        ["ESC_REQUEST_EXPIRY_MS"] => ESC_REQUEST_EXPIRY_MS.text(),
        ["is_valid", settings @ ..] => limits(settings)?.is_valid().text(),
        ["decode", b @ ..] => decode(&ten(b)?).ok()?.text(),
        ["every_list", longest] => searches::every_list(number(longest)?),
        ["random_lists", count] => searches::random_lists(number(count)?),
        _ => return None,
    })
}

fn main() {
    let mut run = Run::default();
    for (line, n) in read_to_string(stdin()).unwrap().lines().zip(1..) {
        let call = line.split(" -> ").next().unwrap();
        if line.is_empty() || line.starts_with('(') {
            println!("{line}");
            continue;
        }
        match run.call(&words(call)).as_deref() {
            Some("") => println!("{call}"),
            Some(result) => println!("{call} -> {result}"),
            None => {
                eprintln!("findings: line {n} cannot be run: {line}");
                std::process::exit(1);
            }
        }
    }
}
