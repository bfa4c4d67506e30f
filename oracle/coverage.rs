//! What a session reached: named situations, each with a count. They are told from the records and the
//! answers alone, by a count of the unit's state that is kept here and decides no answer.
use crate::layout::{read_line, read_record, LENGTHS};
use crate::letters::letters;
use crate::limits::{field, values, FIELDS};
use crate::noise::CHARACTERS;
use crate::situations::{asked, Situation};
use crate::unit::{Answer, Record, Sample, Status};
use esc_manager::{EscIdleQualificationConfig, EscManagerConfig};
use ferrowasp_blheli_telemetry::crc8;
use std::collections::HashMap;

#[derive(Clone, Copy)]
struct Request {
    sequence: u32,
    lane: u8,
    queued: u64,
    started: Option<u64>,
    /// Frames since the 02.
    early: u32,
    /// Bytes that the parser held at the 02, as long as no frame ended since.
    begun: usize,
}

struct Check {
    config: EscIdleQualificationConfig,
    start: u64,
    verdict: bool,
    counts: [u8; 4],
    newest: [Option<u64>; 4],
}

/// The unit since its opening.
struct State {
    config: EscManagerConfig,
    boot: u64,
    open: Option<Request>,
    turn: (u32, u8),
    queued: Option<u64>,
    faulted: bool,
    quiet: u64,
    retries: u32,
    note: Option<u32>,
    taken: bool,
    held: Vec<u8>,
    /// Of them, those from before the latest timeout.
    torn: usize,
    discarded: u32,
    renewed: bool,
    stored: [bool; 4],
    lost: [bool; 4],
    figures: [u32; 4],
    figures_before_recovery: [u32; 4],
    last_temperature: [u8; 4],
    check: Option<Check>,
}

#[derive(Default)]
pub struct Coverage {
    counts: HashMap<Situation, u64>,
    state: Option<State>,
}

fn due(start: u64, now: u64, d: u32) -> bool {
    now.wrapping_sub(start) >= d as u64
}
/// Due at `now` and not a millisecond before; or due a millisecond after, and not yet.
fn at_limit(start: u64, now: u64, d: u32) -> bool {
    d != 0 && now.wrapping_sub(start) == d as u64
}
fn one_early(start: u64, now: u64, d: u32) -> bool {
    d != 0 && now.wrapping_sub(start) == d as u64 - 1
}
pub fn status_number(s: &Status) -> u64 {
    match s {
        Status::NoCheck => 0,
        Status::Pending => 1,
        Status::Qualified => 2,
        Status::Invalid => 3,
        Status::Overspeed(..) => 4,
        Status::Timeout(_) => 5,
    }
}

impl Coverage {
    pub fn count(&mut self, name: &'static str, n: u64) {
        *self.counts.entry((name, n)).or_default() += 1;
    }
    fn count_if(&mut self, holds: bool, name: &'static str, n: u64) {
        if holds {
            self.count(name, n);
        }
    }

    pub fn see(&mut self, line: &[u8], reply: &Result<Answer, u8>) {
        match reply {
            Err(number) => self.refused(line, *number),
            Ok(answer) => {
                let mut room = [0; 29];
                let bytes = read_line(line, &mut room).unwrap();
                self.fields(bytes);
                self.letters(line, bytes[0]);
                let record = read_record(bytes).unwrap();
                let state = self.state.take();
                self.state = Some(match record {
                    Record::Open(config, boot) => self.opened(config, boot, state),
                    _ => self.accepted(state.unwrap(), record, *answer),
                });
            }
        }
    }

    fn fields(&mut self, record: &[u8]) {
        for (name, kind, at, bytes) in FIELDS {
            if kind == record[0] && bytes != 0 {
                let value = field(record, at, bytes);
                self.count_if(values(bytes).contains(&value), name, value);
            }
        }
    }

    fn letters(&mut self, line: &[u8], kind: u8) {
        let (small, capitals) = letters(line);
        self.count_if(capitals && !small, "in capitals, kind", kind.into());
        self.count_if(capitals && small, "in small letters and capitals, kind", kind.into());
        if let (0x05, Some(s)) = (kind, &self.state) {
            let held = s.held.len() as u64;
            self.count_if(letters(&line[2..4]).1, "05, its byte in capitals, bytes held", held);
        }
        for byte in line.chunks(2) {
            byte.iter().filter(|c| c.is_ascii_uppercase()).for_each(|c| self.count("a capital", (*c).into()));
            let capital_first = byte[0].is_ascii_uppercase();
            self.count_if(letters(byte) == (true, true), "a byte of both letters, the capital at", !capital_first as u64);
        }
    }

    fn refused(&mut self, line: &[u8], number: u8) {
        let digit = u8::is_ascii_hexdigit;
        self.count_if(letters(line).1, "refused with capitals, number", number.into());
        let odd = line.iter().find(|c| !digit(c));
        if let Some(s) = &self.state {
            let (open, held) = (s.open.is_some(), !s.held.is_empty());
            self.count_if(open, "refused with a request open, number", number.into());
            self.count_if(held, "refused inside a frame, number", number.into());
        }
        let closed = self.state.is_none();
        let mut room = [0; 29];
        let record = read_line(line, &mut room).unwrap_or(&[]);
        let kind = record.first().map_or(0, |k| *k as u64);
        match number {
            1 => {
                self.count_if(line.len() == 59, "1: 59 characters", 0);
                self.count_if(line.len() > 5_000, "1: more than 5,000 characters", 0);
                self.count_if(line.len() > 65_536, "1: more than 65,536 characters", 0);
                self.count_if(odd.is_some(), "1 before 2", 0);
            }
            2 => {
                let c = *odd.unwrap();
                self.count_if(CHARACTERS.contains(&c), "2: character", c.into());
                self.count_if(line.len() == 58, "2: 58 characters", 0);
                self.count_if(line.len() % 2 == 1, "2 before 3", 0);
                self.count_if(line.last() == Some(&b'\r') && line[..line.len() - 1].iter().all(digit), "2: a line ended by CR LF", 0);
            }
            3 => self.count("3: characters", line.len() as u64),
            4 if record.is_empty() => self.count("4: an empty line", 0),
            4 => self.count_if([0x0f, 0x10, 0x7f, 0x80, 0xff].contains(&kind), "4: kind", kind),
            5 => {
                let n = LENGTHS[kind as usize];
                self.count_if(record.len() + 1 == n, "5: a byte short, kind", kind);
                self.count_if(record.len() == n + 1, "5: a byte long, kind", kind);
                self.count_if(closed, "5 before 8", 0);
            }
            6 => {
                let lane = record[if kind < 4 { 5 } else { 1 }];
                self.count_if(lane == 4, "6: lane 4, kind", kind);
                self.count_if(lane == 255, "6: lane 255, kind", kind);
                self.count_if(closed, "6 before 8, kind", kind);
            }
            7 => {
                self.count("7: armed", record[1].into());
                self.count_if(closed, "7 before 8", 0);
            }
            _ => self.count("8: kind", kind),
        }
    }

    fn opened(&mut self, config: EscManagerConfig, boot: u64, before: Option<State>) -> State {
        self.count("00", 0);
        if let Some(s) = before {
            self.count_if(s.open.is_some(), "00 over an open request", 0);
            self.count_if(!s.held.is_empty(), "00 over bytes held", 0);
            self.count_if(s.faulted, "00 over a fault", 0);
        }
        State {
            config,
            boot,
            open: None,
            turn: (0, 0),
            queued: None,
            faulted: false,
            quiet: 0,
            retries: 0,
            note: None,
            taken: false,
            held: Vec::new(),
            torn: 0,
            discarded: 0,
            renewed: true,
            stored: [false; 4],
            lost: [false; 4],
            figures: [0; 4],
            figures_before_recovery: [0; 4],
            last_temperature: [0; 4],
            check: None,
        }
    }

    fn accepted(&mut self, mut s: State, record: Record, answer: Answer) -> State {
        let c = s.config;
        match (record, answer) {
            (Record::Next(t), Answer::Request(given)) => {
                self.count_if(given.is_none(), "01 none", 0);
                if let Some((q, lane)) = given {
                    self.count("01 request, lane", lane.into());
                    self.count_if(q > 255, "01 a sequence above 255", 0);
                    self.count_if(at_limit(s.boot, t, c.boot_delay_ms), "01 request at the boot delay", 0);
                    self.count_if(s.queued.is_some_and(|q| at_limit(q, t, c.request_period_ms)), "01 request at the period", 0);
                    self.count_if(t < s.boot, "01 request, the clock wrapped since the boot", 0);
                } else {
                    self.count_if(s.faulted, "01 none, faulted", 0);
                    self.count_if(s.open.is_some(), "01 none, a request open", 0);
                    let ready = !s.faulted && s.open.is_none();
                    let waits = s.queued.is_some_and(|q| !due(q, t, c.request_period_ms));
                    self.count_if(ready && !waits && one_early(s.boot, t, c.boot_delay_ms), "01 none, a ms before the boot delay", 0);
                    let booted = due(s.boot, t, c.boot_delay_ms);
                    self.count_if(ready && booted && s.queued.is_some_and(|q| one_early(q, t, c.request_period_ms)), "01 none, a ms before the period", 0);
                }
            }
            (Record::Mark(q, lane, t), Answer::YesNo(true)) => {
                self.count("02 yes, lane", lane.into());
                self.count_if(!s.held.is_empty(), "02 yes inside a frame", 0);
                s.open = Some(Request { sequence: q, lane, queued: t, started: None, early: 0, begun: s.held.len() });
                s.queued = Some(t);
                s.turn = (q.wrapping_add(1), (lane + 1) % 4);
            }
            (Record::Mark(q, lane, t), _) => {
                self.count("02 no", 0);
                let waits = !due(s.boot, t, c.boot_delay_ms) || s.queued.is_some_and(|q| !due(q, t, c.request_period_ms));
                if s.faulted {
                    self.count("02 no, faulted", 0);
                } else if s.open.is_some() {
                    self.count("02 no, a request open", 0);
                } else if waits {
                    self.count("02 no, not yet", 0);
                } else {
                    self.count_if(q != s.turn.0 && lane == s.turn.1, "02 no, another sequence", 0);
                    self.count_if(q == s.turn.0 && lane != s.turn.1, "02 no, another lane", 0);
                }
            }
            (Record::Ack(q, lane, started, now), a) => {
                if s.faulted {
                    self.count(if started > s.quiet { "03 moves the quiet start" } else { "03 leaves the quiet start" }, 0);
                    s.quiet = s.quiet.max(started);
                }
                match a {
                    Answer::Delivered(sample, status) => {
                        self.count("03 sample, status", status_number(&status));
                        let early = s.open.unwrap().early;
                        self.count_if(early == 1, "03 sample, one early frame", 0);
                        self.count_if(early > 1, "03 sample, the early frame replaced", 0);
                        self.delivered(&mut s, sample, status, now);
                    }
                    Answer::Accepted => {
                        self.count("03 accepted", 0);
                        s.open.as_mut().unwrap().started = Some(started);
                    }
                    _ => {
                        self.count("03 rejected", 0);
                        match s.open {
                            None => self.count("03 rejected, nothing open", 0),
                            Some(o) => {
                                let (same_q, same_l) = (o.sequence == q, o.lane == lane);
                                self.count_if(!same_q && same_l, "03 rejected, another sequence", 0);
                                self.count_if(same_q && !same_l, "03 rejected, another lane", 0);
                                self.count_if(same_q && same_l, "03 rejected, a second one", 0);
                                self.count_if(!(same_q && same_l) && o.early > 0, "03 rejected, a frame held", 0);
                            }
                        }
                    }
                }
            }
            (Record::Poll(t), Answer::TimedOut(out)) => {
                match (out, s.open) {
                    (None, o) => {
                        self.count("04 none", 0);
                        self.count_if(o.is_none(), "04 none, nothing open", 0);
                        if let Some(o) = o {
                            let (early, name) = match o.started {
                                None => (one_early(o.queued, t, c.actuator_ack_timeout_ms), "04 none, a ms before the acknowledgement timeout"),
                                Some(started) => (one_early(started, t, c.telemetry_response_timeout_ms), "04 none, a ms before the response timeout"),
                            };
                            self.count_if(early, name, 0);
                        }
                    }
                    (Some((false, _, lane)), Some(o)) => {
                        self.count("04 acknowledgement timeout, lane", lane.into());
                        self.count_if(at_limit(o.queued, t, c.actuator_ack_timeout_ms), "04 acknowledgement timeout at its limit", 0);
                        self.count_if(t < o.queued, "04 acknowledgement timeout, the clock wrapped", 0);
                        self.count_if(o.early > 0, "04 drops a held frame", 0);
                    }
                    (Some((true, _, lane)), Some(o)) => {
                        let started = o.started.unwrap();
                        self.count("04 response timeout, lane", lane.into());
                        self.count_if(at_limit(started, t, c.telemetry_response_timeout_ms), "04 response timeout at its limit", 0);
                        self.count_if(t < started, "04 response timeout, the clock wrapped", 0);
                    }
                    (Some(_), None) => unreachable!(),
                }
                if out.is_some() {
                    self.count_if(!s.held.is_empty(), "04 timeout inside a frame", 0);
                    (s.open, s.faulted, s.quiet, s.torn) = (None, true, t, s.held.len());
                }
            }
            (Record::Byte(b, t), a) => {
                if s.faulted {
                    self.count(if t > s.quiet { "05 moves the quiet start" } else { "05 leaves the quiet start" }, 0);
                    s.quiet = s.quiet.max(t);
                }
                s.held.push(b);
                let mut whole = s.held.len() == 10;
                if whole && crc8(&s.held[..9]) != b {
                    self.count("05 a wrong check byte", 0);
                    (whole, s.renewed) = (false, false);
                    s.held.remove(0);
                    s.torn = s.torn.saturating_sub(1);
                    s.discarded += 1;
                }
                if whole {
                    self.count_if(s.discarded > 0 && s.discarded < 10, "05 a frame after a dropped byte", 0);
                    self.count_if(s.discarded >= 10, "05 a frame after a damaged one", 0);
                    self.count_if(s.held[0] == 0, "05 a frame that begins with 00", 0);
                    self.count_if(s.torn > 0, "05 a frame over a timeout", 0);
                    s.held.clear();
                    s.torn = 0;
                    (s.discarded, s.renewed) = (0, true);
                }
                match a {
                    Answer::Delivered(sample, status) => {
                        self.count("05 sample, status", status_number(&status));
                        self.count_if(s.open.unwrap().begun > 0, "05 sample, its bytes began before the 02", 0);
                        self.delivered(&mut s, sample, status, t);
                    }
                    _ => {
                        self.count("05 none", 0);
                        if whole {
                            match &mut s.open {
                                None if s.faulted => self.count("05 an unsolicited frame, faulted", 0),
                                None => self.count("05 an unsolicited frame", 0),
                                Some(o) => {
                                    let name = if o.early == 0 { "05 a frame held" } else { "05 a held frame replaced" };
                                    (o.early, o.begun) = (o.early + 1, 0);
                                    self.count(name, 0);
                                }
                            }
                            self.count_if(s.retries != 0 && s.open.is_none(), "05 an unsolicited frame does not end retries", 0);
                        }
                    }
                }
            }
            (Record::Cut, _) => {
                self.count("06 with bytes held", s.held.len() as u64);
                s.held.clear();
                (s.discarded, s.torn) = (0, 0);
                s.open.iter_mut().for_each(|o| o.begun = 0);
            }
            (Record::Recover(armed, t), a) => {
                let need = (c.recovery_quiet_ms as u64) << s.retries.min(3);
                let quiet = t.saturating_sub(s.quiet);
                if a == Answer::YesNo(true) {
                    self.count("07 yes", 0);
                    self.count_if(need != 0 && quiet == need, "07 yes at the limit, retries", s.retries.into());
                    self.count_if(!s.held.is_empty(), "07 yes inside a frame", 0);
                    self.count_if(s.stored.contains(&true), "07 yes drops stored samples", 0);
                    for l in 0..4 {
                        s.lost[l] |= s.stored[l];
                    }
                    (s.stored, s.faulted) = ([false; 4], false);
                    s.figures_before_recovery = s.figures;
                    s.retries += 1;
                    s.held.clear();
                    (s.discarded, s.torn) = (0, 0);
                } else {
                    self.count("07 no", 0);
                    self.count_if(!s.faulted, "07 no, not faulted", 0);
                    self.count_if(s.faulted && armed && quiet >= need, "07 no, armed", 0);
                    self.count_if(s.faulted && !armed && need != 0 && quiet == need - 1 && t >= s.quiet, "07 no, a ms early, retries", s.retries.into());
                    self.count_if(s.faulted && !armed && t < s.quiet, "07 no, before the quiet start", 0);
                }
            }
            (Record::Take, Answer::Note(note)) => {
                match note {
                    None => self.count(if s.taken { "08 none, the note was taken" } else { "08 none" }, 0),
                    Some(n) => self.count("08 note", n.min(6).into()),
                }
                s.taken |= note.is_some();
                s.note = None;
            }
            (Record::Refresh, _) => {
                self.count("09", 0);
                self.count_if(!s.renewed, "09 renews the counts", 0);
                s.renewed = true;
            }
            (Record::Idle(config, start), _) => {
                self.count("0a", 0);
                self.count_if(s.check.as_ref().is_some_and(|q| q.verdict), "0a after a verdict", 0);
                self.count_if(s.check.as_ref().is_some_and(|q| !q.verdict), "0a before a verdict", 0);
                s.check = Some(Check { config, start, verdict: false, counts: [0; 4], newest: [None; 4] });
            }
            (Record::Status(t), Answer::Status(status)) => {
                self.count("0b status", status_number(&status));
                if let Some(q) = &mut s.check {
                    self.judged(q, None, status, t);
                }
            }
            (Record::Report, Answer::Report(faulted, retrying, counts)) => {
                self.count("0c faulted and retrying", faulted as u64 * 10 + retrying as u64);
                for (i, n) in counts.iter().enumerate() {
                    self.count_if(*n != 0, "0c count above 0, its place", i as u64);
                }
                self.count_if(!s.renewed, "0c counts not renewed", 0);
            }
            (Record::Stored(lane), Answer::Stored(stored)) => {
                let l = lane as usize;
                self.count(if stored.is_some() { "0d sample, lane" } else { "0d none, lane" }, lane.into());
                self.count_if(stored.is_none() && s.lost[l], "0d none after a recovery, lane", lane.into());
            }
            (Record::Figures(lane), Answer::Figures(n, hottest, _)) => {
                let l = lane as usize;
                self.count(if n == 0 { "0e none, lane" } else { "0e figures, lane" }, lane.into());
                self.count_if(n != 0 && n == s.figures_before_recovery[l], "0e kept over a recovery, lane", lane.into());
                self.count_if(n > 1 && hottest > s.last_temperature[l], "0e hottest of an earlier sample", 0);
            }
            (r, a) => unreachable!("{r:?} {a:?}"),
        }
        s
    }

    fn delivered(&mut self, s: &mut State, sample: Sample, status: Status, now: u64) {
        let l = sample.0 as usize;
        if s.retries != 0 {
            self.count_if(s.note.is_some(), "a note replaced by a later one", 0);
            s.note = Some(s.retries);
            s.taken = false;
        }
        (s.retries, s.open, s.stored[l], s.lost[l]) = (0, None, true, false);
        s.figures[l] += 1;
        s.last_temperature[l] = sample.3[0];
        if let Some(q) = &mut s.check {
            self.judged(q, Some(sample), status, now);
        }
    }

    /// A status answered by a check.
    fn judged(&mut self, q: &mut Check, sample: Option<Sample>, status: Status, now: u64) {
        if q.verdict {
            self.count("a verdict stays, status", status_number(&status));
            return;
        }
        let c = q.config;
        q.verdict = status != Status::Pending;
        let causes = [
            c.min_erpm_div100 == 0,
            c.min_erpm_div100 >= c.max_erpm_div100,
            c.spinup_grace_ms >= c.timeout_ms,
            c.max_sample_age_ms == 0,
            c.required_consecutive_samples == 0,
        ];
        if status == Status::Invalid {
            if causes.iter().filter(|x| **x).count() == 1 {
                self.count("invalid settings, cause", causes.iter().position(|x| *x).unwrap() as u64);
            }
            return;
        }
        if let Some((lane, _, observed, payload)) = sample {
            if !due(q.start, now, c.spinup_grace_ms) {
                self.count("a sample before the grace is over", 0);
                self.count_if(one_early(q.start, now, c.spinup_grace_ms), "a sample a ms before the grace is over", 0);
                return;
            }
            self.count_if(at_limit(q.start, now, c.spinup_grace_ms), "a sample when the grace is over", 0);
            let (l, e) = (lane as usize, u16::from_be_bytes([payload[7], payload[8]]));
            self.count_if(e == c.min_erpm_div100, "eRPM at min", 0);
            self.count_if(e == c.max_erpm_div100, "eRPM at max", 0);
            self.count_if(e == c.max_erpm_div100.wrapping_add(1) && e != 0, "eRPM one above max", 0);
            self.count_if(e > c.max_erpm_div100, "overspeed, lane", lane.into());
            if e > c.max_erpm_div100 {
                return;
            }
            if e < c.min_erpm_div100 {
                self.count_if(e + 1 == c.min_erpm_div100 && q.counts[l] > 0, "eRPM one below min clears its lane", 0);
                (q.counts[l], q.newest[l]) = (0, None);
            } else {
                self.count_if(q.counts[l] == 255, "an idle count held at 255", 0);
                (q.counts[l], q.newest[l]) = (q.counts[l].saturating_add(1), Some(observed));
            }
        }
        let limit = c.max_sample_age_ms.saturating_add(1);
        let (mut oldest, mut expired) = (false, false);
        for l in 0..4 {
            let Some(observed) = q.newest[l] else { continue };
            let at_age = one_early(observed, now, limit) && limit != c.max_sample_age_ms;
            self.count_if(at_age, "a sample at its age limit", 0);
            self.count_if(at_limit(observed, now, limit), "a sample expired by a ms", 0);
            self.count_if(at_limit(observed, now, limit) && limit == c.max_sample_age_ms, "age 2^32 - 1 expires at 2^32 - 1", 0);
            oldest |= at_age;
            expired |= at_limit(observed, now, limit);
            if due(observed, now, limit) {
                (q.counts[l], q.newest[l]) = (0, None);
            }
        }
        let late = due(q.start, now, c.timeout_ms);
        match status {
            Status::Qualified => {
                self.count_if(late, "qualified after the timeout", 0);
                self.count_if(now < q.start, "qualified, the clock wrapped", 0);
                self.count_if(c.required_consecutive_samples > 1, "qualified, more than one sample a lane", 0);
            }
            Status::Timeout(counts) => {
                self.count_if(at_limit(q.start, now, c.timeout_ms), "idle timeout at its limit", 0);
                self.count_if(counts.iter().any(|n| *n > 0), "idle timeout with counts", 0);
                self.count_if(now < q.start, "idle timeout, the clock wrapped", 0);
                self.count_if(oldest, "idle timeout, a sample at its age limit counts", 0);
                self.count_if(expired, "idle timeout, a sample expired by a ms does not count", 0);
                self.count_if(sample.is_some_and(|x| !due(q.start, x.2, c.timeout_ms)), "idle timeout by a sample observed before it", 0);
            }
            _ => self.count_if(one_early(q.start, now, c.timeout_ms), "pending a ms before the idle timeout", 0),
        }
    }

    /// Every situation that is asked, with its count.
    pub fn table(&self, many: bool) -> Vec<(Situation, u64)> {
        asked(many).into_iter().map(|s| (s, self.counts.get(&s).copied().unwrap_or(0))).collect()
    }
}
