//! Random flights: turns, outages, idle checks and damage on the wire, on a clock that may jump and
//! wrap. The unit runs along, so that a flight can name the right request.
use crate::rng::Rng;
use crate::unit::{Answer, Record, Unit};
use esc_manager::{EscIdleQualificationConfig, EscManagerConfig};

pub struct Flight {
    pub config: EscManagerConfig,
    pub boot: u64,
    now: u64,
    /// Whether single records come with a clock that jumped.
    wild: bool,
    /// Records that are to come; their times and requests are set when they do.
    queue: Vec<Record>,
    /// The request of the latest 02 answered yes.
    granted: (u32, u8),
    checked: bool,
}

impl Flight {
    pub fn new(g: &mut Rng) -> Self {
        let config = EscManagerConfig {
            boot_delay_ms: g.pick(&[0, 0, 5, 20]),
            request_period_ms: g.pick(&[0, 0, 3, 20]),
            actuator_ack_timeout_ms: g.pick(&[0, 5, 20, 20]),
            telemetry_response_timeout_ms: g.pick(&[0, 5, 30, 100]),
            recovery_quiet_ms: g.pick(&[0, 1, 5, 20, u32::MAX]),
        };
        let now: u64 = g.pick(&[0, 0, 100, 1 << 32, u64::MAX - 60, u64::MAX - 5]);
        let boot = now.wrapping_sub(g.n(6));
        let wild = g.chance(3);
        Self { config, boot, now, wild, queue: Vec::new(), granted: (0, 0), checked: false }
    }

    pub fn opening(&self) -> Record {
        Record::Open(self.config, self.boot)
    }

    pub fn saw(&mut self, record: &Record, answer: &Answer) {
        match (record, answer) {
            (Record::Mark(s, l, _), Answer::YesNo(true)) => self.granted = (*s, *l),
            (Record::Idle(..), _) => self.checked = true,
            _ => {}
        }
    }

    fn bytes(&mut self, bytes: &[u8]) {
        self.queue.extend(bytes.iter().map(|b| Record::Byte(*b, 0)));
    }

    pub fn next(&mut self, g: &mut Rng, unit: &Unit) -> Record {
        loop {
            let mut t = self.now;
            if self.wild && g.chance(4) {
                let now = self.now;
                t = g.pick(&[now.wrapping_sub(1), now.wrapping_sub(30), now.wrapping_add(40), 0, u64::MAX, now.wrapping_add(1 << 40)]);
            }
            let (s, l) = self.granted;
            if !self.queue.is_empty() && !g.chance(12) {
                return match self.queue.remove(0) {
                    Record::Byte(b, _) => Record::Byte(b, t),
                    Record::Mark(..) => {
                        let (s, l) = unit.next_request(t).unwrap_or((0, 0));
                        Record::Mark(s, l, t)
                    }
                    Record::Ack(..) => Record::Ack(s, l, t, t),
                    x => x,
                };
            }
            match g.n(34) {
                0 => return Record::Next(t),
                1..=5 => {
                    let (s, l) = unit.next_request(t).unwrap_or_else(|| (g.n(4) as u32, g.n(4) as u8));
                    return Record::Mark(s, if g.chance(8) { g.n(4) as u8 } else { l }, t);
                }
                6..=9 => {
                    let started = g.pick(&[t, t, t.wrapping_sub(2), t.wrapping_add(3)]);
                    return Record::Ack(s, if g.chance(8) { g.n(4) as u8 } else { l }, started, t);
                }
                10 => return Record::Poll(t),
                11..=14 => {
                    let erpm = g.pick(&[50, 50, 50, 50, 50, 50, 50, 50, 30, 30, 60, 100, 29, 101]);
                    let mut bytes = g.frame(erpm).to_vec();
                    match g.n(16) {
                        0 => {
                            bytes.remove(g.n(10) as usize);
                        }
                        1 => bytes.insert(g.n(10) as usize, g.byte()),
                        2 => bytes[g.n(10) as usize] ^= 1,
                        _ => {}
                    }
                    self.bytes(&bytes);
                }
                15 => return if g.chance(4) { Record::Cut } else { Record::Byte(0, t) },
                16 | 17 => return Record::Recover(g.chance(4), t),
                18 => return g.pick(&[Record::Take, Record::Refresh]),
                19 if self.checked && !g.chance(3) => return Record::Status(t),
                19 => {
                    let config = EscIdleQualificationConfig {
                        min_erpm_div100: g.pick(&[30, 30, 30, 30, 30, 30, 30, 0, 100]),
                        max_erpm_div100: 100,
                        spinup_grace_ms: g.pick(&[0, 0, 3, 10]),
                        timeout_ms: g.pick(&[60, 300, 3, u32::MAX]),
                        max_sample_age_ms: g.pick(&[1, 30, 200, u32::MAX, u32::MAX - 1, u32::MAX, 0]),
                        required_consecutive_samples: g.pick(&[1, 1, 1, 2, 0]),
                    };
                    return Record::Idle(config, t);
                }
                20 => return Record::Report,
                21 => {
                    let lane = g.n(4) as u8;
                    return g.pick(&[Record::Stored(lane), Record::Figures(lane)]);
                }
                24..=31 => {
                    // a whole turn: 02, 03 and a frame in some order
                    let erpm = g.pick(&[50, 30, 100, 60, 50, 50, 29]);
                    let (frame, early) = (g.frame(erpm), g.chance(3));
                    self.queue.push(Record::Mark(0, 0, 0));
                    if !early {
                        self.queue.push(Record::Ack(0, 0, 0, 0));
                    }
                    self.bytes(&frame);
                    if early {
                        self.queue.push(Record::Ack(0, 0, 0, 0));
                    }
                }
                32 => {
                    // an outage: 02, waiting, 04, waiting, 07
                    self.now = self.now.wrapping_add(1);
                    let later = self.now.wrapping_add(30);
                    let quiet = g.pick(&[0, 1, 5, 20, 40, 160]);
                    self.queue.extend([Record::Mark(0, 0, 0), Record::Poll(later), Record::Recover(false, later.wrapping_add(quiet))]);
                }
                _ => self.now = self.now.wrapping_add(g.pick(&[1, 1, 2, 5, 20])),
            }
        }
    }
}
