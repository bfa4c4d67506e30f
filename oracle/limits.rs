//! Well-formed records with numbers at every limit of their fields' types.
use crate::record_bytes::write_record;
use crate::rng::Rng;
use crate::session::{record_on, hex, Session};
use crate::unit::Record;
use esc_manager::{EscIdleQualificationConfig, EscManagerConfig};

/// The values of a field of so many bytes that are tried.
pub fn values(bytes: usize) -> &'static [u64] {
    const BYTE: [u64; 6] = [0, 1, 127, 128, 254, 255];
    const WORD: [u64; 8] = [0, 1, 255, 256, 1 << 15, (1 << 16) - 2, (1 << 16) - 1, 30];
    const LONG: [u64; 9] = [0, 1, (1 << 16) - 1, 1 << 16, (1 << 16) + 1, 1 << 31, (1 << 32) - 2, (1 << 32) - 1, 20];
    const TIME: [u64; 12] =
        [0, 1, (1 << 16) - 1, 1 << 16, (1 << 16) + 1, (1 << 32) - 1, 1 << 32, (1 << 32) + 1, 1 << 63, u64::MAX - 1, u64::MAX, 20];
    match bytes {
        1 => &BYTE,
        2 => &WORD,
        4 => &LONG,
        _ => &TIME,
    }
}

/// The number fields of each kind: name, first byte, bytes. Lanes and flags are left out.
pub const FIELDS: [(&str, u8, usize, usize); 26] = [
    ("00 boot delay", 0x00, 1, 4),
    ("00 period", 0x00, 5, 4),
    ("00 acknowledgement timeout", 0x00, 9, 4),
    ("00 response timeout", 0x00, 13, 4),
    ("00 quiet", 0x00, 17, 4),
    ("00 boot T", 0x00, 21, 8),
    ("01 T", 0x01, 1, 8),
    ("02 S", 0x02, 1, 4),
    ("02 T", 0x02, 6, 8),
    ("03 S", 0x03, 1, 4),
    ("03 started T", 0x03, 6, 8),
    ("03 now T", 0x03, 14, 8),
    ("04 T", 0x04, 1, 8),
    ("05 byte", 0x05, 1, 1),
    ("05 T", 0x05, 2, 8),
    ("07 T", 0x07, 2, 8),
    ("0a min", 0x0a, 1, 2),
    ("0a max", 0x0a, 3, 2),
    ("0a grace", 0x0a, 5, 4),
    ("0a timeout", 0x0a, 9, 4),
    ("0a age", 0x0a, 13, 4),
    ("0a required", 0x0a, 17, 1),
    ("0a start T", 0x0a, 18, 8),
    ("0b T", 0x0b, 1, 8),
    ("0d lane", 0x0d, 1, 0),
    ("0e lane", 0x0e, 1, 0),
];

fn put(record: &mut [u8], at: usize, bytes: usize, value: u64) {
    record[at..at + bytes].copy_from_slice(&value.to_be_bytes()[8 - bytes..]);
}
pub fn field(record: &[u8], at: usize, bytes: usize) -> u64 {
    record[at..at + bytes].iter().fold(0, |n, b| n << 8 | *b as u64)
}

/// Any record but an opening, its numbers at limits.
fn record(g: &mut Rng) -> Record {
    let lane = g.n(4) as u8;
    let [t, now] = [0, 1].map(|_| g.pick(values(8)));
    let far = g.pick(values(4)) as u32;
    let s = g.pick(&[0, 1, 2, 3, far]);
    match g.n(14) {
        0 => Record::Next(t),
        1 => Record::Mark(s, lane, t),
        2 => Record::Ack(s, lane, t, now),
        3 => Record::Poll(t),
        4 => Record::Byte(g.pick(values(1)) as u8, t),
        5 => Record::Cut,
        6 => Record::Recover(g.chance(2), t),
        7 => Record::Take,
        8 => Record::Refresh,
        9 => Record::Idle(check(g), t),
        10 => Record::Status(t),
        11 => Record::Report,
        12 => Record::Stored(lane),
        _ => Record::Figures(lane),
    }
}
fn opening(g: &mut Rng) -> Record {
    let mut n = || g.pick(values(4)) as u32;
    let config = EscManagerConfig {
        boot_delay_ms: n(),
        request_period_ms: n(),
        actuator_ack_timeout_ms: n(),
        telemetry_response_timeout_ms: n(),
        recovery_quiet_ms: n(),
    };
    Record::Open(config, g.pick(values(8)))
}
fn check(g: &mut Rng) -> EscIdleQualificationConfig {
    EscIdleQualificationConfig {
        min_erpm_div100: g.pick(values(2)) as u16,
        max_erpm_div100: g.pick(values(2)) as u16,
        spinup_grace_ms: g.pick(values(4)) as u32,
        timeout_ms: g.pick(values(4)) as u32,
        max_sample_age_ms: g.pick(values(4)) as u32,
        required_consecutive_samples: g.pick(values(1)) as u8,
    }
}

/// Each field of each kind at each of its values, the other fields at limits too.
pub fn each(s: &mut Session) {
    let open = opening(&mut s.g);
    s.send(open);
    for (_, kind, at, bytes) in FIELDS {
        for value in if bytes == 0 { &[0, 1, 2, 3] } else { values(bytes) } {
            let any = loop {
                let r = if kind == 0 { opening(&mut s.g) } else { record(&mut s.g) };
                let bytes = write_record(&r);
                if bytes[0] == kind {
                    break bytes;
                }
            };
            let mut one = any;
            put(&mut one, at, bytes.max(1), *value);
            assert!(record_on(&hex(&one)).is_ok());
            let _ = s.bytes(&one);
        }
    }
}

/// Turns, timeouts and recoveries under settings at limits, the right request named.
pub fn some(s: &mut Session) {
    let open = opening(&mut s.g);
    s.send(open);
    let (mut granted, mut t) = ((0, 0), s.g.pick(values(8)));
    for _ in 0..40 {
        let steps = [0, 0, 1, 20, (1 << 16) - 1, 1 << 16, (1 << 32) - 1, 1 << 32, u64::MAX];
        t = t.wrapping_add(s.g.pick(&steps));
        match s.g.n(8) {
            0 | 1 => {
                if let Some((q, l)) = s.unit().next_request(t) {
                    granted = (q, l);
                    s.send(Record::Mark(q, l, t));
                }
            }
            2 => {
                let (q, l) = granted;
                let started = s.g.pick(&[t, t, t.wrapping_sub(1), 0, u64::MAX]);
                s.send(Record::Ack(q, l, started, t));
            }
            3 => {
                let erpm = s.g.pick(values(2)) as u16;
                for b in s.g.frame(erpm) {
                    s.send(Record::Byte(b, t));
                }
            }
            4 => {
                s.send(Record::Poll(t));
            }
            5 => {
                s.send(Record::Recover(false, t));
            }
            _ => {
                let any = record(&mut s.g);
                s.send(any);
            }
        }
    }
}
