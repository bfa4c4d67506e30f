//! The letters of a line's digits: small, capitals, or both (document 02, Q-1).
use crate::record_bytes::write_record;
use crate::rng::Rng;
use crate::session::{hex, Session};
use crate::unit::Record;
use esc_manager::{EscIdleQualificationConfig, EscManagerConfig};
use ferrowasp_blheli_telemetry::crc8;

/// Which letters a line has: small ones, capitals.
pub fn letters(line: &[u8]) -> (bool, bool) {
    (line.iter().any(|c| (b'a'..=b'f').contains(c)), line.iter().any(|c| (b'A'..=b'F').contains(c)))
}

fn capitals(_: &mut Rng, line: &mut [u8]) {
    line.make_ascii_uppercase();
}
/// A capital where a coin says so.
fn mixed(g: &mut Rng, line: &mut [u8]) {
    line.iter_mut().filter(|_| g.chance(2)).for_each(u8::make_ascii_uppercase);
}
/// A small line in one of the three ways.
pub fn any(g: &mut Rng, line: &mut [u8]) {
    match g.n(3) {
        0 => {}
        1 => capitals(g, line),
        _ => mixed(g, line),
    }
}

/// A time with every letter.
const T: u64 = 0xabcd_efab_cdef_abcd;

/// A frame with a letter in each byte, its eRPM / 100 from 0baa on.
fn frame() -> [u8; 10] {
    let frames = (0xaa..=0xff).map(|low| [0xab, 0xbc, 0xcd, 0xde, 0xef, 0xfa, 0xa0, 0x0b, low]).map(|f| (f, crc8(&f)));
    let (nine, check) = frames.into_iter().find(|(_, check)| letters(&hex(&[*check])).0).unwrap();
    [&nine[..], &[check]].concat().try_into().unwrap()
}

/// Records of every kind at that time, a delivered sample among them.
fn lettered() -> Vec<Record> {
    let config = EscManagerConfig {
        boot_delay_ms: 0,
        request_period_ms: 0,
        actuator_ack_timeout_ms: 0xabcd,
        telemetry_response_timeout_ms: 0xabcdef,
        recovery_quiet_ms: 0xfedcba,
    };
    let check = EscIdleQualificationConfig {
        min_erpm_div100: 0xab,
        max_erpm_div100: 0xabcd,
        spinup_grace_ms: 0,
        timeout_ms: 0xabcdef,
        max_sample_age_ms: 0xfedcba,
        required_consecutive_samples: 0xaf,
    };
    let mut all = vec![Record::Open(config, T), Record::Idle(check, T), Record::Next(T), Record::Mark(0, 0, T), Record::Ack(0, 0, T, T)];
    all.extend(frame().map(|b| Record::Byte(b, T)));
    all.extend([Record::Status(T), Record::Stored(0), Record::Figures(0), Record::Refresh, Record::Report]);
    all.extend([Record::Poll(T), Record::Recover(false, T), Record::Take, Record::Cut]);
    all
}

/// Before an opening.
pub fn unopened(s: &mut Session) {
    for line in ["0C", "0D00", "0B000000000000ABCD", "05aB00000000fFfFfFfF"] {
        assert_eq!(s.line(line.as_bytes()), Err(8));
    }
}

/// Every kind in capitals and in both, and lines with capitals that are refused.
pub fn each(s: &mut Session) {
    for write in [capitals, mixed] {
        for record in lettered() {
            let mut line = hex(&write_record(&record));
            write(&mut s.g, &mut line);
            s.line(&line).unwrap();
        }
    }
    let armed = "07AB".repeat(5);
    for line in ["A".repeat(59).as_str(), "AG", "@F", "06A", "0F", "FA", "0A", "0CAB", "0DFF", "0EAF", &armed] {
        s.line(line.as_bytes()).unwrap_err();
    }
}
