//! The bytes of a record, by document 01's table: what a generator sends.
use crate::unit::Record;

pub fn write_record(r: &Record) -> Vec<u8> {
    match *r {
        Record::Open(c, boot) => {
            let times = [c.boot_delay_ms, c.request_period_ms, c.actuator_ack_timeout_ms, c.telemetry_response_timeout_ms, c.recovery_quiet_ms];
            let fields: Vec<[u8; 4]> = times.iter().map(|t| t.to_be_bytes()).collect();
            [&[0x00], fields.as_flattened(), &boot.to_be_bytes()].concat()
        }
        Record::Next(t) => [&[0x01], &t.to_be_bytes()[..]].concat(),
        Record::Mark(s, l, t) => [&[0x02], &s.to_be_bytes()[..], &[l], &t.to_be_bytes()].concat(),
        Record::Ack(s, l, started, now) => [&[0x03], &s.to_be_bytes()[..], &[l], &started.to_be_bytes(), &now.to_be_bytes()].concat(),
        Record::Poll(t) => [&[0x04], &t.to_be_bytes()[..]].concat(),
        Record::Byte(b, t) => [&[0x05, b], &t.to_be_bytes()[..]].concat(),
        Record::Cut => vec![0x06],
        Record::Recover(armed, t) => [&[0x07, armed.into()], &t.to_be_bytes()[..]].concat(),
        Record::Take => vec![0x08],
        Record::Refresh => vec![0x09],
        Record::Idle(c, start) => [
            &[0x0a],
            &c.min_erpm_div100.to_be_bytes()[..],
            &c.max_erpm_div100.to_be_bytes(),
            &c.spinup_grace_ms.to_be_bytes(),
            &c.timeout_ms.to_be_bytes(),
            &c.max_sample_age_ms.to_be_bytes(),
            &[c.required_consecutive_samples],
            &start.to_be_bytes(),
        ]
        .concat(),
        Record::Status(t) => [&[0x0b], &t.to_be_bytes()[..]].concat(),
        Record::Report => vec![0x0c],
        Record::Stored(l) => vec![0x0d, l],
        Record::Figures(l) => vec![0x0e, l],
    }
}
