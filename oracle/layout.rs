//! Records and answers as bytes and as lines, by document 01's tables.
use crate::unit::{Answer, Record, Sample, Status, Unit};
use esc_manager::{EscIdleQualificationConfig, EscManagerConfig};

/// Bytes of a record of each kind.
pub const LENGTHS: [usize; 15] = [29, 9, 14, 22, 9, 10, 1, 10, 1, 1, 26, 9, 1, 2, 2];

/// Takes fields off the front of a record; highest byte first.
struct Fields<'a>(&'a [u8]);
impl Fields<'_> {
    fn take<const N: usize>(&mut self) -> [u8; N] {
        let (field, rest) = self.0.split_first_chunk().unwrap();
        self.0 = rest;
        *field
    }
    fn u8(&mut self) -> u8 {
        u8::from_be_bytes(self.take())
    }
    fn u16(&mut self) -> u16 {
        u16::from_be_bytes(self.take())
    }
    fn u32(&mut self) -> u32 {
        u32::from_be_bytes(self.take())
    }
    fn u64(&mut self) -> u64 {
        u64::from_be_bytes(self.take())
    }
    fn lane(&mut self) -> Result<u8, u8> {
        Some(self.u8()).filter(|l| *l <= 3).ok_or(6)
    }
    fn flag(&mut self) -> Result<bool, u8> {
        match self.u8() {
            0 => Ok(false),
            1 => Ok(true),
            _ => Err(7),
        }
    }
}

pub fn read_record(record: &[u8]) -> Result<Record, u8> {
    let kind = *record.first().filter(|k| **k <= 0x0e).ok_or(4)?;
    if record.len() != LENGTHS[kind as usize] {
        return Err(5);
    }
    let mut f = Fields(&record[1..]);
    Ok(match kind {
        0x00 => Record::Open(
            EscManagerConfig {
                boot_delay_ms: f.u32(),
                request_period_ms: f.u32(),
                actuator_ack_timeout_ms: f.u32(),
                telemetry_response_timeout_ms: f.u32(),
                recovery_quiet_ms: f.u32(),
            },
            f.u64(),
        ),
        0x01 => Record::Next(f.u64()),
        0x02 => Record::Mark(f.u32(), f.lane()?, f.u64()),
        0x03 => Record::Ack(f.u32(), f.lane()?, f.u64(), f.u64()),
        0x04 => Record::Poll(f.u64()),
        0x05 => Record::Byte(f.u8(), f.u64()),
        0x06 => Record::Cut,
        0x07 => Record::Recover(f.flag()?, f.u64()),
        0x08 => Record::Take,
        0x09 => Record::Refresh,
        0x0a => Record::Idle(
            EscIdleQualificationConfig {
                min_erpm_div100: f.u16(),
                max_erpm_div100: f.u16(),
                spinup_grace_ms: f.u32(),
                timeout_ms: f.u32(),
                max_sample_age_ms: f.u32(),
                required_consecutive_samples: f.u8(),
            },
            f.u64(),
        ),
        0x0b => Record::Status(f.u64()),
        0x0c => Record::Report,
        0x0d => Record::Stored(f.lane()?),
        _ => Record::Figures(f.lane()?),
    })
}

fn write_sample(&(lane, sequence, observed, payload): &Sample, out: &mut Vec<u8>) {
    out.push(lane);
    out.extend_from_slice(&sequence.to_be_bytes());
    out.extend_from_slice(&observed.to_be_bytes());
    out.extend_from_slice(&payload);
}
fn write_status(s: &Status, out: &mut Vec<u8>) {
    match *s {
        Status::NoCheck => out.push(0),
        Status::Pending => out.push(1),
        Status::Qualified => out.push(2),
        Status::Invalid => out.push(3),
        Status::Overspeed(lane, erpm) => {
            out.extend_from_slice(&[4, lane]);
            out.extend_from_slice(&erpm.to_be_bytes());
        }
        Status::Timeout(counts) => {
            out.push(5);
            out.extend_from_slice(&counts);
        }
    }
}
pub fn write_answer(a: &Answer, out: &mut Vec<u8>) {
    out.push(0);
    match a {
        Answer::Nothing => {}
        Answer::YesNo(yes) => out.push((*yes).into()),
        Answer::Request(None) | Answer::TimedOut(None) | Answer::Rejected | Answer::NoSample | Answer::Note(None) | Answer::Stored(None) => out.push(0),
        Answer::Request(Some((s, l))) => {
            out.push(1);
            out.extend_from_slice(&s.to_be_bytes());
            out.push(*l);
        }
        Answer::TimedOut(Some((response, s, l))) => {
            out.push(1 + *response as u8);
            out.extend_from_slice(&s.to_be_bytes());
            out.push(*l);
        }
        Answer::Accepted => out.push(1),
        Answer::Delivered(sample, status) => {
            out.push(2);
            write_sample(sample, out);
            write_status(status, out);
        }
        Answer::Status(status) => write_status(status, out),
        Answer::Note(Some(n)) => {
            out.push(1);
            out.extend_from_slice(&n.to_be_bytes());
        }
        Answer::Report(faulted, retrying, counts) => {
            out.extend_from_slice(&[(*faulted).into(), (*retrying).into()]);
            for n in counts {
                out.extend_from_slice(&n.to_be_bytes());
            }
        }
        Answer::Stored(Some(sample)) => {
            out.push(1);
            write_sample(sample, out);
        }
        Answer::Figures(samples, hottest, lowest) => {
            out.extend_from_slice(&samples.to_be_bytes());
            out.push(*hottest);
            out.extend_from_slice(&lowest.to_be_bytes());
        }
    }
}

/// One call: the record's answer, or the number that refuses it.
pub fn call(unit: &mut Option<Unit>, record: &[u8]) -> Result<Answer, u8> {
    match (read_record(record)?, unit) {
        (Record::Open(config, boot), unit) => {
            *unit = Some(Unit::new(config, boot));
            Ok(Answer::Nothing)
        }
        (_, None) => Err(8),
        (record, Some(unit)) => Ok(unit.step(record)),
    }
}

const DIGITS: &[u8; 16] = b"0123456789abcdef";
/// Read as well (document 02, Q-1), never printed.
const CAPITALS: &[u8; 16] = b"0123456789ABCDEF";

/// The value of each character that is a digit, 16 of the others.
const VALUES: [u8; 256] = {
    let mut values = [16; 256];
    let mut d = 0;
    while d < 16 {
        values[DIGITS[d] as usize] = d as u8;
        values[CAPITALS[d] as usize] = d as u8;
        d += 1;
    }
    values
};

/// The bytes of a line, in `bytes`; or its number.
pub fn read_line<'a>(line: &[u8], bytes: &'a mut [u8; 29]) -> Result<&'a [u8], u8> {
    if line.len() > 58 {
        return Err(1);
    }
    let (pairs, rest) = line.as_chunks::<2>();
    for (byte, [high, low]) in bytes.iter_mut().zip(pairs) {
        let (high, low) = (VALUES[*high as usize], VALUES[*low as usize]);
        if high | low > 15 {
            return Err(2);
        }
        *byte = high << 4 | low;
    }
    match rest {
        [] => Ok(&bytes[..pairs.len()]),
        [c] if VALUES[*c as usize] > 15 => Err(2),
        _ => Err(3),
    }
}

pub fn print_line(bytes: &[u8], out: &mut Vec<u8>) {
    for b in bytes {
        out.extend_from_slice(&[DIGITS[(b >> 4) as usize], DIGITS[(b & 15) as usize]]);
    }
    out.push(b'\n');
}

/// A session's unit, and room for the answer that it is at.
#[derive(Default)]
pub struct Lines {
    pub unit: Option<Unit>,
    answer: Vec<u8>,
}
impl Lines {
    /// Answers one line, on a line.
    pub fn answer(&mut self, line: &[u8], out: &mut Vec<u8>) -> Result<Answer, u8> {
        let reply = read_line(line, &mut [0; 29]).and_then(|record| call(&mut self.unit, record));
        self.answer.clear();
        match &reply {
            Ok(answer) => write_answer(answer, &mut self.answer),
            Err(number) => self.answer.push(*number),
        }
        print_line(&self.answer, out);
        reply
    }
}
