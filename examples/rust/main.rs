//! Every call of esc_unit.rs: a session on standard input, then vectors of crates/vectors and document 01, and a sheet.
mod esc_unit;
use esc_unit::*;
use std::io::{self, Read, Write};

const CRUISE: [u8; FRAME_BYTES] = *b"\x19\x06\x90\x04\xd2\x02\x37\x04\xd2\xbc";
/// The reading of arm 3, from docs/four-arms.txt.
const SAMPLE: [u8; SAMPLE_BYTES] = *b"\x03\0\0\0\x03\0\0\0\0\0\0\x16\x21\x39\x06\x2b\x01\x92\0\xe7\0\x51";
const COUNTING: [u8; FRAME_BYTES] = *b"\x01\x02\x03\x04\x05\x06\x07\x08\x09\x85";

fn hex(bytes: &[u8]) -> String {
    bytes.iter().map(|b| format!("{b:02x}")).collect()
}

fn fields(t: Telemetry) -> String {
    format!("{} {} {} {} {}", t.temperature_c, t.voltage_cv, t.current_ca, t.consumption_mah, t.erpm_div100)
}

/// Room for the longest answer to each line.
fn answers(out: &mut impl Write) -> io::Result<()> {
    let mut text = Vec::new();
    io::stdin().read_to_end(&mut text)?;
    let lines = text.split(|c| *c == b'\n').count();
    let mut answers = vec![0; lines * ANSWER_CHARACTERS];
    let count = session(&text, &mut answers).expect("every answer has room");
    out.write_all(&answers[..count])
}

/// A frame that is read is written again as it was.
fn frame(out: &mut impl Write, name: &str, bytes: &[u8]) -> io::Result<()> {
    match read_frame(bytes) {
        Ok(t) => writeln!(out, "frame {name}: {}, written {}", fields(t), hex(&write_frame(t))),
        Err(Refused(number)) => writeln!(out, "frame {name}: refused {number}"),
    }
}

fn stream(out: &mut impl Write, name: &str, bytes: &[u8]) -> io::Result<()> {
    let (mut gave, mut found) = (vec![0; bytes.len()], vec![[0; FRAME_FIELDS]; bytes.len()]);
    let counts = parse_stream(bytes, &mut gave, &mut found).expect("every byte has room");
    for (i, sample) in found.iter().enumerate().filter(|(i, _)| gave[*i] == 1) {
        writeln!(out, "stream {name}: at {}: {}", i + 1, fields(telemetry(*sample)))?;
    }
    writeln!(out, "stream {name}: counts {} {} {}", counts[0], counts[1], counts[2])
}

fn capture(out: &mut impl Write, name: &str, bytes: &[u8]) -> io::Result<()> {
    let found = find_frame(bytes).map_or("none".to_string(), |start| start.to_string());
    writeln!(out, "capture {name}: {found}")
}

/// What README.md shows.
fn shown() -> Result<(), Refused> {
    assert_eq!(motor_of_lane(&[3, 1, 4, 2], 0)?, 3);
    assert_eq!(find_frame(b"\xff\x01\x02\x03\x04\x05\x06\x07\x08\x09\x85"), Some(1));
    Ok(())
}

fn due(out: &mut impl Write, start: u64, now: u64, duration: u32) -> io::Result<()> {
    let told = if elapsed_at_least(start, now, duration) { "yes" } else { "no" };
    writeln!(out, "Due({start}, {now}, {duration}): {told}")
}

/// Each lane's motor and each motor's lane, and the numbers next to them.
fn board_map(out: &mut impl Write, map: &[u8]) -> io::Result<()> {
    if let Err(Refused(number)) = motor_of_lane(map, 0) {
        return writeln!(out, "map {}: refused {number}", hex(map));
    }
    let told = |found: Result<u8, Refused>| found.map_or("-".to_string(), |n| n.to_string());
    let motors = [0, 1, 2, 3, 4].map(|lane| told(motor_of_lane(map, lane)));
    let lanes = [0, 1, 2, 3, 4, 5].map(|motor| told(lane_of_motor(map, motor)));
    writeln!(out, "map {}: lanes {}, motors {}", hex(map), motors.join(" "), lanes.join(" "))
}

fn speed(out: &mut impl Write, erpm_div100: u16, magnets: u8) -> io::Result<()> {
    match motor_speed(erpm_div100, magnets) {
        Ok(rpm) => writeln!(out, "speed {erpm_div100} {magnets} {rpm}"),
        Err(Refused(number)) => writeln!(out, "speed refused {number} {erpm_div100} {magnets}"),
    }
}

/// Row one and the row below it, of a sheet in all the room that it needs.
fn first_rows(out: &mut impl Write, samples: &[[u8; SAMPLE_BYTES]], magnets: u8) -> io::Result<()> {
    let mut text = vec![0; samples.len().div_ceil(PAGE_SAMPLES).max(1) * PAGE_CHARACTERS];
    match sheet(samples.as_flattened(), &[4, 2, 1, 3], magnets, &mut text) {
        Ok(written) => writeln!(out, "sheet: {written} characters")?,
        Err(Refused(number)) => return writeln!(out, "sheet: refused {number}"),
    }
    text.split(|c| *c == b'\n').take(2).try_for_each(|row| writeln!(out, "sheet |{}|", row.escape_ascii()))
}

fn main() -> io::Result<()> {
    let out = &mut io::stdout().lock();
    assert!(shown().is_ok());
    answers(out)?;
    writeln!(out, "crc8 digits: {:02x}", crc8(b"123456789"))?;
    frame(out, "cruise", &CRUISE)?;
    frame(out, "wrong check byte", b"\0\0\0\0\0\0\0\0\x1e\x5b")?;
    frame(out, "nine bytes", &CRUISE[..9])?;
    stream(out, "noise between", &[&CRUISE, &b"\x13\x37"[..], &COUNTING].concat())?;
    capture(out, "noise before", &[b"\xff\x00\x5a", &CRUISE[..]].concat())?;
    capture(out, "nine bytes", &CRUISE[..9])?;
    capture(out, "two that overlap", &[b"\xff", &COUNTING[..], b"\x68"].concat())?;
    due(out, 0, 20, 20)?;
    due(out, 0, 19, 20)?;
    due(out, 5, 4, 1)?;
    due(out, u64::MAX, 5, 10)?;
    board_map(out, &[3, 1, 4, 2])?;
    board_map(out, &[1, 2, 3])?;
    board_map(out, &[1, 2, 3, 3])?;
    speed(out, 70, 14)?;
    speed(out, 70, 13)?;
    first_rows(out, &[SAMPLE], 14)?;
    first_rows(out, &[SAMPLE], 13)
}
