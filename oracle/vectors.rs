//! What crates/vectors must print: each line from the two Rust files, run on the same input, and where they have
//! nothing of it (frame writer, refusals, capture search, board map, speed) from documents 01 and 02.
//! A section of crates/vectors/src is a function here.
mod layout;
mod unit;
use esc_manager::*;
use ferrowasp_blheli_telemetry::{crc8, decode, EscTelemetry, StreamParser};
use layout::{read_record, write_answer, Lines};
use unit::{Record, Unit};

const CRUISE: &[u8] = b"\x19\x06\x90\x04\xd2\x02\x37\x04\xd2\xbc";
const DAMAGED: &[u8] = b"\x19\x06\x90\x04\xd2\x02\x37\x04\xd2\xbd";
const COUNTING: &[u8] = b"\x01\x02\x03\x04\x05\x06\x07\x08\x09\x85";

fn hex(bytes: &[u8]) -> String {
    bytes.iter().map(|b| format!("{b:02x}")).collect()
}
fn fields(t: &EscTelemetry) -> String {
    format!("{} {} {} {} {}", t.temperature_c, t.voltage_cv, t.current_ca, t.consumption_mah, t.erpm_div100)
}

fn crc() {
    let vectors: [(&str, &[u8]); 8] = [
        ("nothing", b""),
        ("80", b"\x80"),
        ("digits", b"123456789"),
        ("digits and their CRC", b"123456789\xf4"),
        ("01", b"\x01"),
        ("MLX90614 read", b"\xb4\x07\xb5\xd2\x3a"),
        ("MLX90614 write", b"\xb4\x22\x07\xc8"),
        ("ATM idle cell", b"\0\0\0\x01"),
    ];
    for (name, bytes) in vectors {
        println!("crc8 {name}: {:02x}", crc8(bytes));
    }
}

/// A frame that is read is written again as it was.
fn frames() {
    let vectors: [(&str, &[u8]); 9] = [
        ("ten zeros", &[0; 10]),
        ("eRPM/100 30", b"\0\0\0\0\0\0\0\0\x1e\x5a"),
        ("wrong check byte", b"\0\0\0\0\0\0\0\0\x1e\x5b"),
        ("nine bytes", &[0; 9]),
        ("eleven bytes", &[0; 11]),
        ("no bytes", b""),
        ("cruise", CRUISE),
        ("counting", COUNTING),
        ("largest", b"\xff\xff\xff\xff\xff\xff\xff\xff\xff\xd8"),
    ];
    for (name, frame) in vectors {
        print!("frame {name}: ");
        match frame.try_into().map(decode) {
            Ok(Ok(t)) => println!("{}, written {}", fields(&t), hex(frame)),
            Ok(Err(_)) => println!("refused 10"),
            Err(_) => println!("refused 5"),
        }
    }
}

fn fed(name: &str, parser: &mut StreamParser, bytes: &[u8]) {
    for (i, byte) in bytes.iter().enumerate() {
        if let Some(t) = parser.push(*byte) {
            println!("stream {name}: at {}: {}", i + 1, fields(&t));
        }
    }
}
fn counts(name: &str, parser: &StreamParser) {
    let s = parser.stats();
    println!("stream {name}: counts {} {} {}", s.valid_frames, s.crc_failures, s.discarded_bytes);
}
fn streams() {
    let lost = [&CRUISE[..3], &CRUISE[4..], COUNTING, CRUISE].concat();
    let vectors: [(&str, Vec<u8>); 7] = [
        ("noise before", [b"\xff\x00\x5a", CRUISE].concat()),
        ("noise between", [CRUISE, b"\x13\x37", COUNTING].concat()),
        ("noise after", [CRUISE, b"\xde\xad\xbe\xef\x01\x02\x03\x04\x05\x06\x07\x08"].concat()),
        ("back to back", [CRUISE, COUNTING].concat()),
        ("lost byte", lost),
        ("damaged check byte", [DAMAGED, COUNTING].concat()),
        ("zeros", vec![0; 25]),
    ];
    for (name, bytes) in vectors {
        let mut parser = StreamParser::new();
        fed(name, &mut parser, &bytes);
        counts(name, &parser);
    }
    let mut parser = StreamParser::new();
    fed("reset", &mut parser, DAMAGED);
    counts("reset", &parser);
    parser.reset();
    fed("reset", &mut parser, COUNTING);
    counts("reset", &parser);
}

/// The first window that the Rust's `decode` takes (document 02, Q-3).
fn captures() {
    let vectors: [(&str, Vec<u8>); 11] = [
        ("nothing", vec![]),
        ("nine bytes", CRUISE[..9].to_vec()),
        ("whole", CRUISE.to_vec()),
        ("damaged", [DAMAGED, &COUNTING[..5]].concat()),
        ("noise before", [b"\xff\x00\x5a", CRUISE].concat()),
        ("noise after", [CRUISE, b"\xde\xad\xbe\xef"].concat()),
        ("noise about", [b"\xde\xad\xbe\xef", COUNTING, b"\x13\x37"].concat()),
        ("twenty zeros", vec![0; 20]),
        ("one stray byte", [b"\xff", COUNTING].concat()),
        ("two that overlap", [b"\xff", COUNTING, b"\x68"].concat()),
        ("two apart", [b"\xff\x00\x5a", CRUISE, b"\xff", COUNTING].concat()),
    ];
    for (name, capture) in vectors {
        let good = |w: &[u8]| decode(w.try_into().unwrap()).is_ok();
        match capture.windows(10).position(good) {
            None => println!("capture {name}: none"),
            Some(start) => println!("capture {name}: {start}"),
        }
    }
}

fn lanes() {
    for (i, lane) in EscOutput::ALL.iter().enumerate() {
        println!("lane {} {}", lane.index(), EscOutput::ALL[(i + 1) % 4].index());
    }
}

fn check(c: EscIdleQualificationConfig) {
    let numbers = [c.min_erpm_div100.into(), c.max_erpm_div100.into(), c.spinup_grace_ms, c.timeout_ms, c.max_sample_age_ms];
    let valid = if c.is_valid() { "valid" } else { "invalid" };
    println!("{valid} settings {} {}", numbers.map(|n| n.to_string()).join(" "), c.required_consecutive_samples);
}
fn settings() {
    let c = EscManagerConfig::legacy_uart();
    let times = [c.boot_delay_ms, c.request_period_ms, c.actuator_ack_timeout_ms, c.telemetry_response_timeout_ms, c.recovery_quiet_ms];
    println!("settings legacy_uart {}", times.map(|t| t.to_string()).join(" "));
    print!("settings expiry, backoff, hold, throttle {ESC_REQUEST_EXPIRY_MS} {ESC_RETRY_BACKOFF_STEPS} ");
    println!("{DSHOT_PREARM_STOP_HOLD_MS} {DSHOT_IDLE_THROTTLE_COMMAND}");
    // the constant and the call that gives it
    check(DSHOT_IDLE_QUALIFICATION_CONFIG);
    check(DSHOT_IDLE_QUALIFICATION_CONFIG);
    let limits = [
        (0, 100, 250, 1200, 200, 3),
        (1, 2, 0, 1, 1, 1),
        (100, 100, 250, 1200, 200, 3),
        (30, 100, 1200, 1200, 200, 3),
        (30, 100, 250, 1200, 0, 3),
        (30, 100, 250, 1200, 200, 0),
    ];
    for (min_erpm_div100, max_erpm_div100, spinup_grace_ms, timeout_ms, max_sample_age_ms, required_consecutive_samples) in limits {
        check(EscIdleQualificationConfig { min_erpm_div100, max_erpm_div100, spinup_grace_ms, timeout_ms, max_sample_age_ms, required_consecutive_samples });
    }
}

fn idle() {
    let config = EscIdleQualificationConfig { spinup_grace_ms: 10, required_consecutive_samples: 2, ..DSHOT_IDLE_QUALIFICATION_CONFIG };
    let steady = [
        (0, 50, 9), (0, 30, 10), (1, 100, 11), (0, 29, 12), (2, 50, 211), (3, 50, 212), (3, 51, 213),
        (2, 52, 214), (1, 53, 215), (0, 54, 216), (1, 55, 217), (0, 56, 218), (0, 57, 5000),
    ];
    let fast = [(2, 100, 10), (2, 101, 11), (2, 50, 12)];
    for samples in [&steady[..], &fast] {
        let mut check = EscIdleQualification::new(config, 0);
        for (lane, erpm_div100, at) in samples {
            let sample = EscTelemetry { temperature_c: 0, voltage_cv: 0, current_ca: 0, consumption_mah: 0, erpm_div100: *erpm_div100 };
            let observation = EscTelemetryObservation { sample, observed_at_ms: *at, request_sequence: 0 };
            let verdict = match check.observe(EscTelemetryUpdate { output: EscOutput::ALL[*lane], observation }, *at) {
                EscIdleQualificationStatus::Pending => "pending",
                EscIdleQualificationStatus::Qualified => "qualified",
                EscIdleQualificationStatus::Failed(_) => "failed",
            };
            println!("idle {verdict} {at} {erpm_div100} {}", check.consecutive_samples().map(|n| n.to_string()).join(" "));
        }
    }
}

/// Document 01: the four bytes are the motors of lanes 0 to 3; 5 not four, 12 not each of 1 to 4 once. A lane above 3 and
/// a motor that is not 1 to 4 are a dash.
fn board_map() {
    let maps: [&[u8]; 9] = [
        &[1, 2, 3, 4], &[3, 1, 4, 2], &[], &[1, 2, 3], &[1, 1, 1], &[1, 2, 3, 4, 4], &[1, 2, 3, 3], &[0, 1, 2, 3], &[2, 3, 4, 5],
    ];
    for map in maps {
        print!("map {}: ", hex(map));
        if map.len() != 4 {
            println!("refused 5");
        } else if !(1..=4).all(|m| map.contains(&m)) {
            println!("refused 12");
        } else {
            let told = |x: Option<usize>| x.map_or("-".to_string(), |n| n.to_string());
            let motors = [0, 1, 2, 3, 4].map(|lane: usize| told(map.get(lane).map(|m| usize::from(*m))));
            let lanes = [0, 1, 2, 3, 4, 5].map(|motor: u8| told(map.iter().position(|m| *m == motor)));
            println!("lanes {}, motors {}", motors.join(" "), lanes.join(" "));
        }
    }
}

/// Document 01: eRPM/100 × 200 divided by magnets, rounded down; 11 zero or odd.
fn speed() {
    for (erpm, magnets) in [(70, 14), (70, 13), (70, 0), (70, 1), (0, 2), (1, 14), (65535, 2), (65535, 254), (65535, 255)] {
        if magnets == 0 || magnets % 2 == 1 {
            println!("speed refused 11 {erpm} {magnets}");
        } else {
            println!("speed {erpm} {magnets} {}", erpm * 200 / magnets);
        }
    }
}

/// The answer, or the number that refuses it, and a room that is less than any answer takes. None of the records that
/// lack room changes the unit, so that a refusal by 9 has nothing to undo.
fn call(lines: &mut Lines, room: usize, record: &[u8]) {
    let (mut printed, mut out) = (Vec::new(), "a5".repeat(room));
    let reply = lines.answer(hex(record).as_bytes(), &mut printed);
    let answer = String::from_utf8(printed).unwrap().trim_end().to_string();
    let told = match reply {
        Err(number) => format!("refused {number}"),
        Ok(_) if answer.len() > out.len() => "refused 9".into(),
        Ok(_) => {
            out.replace_range(..answer.len(), &answer);
            answer
        }
    };
    print!("call {}: {told}", hex(record));
    println!("{}", if room < 43 { format!(", room {out}") } else { String::new() });
}
/// A record that can't be read is no step. The unit that is stepped has had the same records as the one that is called.
fn step(unit: &mut Option<Unit>, record: &[u8]) {
    let Ok(record) = read_record(record) else { return };
    let mut answer = Vec::new();
    match (record, unit) {
        (Record::Open(config, boot), unit) => {
            *unit = Some(Unit::new(config, boot));
            answer.push(0);
        }
        (record, Some(unit)) => write_answer(&unit.step(record), &mut answer),
        (_, None) => return println!("step: refused 8"),
    }
    println!("step: {}", hex(&answer));
}
fn session() {
    let at = |first: &[u8], t: u64| [first, &t.to_be_bytes()].concat();
    let payload = [0x19, 0x06, 0x90, 0x04, 0xd2, 0x02, 0x37, 0x00, 0x32];
    let unopened = vec![vec![6], vec![0x0f], vec![0]];
    let document_01 = vec![
        at(&[0, 0, 0, 0, 0, 0, 0, 0, 0, 0, 0, 0, 20, 0, 0, 0, 100, 0, 0, 1, 0xf4], 0),
        at(&[1], 0), at(&[2, 0, 0, 0, 0, 0], 0), at(&[2, 0, 0, 0, 0, 0], 0), vec![],
        at(&[4], 20), at(&[7, 0], 519), at(&[7, 0], 520),
    ];
    let mut delivered = vec![
        at(&[0x0a, 0, 30, 0, 100, 0, 0, 0, 0, 0, 0, 0xea, 0x60, 0, 0, 0, 200, 1], 520),
        at(&[2, 0, 0, 0, 1, 1], 520), at(&at(&[3, 0, 0, 0, 1, 1], 521), 522),
    ];
    delivered.extend(payload.iter().chain([&crc8(&payload)]).map(|byte| at(&[5, *byte], 523)));
    let booked = vec![
        at(&[0x0b], 528), vec![8], vec![8], vec![6], vec![9], vec![0x0c], vec![0x0d, 1], vec![0x0d, 2], vec![0x0e, 1],
    ];
    let refused = vec![vec![0x0f], vec![5, 0], vec![0x0d, 4], at(&[7, 2], 0)];
    let whole = [unopened, document_01, delivered, booked, refused].concat();
    let short = [(6, at(&[1], 528)), (7, at(&[1], 528)), (3, vec![6]), (42, vec![0x0c]), (43, vec![0x0c])];
    let rooms = whole.into_iter().map(|record| (43, record)).chain(short);
    let (mut called, mut stepped) = (Lines::default(), None);
    for (room, record) in rooms {
        step(&mut stepped, &record);
        call(&mut called, room, &record);
    }
}

fn main() {
    crc();
    frames();
    streams();
    captures();
    lanes();
    settings();
    idle();
    board_map();
    speed();
    session();
}
