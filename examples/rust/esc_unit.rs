//! A safe binding of the unit's calls: link `libc_calls.a`, which `tools/build c_calls` writes.
//!
//! What each call does stands in `include/esc_unit.h`. Nothing is allocated: what a call writes goes into a buffer
//! that the caller lends, and a refusal leaves it as it was found.

/// The calls as the archive has them.
pub mod raw {
    extern "C" {
        pub fn esc_unit_session(text: *const u8, len: usize, out: *mut u8, room: usize, count: *mut usize) -> u8;
        pub fn esc_crc8(bytes: *const u8, len: usize) -> u8;
        pub fn esc_frame_read(frame: *const u8, len: usize, fields: *mut u16, room: usize) -> u8;
        pub fn esc_frame_write(temperature_c: u8, voltage_cv: u16, current_ca: u16, consumption_mah: u16, erpm_div100: u16, out: *mut u8, room: usize) -> u8;
        pub fn esc_stream_parse(bytes: *const u8, len: usize, gave: *mut u8, marks: usize, fields: *mut u16, room: usize, counts: *mut u32, n: usize) -> u8;
        pub fn esc_find_frame(capture: *const u8, len: usize) -> usize;
        pub fn esc_elapsed_at_least(start_ms: u64, now_ms: u64, duration_ms: u32) -> bool;
        pub fn esc_motor_speed(erpm_div100: u16, magnets: u8, rpm: *mut u32) -> u8;
        pub fn esc_motor_of_lane(map: *const u8, len: usize, lane: u8, motor: *mut u8) -> u8;
        pub fn esc_lane_of_motor(map: *const u8, len: usize, motor: u8, lane: *mut u8) -> u8;
        pub fn esc_sheet(samples: *const u8, len: usize, map: *const u8, map_len: usize, magnets: u8, out: *mut u8, room: usize, written: *mut usize) -> u8;
    }
}

/// The number of a refusal, 5 to 12.
#[derive(Clone, Copy, Debug, PartialEq, Eq)]
pub struct Refused(pub u8);

#[derive(Clone, Copy, Debug, PartialEq, Eq)]
pub struct Telemetry {
    pub temperature_c: u8,
    pub voltage_cv: u16,
    pub current_ca: u16,
    pub consumption_mah: u16,
    pub erpm_div100: u16,
}

pub const FRAME_BYTES: usize = 10;
pub const FRAME_FIELDS: usize = 5;

/// How many characters an answer takes at most, its LF included.
pub const ANSWER_CHARACTERS: usize = 87;

/// How many bytes a lent sample has, how many samples a page of the paper sheet, and how many characters.
pub const SAMPLE_BYTES: usize = 22;
pub const PAGE_SAMPLES: usize = 40;
pub const PAGE_CHARACTERS: usize = 2214;

fn accepted<T>(number: u8, value: T) -> Result<T, Refused> {
    if number == 0 {
        Ok(value)
    } else {
        Err(Refused(number))
    }
}

/// How many characters of answers were written.
pub fn session(text: &[u8], out: &mut [u8]) -> Result<usize, Refused> {
    let mut count = 0;
    let number = unsafe { raw::esc_unit_session(text.as_ptr(), text.len(), out.as_mut_ptr(), out.len(), &mut count) };
    accepted(number, count)
}

pub fn crc8(bytes: &[u8]) -> u8 {
    unsafe { raw::esc_crc8(bytes.as_ptr(), bytes.len()) }
}

pub fn read_frame(frame: &[u8]) -> Result<Telemetry, Refused> {
    let mut fields = [0; FRAME_FIELDS];
    let number = unsafe { raw::esc_frame_read(frame.as_ptr(), frame.len(), fields.as_mut_ptr(), fields.len()) };
    accepted(number, telemetry(fields))
}

pub fn write_frame(t: Telemetry) -> [u8; FRAME_BYTES] {
    let mut out = [0; FRAME_BYTES];
    // never refused: ten bytes are enough
    unsafe { raw::esc_frame_write(t.temperature_c, t.voltage_cv, t.current_ca, t.consumption_mah, t.erpm_div100, out.as_mut_ptr(), out.len()) };
    out
}

/// The counts of valid frames, CRC failures and discarded bytes. For each byte `gave` has a mark and `fields` five
/// places, which `telemetry` takes where the mark is 1.
pub fn parse_stream(bytes: &[u8], gave: &mut [u8], fields: &mut [[u16; FRAME_FIELDS]]) -> Result<[u32; 3], Refused> {
    let (marks, fields) = (gave.len(), fields.as_flattened_mut());
    let mut counts = [0; 3];
    let number = unsafe {
        raw::esc_stream_parse(bytes.as_ptr(), bytes.len(), gave.as_mut_ptr(), marks, fields.as_mut_ptr(), fields.len(), counts.as_mut_ptr(), counts.len())
    };
    accepted(number, counts)
}

pub fn telemetry([temperature, voltage_cv, current_ca, consumption_mah, erpm_div100]: [u16; FRAME_FIELDS]) -> Telemetry {
    Telemetry { temperature_c: temperature as u8, voltage_cv, current_ca, consumption_mah, erpm_div100 }
}

/// Where the first good frame starts.
pub fn find_frame(capture: &[u8]) -> Option<usize> {
    let place = unsafe { raw::esc_find_frame(capture.as_ptr(), capture.len()) };
    (place != capture.len()).then_some(place)
}

pub fn elapsed_at_least(start_ms: u64, now_ms: u64, duration_ms: u32) -> bool {
    unsafe { raw::esc_elapsed_at_least(start_ms, now_ms, duration_ms) }
}

/// Turns in a minute.
pub fn motor_speed(erpm_div100: u16, magnets: u8) -> Result<u32, Refused> {
    let mut rpm = 0;
    let number = unsafe { raw::esc_motor_speed(erpm_div100, magnets, &mut rpm) };
    accepted(number, rpm)
}

pub fn motor_of_lane(map: &[u8], lane: u8) -> Result<u8, Refused> {
    let mut motor = 0;
    let number = unsafe { raw::esc_motor_of_lane(map.as_ptr(), map.len(), lane, &mut motor) };
    accepted(number, motor)
}

pub fn lane_of_motor(map: &[u8], motor: u8) -> Result<u8, Refused> {
    let mut lane = 0;
    let number = unsafe { raw::esc_lane_of_motor(map.as_ptr(), map.len(), motor, &mut lane) };
    accepted(number, lane)
}

/// How many characters the sheet of lent samples has.
pub fn sheet(samples: &[u8], map: &[u8], magnets: u8, out: &mut [u8]) -> Result<usize, Refused> {
    let mut written = 0;
    let number = unsafe { raw::esc_sheet(samples.as_ptr(), samples.len(), map.as_ptr(), map.len(), magnets, out.as_mut_ptr(), out.len(), &mut written) };
    accepted(number, written)
}
