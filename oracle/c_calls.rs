//! The calls of libc_calls.a, over slices: what each answers, and what it leaves in what it is lent.
#[path = "../examples/rust/esc_unit.rs"]
mod esc_unit;
use esc_unit::raw::*;

pub fn crc8(bytes: &[u8]) -> u8 {
    unsafe { esc_crc8(bytes.as_ptr(), bytes.len()) }
}
pub fn frame_read(frame: &[u8], fields: &mut [u16]) -> u8 {
    unsafe { esc_frame_read(frame.as_ptr(), frame.len(), fields.as_mut_ptr(), fields.len()) }
}
pub fn frame_write([t, v, c, m, e]: [u16; 5], out: &mut [u8]) -> u8 {
    unsafe { esc_frame_write(t as u8, v, c, m, e, out.as_mut_ptr(), out.len()) }
}
pub fn stream_parse(bytes: &[u8], gave: &mut [u8], fields: &mut [u16], counts: &mut [u32]) -> u8 {
    let (marks, room, n) = (gave.len(), fields.len(), counts.len());
    unsafe { esc_stream_parse(bytes.as_ptr(), bytes.len(), gave.as_mut_ptr(), marks, fields.as_mut_ptr(), room, counts.as_mut_ptr(), n) }
}
pub fn elapsed_at_least(start: u64, now: u64, duration: u32) -> bool {
    unsafe { esc_elapsed_at_least(start, now, duration) }
}
pub fn unit_session(text: &[u8], out: &mut [u8], count: &mut usize) -> u8 {
    unsafe { esc_unit_session(text.as_ptr(), text.len(), out.as_mut_ptr(), out.len(), count) }
}
pub fn find_frame(capture: &[u8]) -> usize {
    unsafe { esc_find_frame(capture.as_ptr(), capture.len()) }
}
pub fn motor_speed(erpm_div100: u16, magnets: u8, rpm: &mut u32) -> u8 {
    unsafe { esc_motor_speed(erpm_div100, magnets, rpm) }
}
pub fn motor_of_lane(map: &[u8], lane: u8, motor: &mut u8) -> u8 {
    unsafe { esc_motor_of_lane(map.as_ptr(), map.len(), lane, motor) }
}
pub fn lane_of_motor(map: &[u8], motor: u8, lane: &mut u8) -> u8 {
    unsafe { esc_lane_of_motor(map.as_ptr(), map.len(), motor, lane) }
}
