//! Speed and the board map of libc_calls.a beside document 01's sentences: the Rust has neither.
use crate::c_calls;
use crate::rng::Rng;

/// What stands in the lent number before a call.
const FOUND: u8 = 0xa5;

/// Every speed: eRPM/100 × 200 divided by magnets, rounded down; 11 zero or odd.
pub fn speeds() -> u64 {
    for magnets in 0..=255_u8 {
        for erpm in 0..=u16::MAX {
            let mut rpm = FOUND.into();
            let number = c_calls::motor_speed(erpm, magnets, &mut rpm);
            let refused = magnets == 0 || magnets % 2 == 1;
            let wanted = if refused { (11, FOUND.into()) } else { (0, u32::from(erpm) * 200 / u32::from(magnets)) };
            assert_eq!((number, rpm), wanted, "speed of {erpm} with {magnets} magnets");
        }
    }
    256 << 16
}

/// The number that refuses, the lowest that fits: 5 not four bytes, 6 no lane 0 to 3 or no motor 1 to 4, 12 not each of
/// 1 to 4 once.
fn refusal(map: &[u8], in_range: bool) -> Option<u8> {
    if map.len() != 4 {
        Some(5)
    } else if !in_range {
        Some(6)
    } else if !(1..=4).all(|motor| map.contains(&motor)) {
        Some(12)
    } else {
        None
    }
}

/// Both conversions of a map, for every byte.
fn map(map: &[u8]) -> u64 {
    for byte in 0..=255_u8 {
        let mut motor = FOUND;
        let number = c_calls::motor_of_lane(map, byte, &mut motor);
        let wanted = match refusal(map, byte <= 3) {
            Some(number) => (number, FOUND),
            None => (0, map[usize::from(byte)]),
        };
        assert_eq!((number, motor), wanted, "the motor of lane {byte} by {map:?}");

        let mut lane = FOUND;
        let number = c_calls::lane_of_motor(map, byte, &mut lane);
        let wanted = match refusal(map, (1..=4).contains(&byte)) {
            Some(number) => (number, FOUND),
            None => (0, map.iter().position(|motor| *motor == byte).unwrap() as u8),
        };
        assert_eq!((number, lane), wanted, "the lane of motor {byte} by {map:?}");
    }
    2 * 256
}

/// Every map of at most five bytes 0 to 5, and any bytes.
pub fn maps(g: &mut Rng, rounds: u64) -> u64 {
    let mut calls = 0;
    for len in 0..=5 {
        for list in 0..6_u32.pow(len) {
            let bytes: Vec<u8> = (0..len).map(|i| (list / 6_u32.pow(i) % 6) as u8).collect();
            calls += map(&bytes);
        }
    }
    for _ in 0..rounds {
        let bytes: Vec<u8> = (0..g.n(7)).map(|_| g.byte()).collect();
        calls += map(&bytes);
    }
    calls
}
