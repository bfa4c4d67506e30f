//! The proved calls of libc_calls.a beside the Rust's, in one process.
//!
//! The Rust's `elapsed_at_least` is private: it is asked through `next_request` of a manager with a boot
//! delay, which calls it and nothing else that matters. The Rust has no frame writer: what is written is
//! read by its `decode`, and compared with the layout.
//! Usage: in_process ROUNDS SEED
mod airframe_calls;
mod c_calls;
mod captures;
mod rng;
use esc_manager::{EscManager, EscManagerConfig};
use ferrowasp_blheli_telemetry::{crc8, decode, EscTelemetry, StreamParser};
use rng::Rng;

/// What stands in a lent buffer before a call.
const FOUND: u8 = 0xa5;

fn fields(t: &EscTelemetry) -> [u16; 5] {
    [t.temperature_c.into(), t.voltage_cv, t.current_ca, t.consumption_mah, t.erpm_div100]
}
fn bytes(g: &mut Rng, n: u64) -> Vec<u8> {
    (0..n).map(|_| g.byte()).collect()
}
/// A frame, or bytes that are one but for a bit, a byte or their number.
fn frame(g: &mut Rng) -> Vec<u8> {
    let erpm = g.n(1 << 16) as u16;
    let mut frame = g.frame(erpm).to_vec();
    match g.n(6) {
        0 => frame[g.n(10) as usize] ^= 1 << g.n(8),
        1 => frame[g.n(10) as usize] = g.byte(),
        2 => {
            frame.remove(g.n(10) as usize);
        }
        3 => frame.insert(g.n(11) as usize, g.byte()),
        _ => {}
    }
    frame
}

fn crc(bytes: &[u8]) -> u64 {
    assert_eq!(c_calls::crc8(bytes), crc8(bytes), "crc8 of {bytes:02x?}");
    1
}

fn read(frame: &[u8], room: usize) -> u64 {
    let mut found = vec![u16::from(FOUND); room];
    let number = c_calls::frame_read(frame, &mut found);
    let mut wanted = vec![u16::from(FOUND); room];
    // the lowest number that fits
    let told = match <&[u8; 10]>::try_from(frame) {
        Err(_) => 5,
        Ok(_) if room < 5 => 9,
        Ok(ten) => match decode(ten) {
            Err(_) => 10,
            Ok(t) => {
                wanted[..5].copy_from_slice(&fields(&t));
                0
            }
        },
    };
    assert_eq!((number, &found), (told, &wanted), "reading {frame:02x?}, room {room}");
    1
}

fn write(numbers: [u16; 5], room: usize) -> u64 {
    let mut out = vec![FOUND; room];
    let number = c_calls::frame_write(numbers, &mut out);
    let mut wanted = vec![FOUND; room];
    if room >= 10 {
        wanted[0] = numbers[0] as u8;
        for (i, n) in numbers[1..].iter().enumerate() {
            wanted[1 + 2 * i..3 + 2 * i].copy_from_slice(&n.to_be_bytes());
        }
        wanted[9] = crc8(&wanted[..9]);
        let ten: &[u8; 10] = out[..10].try_into().unwrap();
        assert_eq!(decode(ten).map(|t| fields(&t)), Ok(numbers), "reading back {numbers:x?}");
    }
    assert_eq!((number, &out), (if room < 10 { 9 } else { 0 }, &wanted), "writing {numbers:x?}, room {room}");
    1
}

/// Noise, frames and damaged frames, one after the other.
fn stream(g: &mut Rng, n: usize) -> Vec<u8> {
    let mut stream = Vec::new();
    while stream.len() < n {
        let part = match g.n(8) {
            0 => {
                let n = g.n(30);
                bytes(g, n)
            }
            1 => vec![g.pick(&[0, 0xff, 0x07]); g.n(25) as usize],
            _ => frame(g),
        };
        stream.extend(part);
    }
    stream.truncate(n);
    stream
}

/// What the parser gives at each byte, and its counts. The buffers have two entries more than they need,
/// less what `short` takes off.
fn parse(stream: &[u8], short: [usize; 3]) -> u64 {
    let n = stream.len();
    let room = [n, 5 * n, 3].map(|x| x + 2);
    let refused = (0..3).any(|i| short[i] > 2);
    let [marks, entries, last] = [0, 1, 2].map(|i| room[i] - short[i]);
    let mut given = (vec![FOUND; marks], vec![u16::from(FOUND); entries], vec![u32::from(FOUND); last]);
    let mut wanted = given.clone();
    let number = c_calls::stream_parse(stream, &mut given.0, &mut given.1, &mut given.2);
    if !refused {
        let mut parser = StreamParser::new();
        for (i, b) in stream.iter().enumerate() {
            let sample = parser.push(*b);
            wanted.0[i] = sample.is_some().into();
            if let Some(t) = sample {
                wanted.1[5 * i..5 * i + 5].copy_from_slice(&fields(&t));
            }
        }
        let s = parser.stats();
        wanted.2[..3].copy_from_slice(&[s.valid_frames, s.crc_failures, s.discarded_bytes]);
    }
    if number != if refused { 9 } else { 0 } || given != wanted {
        let at = given.0.iter().zip(&wanted.0).position(|(a, b)| a != b);
        panic!("stream of {n} bytes, short {short:?}: answered {number}, first mark that differs {at:?}, counts {:?} and {:?}", given.2, wanted.2);
    }
    n as u64
}

fn elapsed(start: u64, now: u64, duration: u32) -> u64 {
    let config = EscManagerConfig { boot_delay_ms: duration, ..EscManagerConfig::legacy_uart() };
    let rust = EscManager::new(config, start).next_request(now).is_some();
    assert_eq!(c_calls::elapsed_at_least(start, now, duration), rust, "Due({start}, {now}, {duration})");
    1
}

fn main() {
    let words: Vec<u64> = std::env::args().skip(1).map(|w| w.parse().unwrap()).collect();
    let (rounds, mut g) = (words[0], Rng::new(words[1]));
    let [mut crcs, mut reads, mut writes, mut parsed, mut times] = [0_u64; 5];

    // every list of no byte, of one and of two
    crcs += crc(&[]);
    for high in 0..=255 {
        crcs += crc(&[high]);
        crcs += (0..=255).map(|low| crc(&[high, low])).sum::<u64>();
    }
    // every length and room about the limits, every single field
    for n in 0..=20 {
        for room in 0..=7 {
            let frame: Vec<u8> = frame(&mut g).into_iter().chain([0; 20]).take(n).collect();
            reads += read(&frame, room);
        }
    }
    for room in 0..=12 {
        writes += write([255, u16::MAX, 1, 256, 0], room);
    }
    for value in 0..=u16::MAX {
        for place in 0..5 {
            let mut numbers = [0; 5];
            numbers[place] = if place == 0 { value % 256 } else { value };
            writes += write(numbers, 10);
        }
    }
    for n in [0, 1, 9, 10, 11, 100] {
        let stream = stream(&mut g, n);
        for i in 0..3 {
            // no more than there are
            for by in 0..=5.min([n, 5 * n, 3][i] + 2) {
                let mut short = [0; 3];
                short[i] = by;
                parsed += parse(&stream, short);
            }
        }
    }
    // starts, durations, and nows about start + duration and about the ends of the clock
    let ends = [0, 1, 2, 1 << 16, 1 << 31, 1 << 32, 1 << 63, u64::MAX - 1, u64::MAX];
    let durations = [0, 1, 2, 19, 20, 65535, 65536, 1 << 31, u32::MAX - 1, u32::MAX];
    for start in ends {
        for duration in durations {
            for about in [start, start.wrapping_add(duration.into()), 0, 1 << 32, u64::MAX] {
                for off in [0_u64, 1, 2, u64::MAX, u64::MAX - 1] {
                    times += elapsed(start, about.wrapping_add(off), duration);
                }
            }
        }
    }

    for _ in 0..rounds {
        for _ in 0..20 {
            let n = g.n(64);
            crcs += crc(&bytes(&mut g, n));
            reads += read(&frame(&mut g), 5);
            let numbers = [g.n(256) as u16, g.n(1 << 16) as u16, g.n(1 << 16) as u16, g.n(1 << 16) as u16, g.n(1 << 16) as u16];
            writes += write(numbers, 10);
            let (start, duration) = (g.n(u64::MAX), g.n(1 << 32) as u32);
            let now = if g.chance(2) { g.n(u64::MAX) } else { start.wrapping_add(g.n(1 << 33)) };
            times += elapsed(start, now, duration);
        }
        let n = g.n(1000) as usize;
        parsed += parse(&stream(&mut g, n), [0; 3]);
    }
    let searches = captures::searches(&mut g, rounds);
    let speeds = airframe_calls::speeds();
    let maps = airframe_calls::maps(&mut g, rounds);
    println!(
        "in_process: crc8 {crcs}, frames read {reads}, written {writes}, stream bytes {parsed}, {searches}, \
        elapsed_at_least {times}, speeds {speeds}, conversions {maps}: no answer differs"
    );
}
