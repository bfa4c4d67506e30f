//! The paper sheet, proved and Rust, of the same samples in one process.
//!
//! Both take the lent bytes of a flight's samples, a board map and magnets, and write into the same kind of buffer, which is
//! lent again each time, so it is mapped. The Rust is written as one would: `write!` into the lent output, nothing is
//! allocated.
//!
//!     sheet SAMPLES ROUNDS           both, in turns, the best of so many rounds
#[path = "../oracle/rng.rs"]
#[allow(dead_code)]
mod rng;
use rng::Rng;
use std::hint::black_box;
use std::io::Write;
use std::time::Instant;

extern "C" {
    fn esc_sheet(samples: *const u8, len: usize, map: *const u8, map_len: usize, magnets: u8, out: *mut u8, room: usize, written: *mut usize) -> u8;
}

const SAMPLE: usize = 22;
const ON_PAGE: usize = 40;
const WIDE: usize = 53;
const PAGE: usize = (ON_PAGE + 1) * (WIDE + 1);
/// What stands in a lent output before a call.
const FOUND: u8 = 0xa5;
const UNCOUNTED: usize = 0x5a5a;

/// What is lent but for the output.
struct Flight {
    samples: Vec<u8>,
    map: Vec<u8>,
    magnets: u8,
}

type Writer = fn(&Flight, &mut [u8], &mut usize) -> u8;

fn proved(flight: &Flight, out: &mut [u8], written: &mut usize) -> u8 {
    let Flight { samples, map, magnets } = flight;
    unsafe { esc_sheet(samples.as_ptr(), samples.len(), map.as_ptr(), map.len(), *magnets, out.as_mut_ptr(), out.len(), written) }
}

fn rust(flight: &Flight, out: &mut [u8], written: &mut usize) -> u8 {
    match sheet(&flight.samples, &flight.map, flight.magnets, out) {
        Ok(count) => {
            *written = count;
            0
        }
        Err(number) => number,
    }
}

/// How many characters were written, or the number that refuses.
fn sheet(samples: &[u8], map: &[u8], magnets: u8, out: &mut [u8]) -> Result<usize, u8> {
    let (samples, rest) = samples.as_chunks::<SAMPLE>();
    let map: &[u8; 4] = map.try_into().map_err(|_| 5)?;
    if !rest.is_empty() {
        return Err(5);
    }
    if samples.iter().any(|sample| sample[0] > 3) {
        return Err(6);
    }
    let pages = samples.len().div_ceil(ON_PAGE).max(1);
    let mut out = out.get_mut(..pages * PAGE).ok_or(9)?;
    if magnets == 0 || magnets % 2 == 1 {
        return Err(11);
    }
    if !(1..=4).all(|motor| map.contains(&motor)) {
        return Err(12);
    }
    for page in 0..pages {
        let rows = &samples[page * ON_PAGE..samples.len().min((page + 1) * ON_PAGE)];
        writeln!(out, "PAGE{:>6}{:43}", (page + 1) % 1_000_000, "").unwrap();
        for sample in rows {
            row(sample, map, magnets, &mut out);
        }
        for _ in rows.len()..ON_PAGE {
            writeln!(out, "{:WIDE$}", "").unwrap();
        }
    }
    Ok(pages * PAGE)
}

fn row(sample: &[u8; SAMPLE], map: &[u8; 4], magnets: u8, out: &mut &mut [u8]) {
    let sequence = u32::from_be_bytes(sample[1..5].try_into().unwrap());
    let observed = u64::from_be_bytes(sample[5..13].try_into().unwrap());
    let [lane, temperature] = [sample[0], sample[13]];
    let [voltage, erpm] = [14, 20].map(|at| u16::from_be_bytes([sample[at], sample[at + 1]]));
    let (motor, speed) = (map[usize::from(lane)], u32::from(erpm) * 200 / u32::from(magnets));
    writeln!(out, "{sequence:>10} {motor} {observed:>20} {speed:>7} {:>3}.{:02} {temperature:>4}", voltage / 100, voltage % 100).unwrap();
}

/// A flight's samples: in order, some 20 ms apart, numbers as they are in the air; or each number at its largest.
fn flight(name: &str, n: usize) -> Flight {
    let mut g = Rng::new(1);
    let mut observed = 5000;
    let sample = |i: usize| {
        observed += 15 + g.n(10);
        let numbers = [1400 + g.n(280), g.n(6000), g.n(2000), 40 + g.n(500)].map(|n| n as u16);
        match name {
            "flight" => sample_of(i as u32, observed, 30 + g.n(60) as u8, numbers),
            _ => [&[3][..], &[255; SAMPLE - 1]].concat(),
        }
    };
    let samples = (0..n).flat_map(sample).collect();
    Flight { samples, map: vec![4, 2, 1, 3], magnets: if name == "flight" { 14 } else { 2 } }
}

fn sample_of(sequence: u32, observed: u64, temperature: u8, numbers: [u16; 4]) -> Vec<u8> {
    let lane = (sequence % 4) as u8;
    let payload = numbers.map(u16::to_be_bytes).concat();
    [&[lane][..], &sequence.to_be_bytes(), &observed.to_be_bytes(), &[temperature], &payload].concat()
}

/// Fails if the two leave or answer anything different; with an output that has the room, and one that is short.
fn compared(flight: &Flight, room: usize) {
    for room in [room, room + 1, room - 1, 0] {
        let [own, rust] = [proved as Writer, rust].map(|write| {
            let (mut out, mut written) = (vec![FOUND; room], UNCOUNTED);
            let number = write(flight, &mut out, &mut written);
            (number, written, out)
        });
        assert!(own == rust, "the two differ with a room of {room}: {:?} and {:?}", (own.0, own.1), (rust.0, rust.1));
    }
}

fn main() {
    let words: Vec<usize> = std::env::args().skip(1).map(|word| word.parse().unwrap()).collect();
    let [samples, rounds] = words[..] else { panic!("see the usage at the top of sheet.rs") };
    let pages = samples.div_ceil(ON_PAGE).max(1);
    for name in ["flight", "largest"] {
        let flight = flight(name, samples);
        compared(&flight, pages * PAGE);
        let mut out = vec![FOUND; pages * PAGE];
        let mut best = [f64::INFINITY; 2];
        for round in 0..rounds {
            // who goes first changes
            for which in [round % 2, 1 - round % 2] {
                let mut written = 0;
                let start = Instant::now();
                let number = [proved as Writer, rust][which](black_box(&flight), black_box(&mut out), &mut written);
                best[which] = best[which].min(start.elapsed().as_secs_f64());
                assert_eq!((number, black_box(written)), (0, pages * PAGE));
            }
        }
        let [own, rust] = best.map(|seconds| seconds * 1e9 / pages as f64);
        println!("sheet, {name:<8}  {own:>8.0} ns/page       Rust {rust:>8.0} ns/page       ratio {:.2}   ({pages} pages)", own / rust);
    }
}
