//! The parser alone, proved and Rust, over the same bytes in one process.
//!
//! A stream goes in pieces of 4,000 bytes, each through a new parser. Both leave the same: a mark for each
//! byte, five fields where it gave a sample, three counts. The buffers are lent again for each piece,
//! so they are mapped and stay in the cache: what is measured is the parser, and not the memory.
//!
//!     parser time BYTES ROUNDS               both, interleaved, the best of so many rounds
//!     parser pass WHICH STREAM BYTES TIMES   one of them so many times, for counting instructions
#[path = "../oracle/c_calls.rs"]
#[allow(dead_code)]
mod c_calls;
#[path = "../oracle/rng.rs"]
#[allow(dead_code)]
mod rng;
use ferrowasp_blheli_telemetry::{crc8, StreamParser};
use rng::Rng;
use std::hint::black_box;
use std::time::Instant;

/// A multiple of ten: a clean stream has no frame cut in two.
const PIECE: usize = 4000;

#[derive(Clone, PartialEq)]
struct Buffers {
    gave: Vec<u8>,
    fields: Vec<u16>,
    counts: [u32; 3],
}

type Parse = fn(&[u8], &mut Buffers);

fn proved(bytes: &[u8], to: &mut Buffers) {
    assert_eq!(c_calls::stream_parse(bytes, &mut to.gave, &mut to.fields, &mut to.counts), 0);
}

fn rust(bytes: &[u8], to: &mut Buffers) {
    let mut parser = StreamParser::new();
    for ((byte, gave), fields) in bytes.iter().zip(&mut to.gave).zip(to.fields.as_chunks_mut::<5>().0) {
        *gave = match parser.push(*byte) {
            Some(t) => {
                *fields = [t.temperature_c.into(), t.voltage_cv, t.current_ca, t.consumption_mah, t.erpm_div100];
                1
            }
            None => 0,
        };
    }
    let s = parser.stats();
    to.counts = [s.valid_frames, s.crc_failures, s.discarded_bytes];
}

/// Frames one behind the other, of any nine bytes each; or any bytes.
fn stream(name: &str, n: usize) -> Vec<u8> {
    let mut g = Rng::new(1);
    let mut stream: Vec<u8> = (0..n).map(|_| g.byte()).collect();
    match name {
        "frames" => stream.as_chunks_mut::<10>().0.iter_mut().for_each(|f| f[9] = crc8(&f[..9])),
        _ => assert_eq!(name, "noise"),
    }
    stream
}

fn pass(parse: Parse, stream: &[u8], to: &mut Buffers) {
    for piece in stream.chunks(PIECE) {
        parse(black_box(piece), to);
        black_box(&mut *to);
    }
}

/// Fails if the two leave anything different; the samples that they found.
fn compared(stream: &[u8], to: &mut Buffers) -> usize {
    let mut wanted = to.clone();
    let mut samples = 0;
    for piece in stream.chunks(PIECE) {
        proved(piece, to);
        rust(piece, &mut wanted);
        assert!(*to == wanted, "the two differ");
        samples += to.counts[0] as usize;
    }
    samples
}

fn main() {
    let words: Vec<String> = std::env::args().skip(1).collect();
    let words: Vec<&str> = words.iter().map(String::as_str).collect();
    let mut to = Buffers { gave: vec![2; PIECE], fields: vec![7; 5 * PIECE], counts: [0; 3] };
    match words[..] {
        ["time", bytes, rounds] => {
            let (bytes, rounds) = (bytes.parse().unwrap(), rounds.parse().unwrap());
            for name in ["frames", "noise"] {
                let stream = stream(name, bytes);
                let samples = compared(&stream, &mut to);
                let mut best = [f64::INFINITY; 2];
                for round in 0..rounds {
                    // who goes first changes
                    for which in [round % 2, 1 - round % 2] {
                        let start = Instant::now();
                        pass([proved as Parse, rust][which], &stream, &mut to);
                        best[which] = best[which].min(start.elapsed().as_secs_f64());
                    }
                }
                let [own, rust] = best.map(|s| bytes as f64 / s / 1e6);
                println!("parser, {name:<6}  {own:>8.1} MB/s        Rust {rust:>8.1} MB/s        ratio {:.2}   ({samples} samples)", rust / own);
            }
        }
        ["pass", which, name, bytes, times] => {
            let parse = match which {
                "proved" => proved as Parse,
                "rust" => rust,
                _ => panic!("proved or rust"),
            };
            let stream = stream(name, bytes.parse().unwrap());
            for _ in 0..times.parse::<u32>().unwrap() {
                pass(parse, &stream, &mut to);
            }
        }
        _ => panic!("see the usage at the top of parser.rs"),
    }
}
