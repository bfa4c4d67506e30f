//! Lines that stand for no record, or for one by chance.
use crate::layout::LENGTHS;
use crate::letters;
use crate::rng::Rng;
use crate::session::{hex, Session};

/// Characters about the ends of the digits, and those that a reader might take for one or skip.
pub const CHARACTERS: [u8; 16] = [0x00, b'\t', b'\r', b' ', b'/', b':', b'@', b'A', b'F', b'G', b'`', b'g', b'x', 0x7f, 0x80, 0xff];

fn digits(g: &mut Rng, n: usize) -> Vec<u8> {
    (0..n).map(|_| b"0123456789abcdef"[g.n(16) as usize]).collect()
}

/// A line of any sort.
pub fn line(g: &mut Rng) -> Vec<u8> {
    let width = g.n(64) as usize;
    let mut line = digits(g, width);
    match g.n(8) {
        0 => line.iter_mut().for_each(|c| *c = g.pick(&CHARACTERS)),
        1 => line.iter_mut().for_each(|c| *c = 0x0b + g.n(245) as u8),
        2 => line.push(b'\r'),
        3 => letters::any(g, &mut line),
        4 if !line.is_empty() => {
            let at = g.n(line.len() as u64) as usize;
            line[at] = g.pick(&CHARACTERS);
        }
        5 => {
            let more = g.pick(&[59, 60, 61, 64, 128, 4095, 4096, 4097, 70_000]);
            if more < 4000 || g.chance(50) {
                line = digits(g, more);
            }
        }
        6 => {
            // a record of the right kind and the wrong length, or with any fields
            let kind = g.n(17) as u8;
            let mut bytes = vec![kind; g.n(32) as usize];
            if let (true, Some(n)) = (g.chance(2), LENGTHS.get(kind as usize)) {
                bytes = (0..*n).map(|_| g.byte()).collect();
            }
            bytes.first_mut().into_iter().for_each(|k| *k = kind);
            line = hex(&bytes);
        }
        _ => {}
    }
    line
}

/// Every sort of line that is refused whatever the unit holds.
pub fn refused(s: &mut Session) {
    let _ = s.line(b"");
    for n in (1..58).step_by(2) {
        let odd = digits(&mut s.g, n);
        let _ = s.line(&odd);
    }
    for c in CHARACTERS {
        let _ = s.line(&[b'0', b'6', c]);
        let _ = s.line(&[c]);
        let _ = s.line(&[b'0', c]);
        let _ = s.line(&[b'0', b'6', c, b'0']);
    }
    for n in [59, 60, 200, 5001] {
        let wide = digits(&mut s.g, n);
        let _ = s.line(&wide);
    }
    let _ = s.line(&[b'g'; 58]);
    let _ = s.line(&[b'g'; 59]);
    let _ = s.line(b"06\r");
    for kind in [0x0f, 0x10, 0x7f, 0x80, 0xff] {
        let _ = s.bytes(&[kind]);
        let _ = s.bytes(&[kind; 29]);
    }
    for (kind, n) in LENGTHS.iter().enumerate() {
        let mut record = vec![kind as u8; n + 1];
        let _ = s.bytes(&record);
        record.truncate(n - 1);
        let _ = s.bytes(&record);
    }
    for (kind, at) in [(0x02, 5), (0x03, 5), (0x0d, 1), (0x0e, 1)] {
        for lane in [4, 0xff] {
            let mut record = vec![0; LENGTHS[kind as usize]];
            (record[0], record[at]) = (kind, lane);
            let _ = s.bytes(&record);
        }
    }
    for armed in [2, 0xff] {
        let _ = s.bytes(&[7, armed, 0, 0, 0, 0, 0, 0, 0, 0]);
    }
}

/// Before the first opening every other kind is refused, after what its bytes refuse it for.
pub fn unopened(s: &mut Session) {
    for (kind, n) in LENGTHS.iter().enumerate().skip(1) {
        let mut record = vec![0; *n];
        record[0] = kind as u8;
        let _ = s.bytes(&record);
    }
    refused(s);
    letters::unopened(s);
}

/// A batch of random lines.
pub fn some(s: &mut Session) {
    for _ in 0..20 {
        let line = line(&mut s.g);
        let _ = s.line(&line);
    }
}
