//! `esc_unit_session` of libc_calls.a beside the reference, in one process, on sessions cut out of a long one.
//! Usage: session_calls TEXT SESSIONS SEED
mod c_calls;
mod layout;
mod rng;
mod unit;
use rng::Rng;

/// What stands in the lent output and in the count before a call.
const FOUND: u8 = 0xa5;
const UNCOUNTED: usize = 0x5a5a;

/// The answers to the lines of a text: a last LF opens no further line, and empty input holds none.
fn answers(text: &[u8]) -> Vec<u8> {
    let (mut lines, mut out) = (layout::Lines::default(), Vec::new());
    for line in text.split_inclusive(|c| *c == b'\n') {
        let _ = lines.answer(line.strip_suffix(b"\n").unwrap_or(line), &mut out);
    }
    out
}

/// The call with an output of so many characters: all of the answers and their count, or 9 and nothing.
fn call(text: &[u8], wanted: &[u8], room: usize) {
    let (mut out, mut count) = (vec![FOUND; room], UNCOUNTED);
    let number = c_calls::unit_session(text, &mut out, &mut count);
    let mut left = vec![FOUND; room];
    let told = if room < wanted.len() {
        (9, UNCOUNTED)
    } else {
        left[..wanted.len()].copy_from_slice(wanted);
        (0, wanted.len())
    };
    if (number, count) != told || out != left {
        let at = out.iter().zip(&left).position(|(a, b)| a != b);
        panic!("room {room} for {}: {number} and {count}, not {told:?}; outputs first differ at {at:?}; the session is\n{}", wanted.len(), text.escape_ascii());
    }
}

/// Rooms that are exactly right, one short, more than enough, none, and any.
fn rooms(g: &mut Rng, n: usize) -> [usize; 5] {
    [n, n.saturating_sub(1), n + 7, 0, g.n(n as u64 + 2) as usize]
}

fn main() {
    let words: Vec<String> = std::env::args().skip(1).collect();
    let all = std::fs::read(&words[0]).unwrap();
    let (sessions, mut g) = (words[1].parse::<u64>().unwrap(), Rng::new(words[2].parse().unwrap()));
    let starts: Vec<usize> = (1..all.len() - 58).filter(|i| all[i - 1] == b'\n' && all[*i..].starts_with(b"00") && all[i + 58] == b'\n').collect();
    let (mut calls, mut characters) = (0, 0);
    for i in 0..sessions {
        // from an opening, or from anywhere; few characters or many
        let from = if g.chance(8) { g.n(all.len() as u64) as usize } else { g.pick(&starts) };
        let most = g.pick(&[0, 1, 59, 300, 3000, 3000, 10000]);
        let to = (from + g.n(most + 1) as usize).min(all.len());
        // a session may also begin with what stands before any opening
        let text = if i % 16 == 0 { &all[..to - from] } else { &all[from..to] };
        let wanted = answers(text);
        for room in rooms(&mut g, wanted.len()) {
            call(text, &wanted, room);
            calls += 1;
        }
        characters += text.len();
    }
    println!("session_calls: esc_unit_session {calls} times on {sessions} sessions of {characters} characters: no answer differs");
}
